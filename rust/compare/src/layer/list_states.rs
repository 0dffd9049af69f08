//! The states that lists of releases are to reach.

use super::lists::{List, Said};
use super::pair::{claims, Agreed};
use super::plain::Table;
use super::{document, Moment, CHUNK, PAGES};
use sirqobal::lent::{Arena, Call};
use sirqobal::Ask;

/// Each with the least number of times in a run.
pub const WANTED: &[(&str, u64)] = &[
    ("list: granted", 10_000),
    ("list: no item", 300),
    ("list: 1 item", 1_000),
    ("list: 2 to 31 items", 5_000),
    ("list: 32 to 400 items", 300),
    ("list: 32,768 items", 2),
    ("list: pending, a delay from 0 on", 3_000),
    ("list: pending, a negative delay", 500),
    ("list: not pending", 2_000),
    ("list: several items, all granted", 1_000),
    ("list: several items, none granted", 500),
    ("list: refused items with several numbers", 500),
    (AT[0][0], 200),
    (AT[0][1], 200),
    (AT[0][2], 200),
    (AT[0][3], 200),
    (AT[1][0], 200),
    (AT[1][1], 200),
    (AT[1][2], 200),
    (AT[1][3], 200),
    (AT[2][0], 200),
    (AT[2][1], 200),
    (AT[2][2], 200),
    (AT[2][3], 200),
    ("list: an item twice, granted", 500),
    ("list: items that overlap, granted", 500),
    ("list: items of several arenas, granted", 1_000),
    ("list: a run over a word border", 500),
    ("list: held chunks", 2_000),
    ("list: chunks that are not held", 2_000),
    ("list: pending chunks", 1_000),
    ("list: committed chunks", 2_000),
    ("list: chunks that are not committed", 1_000),
    ("list: pending, an arena that is not armed", 1_000),
    ("list: pending, an arena that is armed", 1_000),
    ("list refused 1, a page size", 200),
    ("list refused 1, a table", 200),
    ("list refused 1, and the table asks", 50),
    ("list refused 1, and the lengths differ", 50),
    (ASKS[0], 50),
    (ASKS[1], 50),
    (ASKS[2], 50),
    (ASKS[3], 50),
    ("list refused 2, and the lengths differ", 100),
    (DIFFER[0], 200),
    (DIFFER[1], 200),
    (DIFFER[2], 200),
    ("list refused 19, all lengths differ", 50),
    ("list refused 19, 32,769 items", 2),
    ("list refused 19, an item less", 100),
    ("list refused 19, an item more", 100),
    ("after a list: a claim gets what it gave back", 2_000),
    ("after a list: a purge of what it gave back", 2_000),
    ("after a list: a release of what it gave back", 500),
    ("after a list: the layer is joined", 1_000),
    ("after a list: another", 5_000),
];

/// By place, then by number: 4, 7, 8, 9.
const AT: [[&str; 4]; 3] = [
    [
        "list: 4 at the first place, then a grant",
        "list: 7 at the first place, then a grant",
        "list: 8 at the first place, then a grant",
        "list: 9 at the first place, then a grant",
    ],
    [
        "list: 4 between grants",
        "list: 7 between grants",
        "list: 8 between grants",
        "list: 9 between grants",
    ],
    [
        "list: 4 at the last place, behind a grant",
        "list: 7 at the last place, behind a grant",
        "list: 8 at the last place, behind a grant",
        "list: 9 at the last place, behind a grant",
    ],
];

/// By kind of the question.
const ASKS: [&str; 4] = [
    "list refused 2, the table asks for a commit",
    "list refused 2, the table asks for a purge",
    "list refused 2, the table asks for memory",
    "list refused 2, the table gives back",
];

/// By the one that differs.
const DIFFER: [&str; 3] = [
    "list refused 19, the addresses' length differs",
    "list refused 19, the counts' length differs",
    "list refused 19, the answers' length differs",
];

type States = Vec<(&'static str, bool)>;

/// What a list reached on this table; `said` is what the paper says of it.
pub fn reached(table: &Table, moment: &Moment, list: &List, said: &Said) -> Vec<&'static str> {
    let states = match said {
        Said::Answered(numbers) => [
            lengths(moment, list),
            numbered(numbers),
            granted(table, list, numbers),
        ]
        .concat(),
        Said::Refused(1) => broken(table, moment.page, list),
        Said::Refused(2) => vec![
            (ASKS[table.state.question as usize - 1], true),
            ("list refused 2, and the lengths differ", !list.agrees()),
        ],
        Said::Refused(_) => too_long(list),
    };
    let reached = states.into_iter().filter(|(_, holds)| *holds);
    reached.map(|(state, _)| state).collect()
}

fn lengths(moment: &Moment, list: &List) -> States {
    let length = list.lengths[0];
    let never = moment.delay < 0;
    vec![
        ("list: granted", true),
        ("list: no item", length == 0),
        ("list: 1 item", length == 1),
        ("list: 2 to 31 items", (2..32).contains(&length)),
        ("list: 32 to 400 items", (32..=400).contains(&length)),
        ("list: 32,768 items", length == 32_768),
        ("list: pending, a delay from 0 on", list.pending && !never),
        ("list: pending, a negative delay", list.pending && never),
        ("list: not pending", !list.pending),
    ]
}

/// Of the numbers at the places of the answers.
fn numbered(numbers: &[u32]) -> States {
    let first = numbers.iter().position(|number| *number == 0);
    let last = numbers.iter().rposition(|number| *number == 0);
    let mut refused = numbers.iter().filter(|number| **number != 0);
    let one = refused.next();
    let several = numbers.len() > 1;
    let mut states = vec![
        ("list: several items, all granted", several && one.is_none()),
        (
            "list: several items, none granted",
            several && first.is_none(),
        ),
        (
            "list: refused items with several numbers",
            refused.any(|number| Some(number) != one),
        ),
    ];
    let (Some(first), Some(last)) = (first, last) else {
        return states;
    };
    let ends = [
        (0, 0, first > 0),
        (2, numbers.len() - 1, last + 1 < numbers.len()),
    ];
    let within = (first..last).map(|place| (1, place, true));
    for (at, place, holds) in ends.into_iter().chain(within) {
        let number = [4, 7, 8, 9].into_iter().position(|n| n == numbers[place]);
        states.extend(number.map(|number| (AT[at][number], holds)));
    }
    states
}

/// So many granted items are looked at.
const LOOKED_AT: usize = 40;

/// A granted item: its arena and its chunks.
#[derive(PartialEq)]
struct Run {
    id: usize,
    start: usize,
    end: usize,
}

/// Of the runs that are given back.
fn granted(table: &Table, list: &List, numbers: &[u32]) -> States {
    let items = list.items.iter().zip(numbers);
    let granted = items.filter(|(_, number)| **number == 0);
    let runs = granted.filter_map(|(item, _)| run(table, *item));
    let runs: Vec<Run> = runs.take(LOOKED_AT).collect();
    [
        meeting(&runs),
        chunks(table, &runs),
        arenas(table, &runs, list.pending),
    ]
    .concat()
}

/// Of the chunks, before they are given back.
fn chunks(table: &Table, runs: &[Run]) -> States {
    let some = |map: fn(&Arena) -> &[u32; 32], on: bool| {
        runs.iter().any(|run| {
            let map = map(&table.records[run.id]);
            (run.start..run.end).any(|chunk| bit(map, chunk) == on)
        })
    };
    vec![
        ("list: held chunks", some(|arena| &arena.used, true)),
        (
            "list: chunks that are not held",
            some(|arena| &arena.used, false),
        ),
        ("list: pending chunks", some(|arena| &arena.pending, true)),
        (
            "list: committed chunks",
            some(|arena| &arena.committed, true),
        ),
        (
            "list: chunks that are not committed",
            some(|arena| &arena.committed, false),
        ),
    ]
}

fn arenas(table: &Table, runs: &[Run], pending: bool) -> States {
    let armed = |on: bool| {
        let holds = |run: &Run| (table.records[run.id].deadline != 0) == on;
        pending && runs.iter().any(holds)
    };
    vec![
        (
            "list: items of several arenas, granted",
            runs.iter().any(|run| run.id != runs[0].id),
        ),
        (
            "list: a run over a word border",
            runs.iter().any(|run| run.start / 32 != (run.end - 1) / 32),
        ),
        ("list: pending, an arena that is not armed", armed(false)),
        ("list: pending, an arena that is armed", armed(true)),
    ]
}

/// Whether some of the runs are the same, or share a chunk.
fn meeting(runs: &[Run]) -> States {
    let some = |meet: fn(&Run, &Run) -> bool| {
        let mut places = 0..runs.len();
        places.any(|place| {
            runs[..place]
                .iter()
                .any(|before| meet(before, &runs[place]))
        })
    };
    vec![
        (
            "list: an item twice, granted",
            some(|one, other| one == other),
        ),
        (
            "list: items that overlap, granted",
            some(|one, other| {
                let shares = one.start < other.end && other.start < one.end;
                one != other && one.id == other.id && shares
            }),
        ),
    ]
}

fn run(table: &Table, (address, count): (u64, u32)) -> Option<Run> {
    let place = |arena: &Arena| (address.wrapping_sub(arena.base) / CHUNK) as usize;
    let mut arenas = table.arenas().iter();
    let id = arenas.position(|arena| place(arena) < arena.chunks)?;
    let start = place(&table.records[id]);
    let end = start + count as usize;
    Some(Run { id, start, end })
}

fn broken(table: &Table, page: u64, list: &List) -> States {
    let is_broken = document::broken(&table.records, &table.stamps, &table.state, 4_096);
    let asks = table.state.question != 0;
    vec![
        (
            "list refused 1, a page size",
            !is_broken && !PAGES.contains(&page),
        ),
        ("list refused 1, a table", is_broken),
        ("list refused 1, and the table asks", asks),
        ("list refused 1, and the lengths differ", !list.agrees()),
    ]
}

fn too_long(list: &List) -> States {
    let [addresses, counts, answers] = list.lengths;
    let mut sorted = list.lengths;
    sorted.sort();
    let [least, between, most] = sorted;
    vec![
        (DIFFER[0], addresses != counts && counts == answers),
        (DIFFER[1], counts != addresses && addresses == answers),
        (DIFFER[2], answers != addresses && addresses == counts),
        (
            "list refused 19, all lengths differ",
            addresses != counts && counts != answers && answers != addresses,
        ),
        ("list refused 19, 32,769 items", list.lengths == [32_769; 3]),
        (
            "list refused 19, an item less",
            least + 1 == most && between == most,
        ),
        (
            "list refused 19, an item more",
            least + 1 == most && between == least,
        ),
    ]
}

/// What a call reached on a layer on which these items of a list were granted before.
pub fn afterwards(call: &Call, agreed: &Agreed, given_back: &[(u64, u32)]) -> Vec<&'static str> {
    let was = |address: u64| {
        let inside =
            |(start, count): &(u64, u32)| address.wrapping_sub(*start) < u64::from(*count) * CHUNK;
        given_back.iter().any(inside)
    };
    let purges =
        |(ask, _): &(Ask, Option<u64>)| matches!(ask, Ask::Purge { address, .. } if was(*address));
    let granted = agreed.reply.number == 0;
    let releases = matches!(call, Call::ChunkRelease { address, .. } if was(*address));
    let states = [
        (
            "after a list: a claim gets what it gave back",
            granted && claims(call).is_some() && was(agreed.reply.address),
        ),
        (
            "after a list: a purge of what it gave back",
            agreed.asked.iter().any(purges),
        ),
        (
            "after a list: a release of what it gave back",
            granted && releases,
        ),
    ];
    let reached = states.into_iter().filter(|(_, holds)| *holds);
    reached.map(|(state, _)| state).collect()
}

fn bit(map: &[u32; 32], chunk: usize) -> bool {
    map[chunk / 32] >> (chunk % 32) & 1 == 1
}
