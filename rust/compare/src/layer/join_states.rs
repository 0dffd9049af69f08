//! The states that joins are to reach.

use super::joined::{shares_an_address, Said};
use super::plain::Table;
use super::{document, CHUNK, PAGES};
use sirqobal::lent::Arena;

/// Each with the least number of times in a run.
pub const WANTED: &[(&str, u64)] = &[
    ("joined", 20_000),
    ("joined: arenas on both sides", 5_000),
    ("joined: an empty first", 500),
    ("joined: an empty second", 500),
    ("joined: both empty", 100),
    ("joined: 32 arenas result", 200),
    ("joined: neighbouring ranges", 200),
    ("joined: a lower base comes behind a higher", 500),
    ("joined: something past the arenas of both", 200),
    ("joined: given up in neither", 500),
    ("joined: given up in the first", 200),
    ("joined: given up in the second", 200),
    ("joined: given up in both", 200),
    ("joined: deadlines and stamps move", 500),
    ("joined: pending chunks move", 500),
    ("joined: held chunks of an exclusive arena move", 500),
    ("joined: flags above 1 move", 200),
    ("joined: into the first again", 500),
    ("joined: the second once emptied", 500),
    ("joined: the second itself joined before", 500),
    ("refused 1", 500),
    (BROKEN[0], 200),
    (BROKEN[1], 200),
    ("refused 1, a page size", 200),
    ("refused 1, and the other table asks", 50),
    ("refused 2", 500),
    (ASKS[0][0], 50),
    (ASKS[0][1], 50),
    (ASKS[0][2], 50),
    (ASKS[0][3], 50),
    (ASKS[1][0], 50),
    (ASKS[1][1], 50),
    (ASKS[1][2], 50),
    (ASKS[1][3], 50),
    ("refused 2, both ask", 50),
    ("refused 2, and ranges overlap", 50),
    ("refused 2, and too many arenas", 50),
    ("refused 17", 500),
    ("refused 17, and too many arenas", 200),
    ("refused 18", 500),
    ("refused 18, 33 arenas", 200),
    ("in a joined arena: claim", 5_000),
    ("in a joined arena: claim by its new id, exclusive", 1_000),
    ("in a joined arena: release", 5_000),
    ("in a joined arena: growth", 200),
    ("in a joined arena: purge", 5_000),
    ("in a joined arena: commit no", 100),
];

const BROKEN: [&str; 2] = [
    "refused 1, the first's table",
    "refused 1, the second's table",
];

/// By side, then by kind.
const ASKS: [[&str; 4]; 2] = [
    [
        "refused 2, the first asks for a commit",
        "refused 2, the first asks for a purge",
        "refused 2, the first asks for memory",
        "refused 2, the first gives back",
    ],
    [
        "refused 2, the second asks for a commit",
        "refused 2, the second asks for a purge",
        "refused 2, the second asks for memory",
        "refused 2, the second gives back",
    ],
];

/// What this join reached; `said` is what the paper says of it.
pub fn reached(first: &Table, second: &Table, said: &Said, page: u64) -> Vec<&'static str> {
    let states = match said {
        Said::Joined(_) => [
            side_by_side(first, second),
            marks(first, second),
            moves(second),
        ]
        .concat(),
        Said::Refused(1) => broken([first, second], page),
        Said::Refused(2) => asks([first, second]),
        Said::Refused(number) => {
            let count = first.state.count + second.state.count;
            vec![
                ("refused 17", *number == 17),
                (
                    "refused 17, and too many arenas",
                    *number == 17 && count > 32,
                ),
                ("refused 18", *number == 18),
                ("refused 18, 33 arenas", count == 33 && *number == 18),
            ]
        }
    };
    let reached = states.into_iter().filter(|(_, holds)| *holds);
    reached.map(|(state, _)| state).collect()
}

type States = Vec<(&'static str, bool)>;

fn side_by_side(first: &Table, second: &Table) -> States {
    let counts = (first.state.count, second.state.count);
    let some = |meet: fn(&Arena, &Arena) -> bool| {
        let mut stay = first.arenas().iter();
        stay.any(|one| second.arenas().iter().any(|other| meet(one, other)))
    };
    vec![
        ("joined", true),
        (
            "joined: arenas on both sides",
            counts.0 != 0 && counts.1 != 0,
        ),
        ("joined: an empty first", counts.0 == 0 && counts.1 != 0),
        ("joined: an empty second", counts.0 != 0 && counts.1 == 0),
        ("joined: both empty", counts == (0, 0)),
        ("joined: 32 arenas result", counts.0 + counts.1 == 32),
        ("joined: neighbouring ranges", some(neighbours)),
        (
            "joined: a lower base comes behind a higher",
            some(|one, other| other.base < one.base),
        ),
        (
            "joined: something past the arenas of both",
            has_rest(first) && has_rest(second),
        ),
    ]
}

fn marks(first: &Table, second: &Table) -> States {
    let marks = (first.state.mark, second.state.mark);
    vec![
        ("joined: given up in neither", marks == (0, 0)),
        ("joined: given up in the first", marks == (1, 0)),
        ("joined: given up in the second", marks == (0, 1)),
        ("joined: given up in both", marks == (1, 1)),
    ]
}

fn moves(second: &Table) -> States {
    let moved = second.arenas();
    let some = |holds: fn(&Arena) -> bool| moved.iter().any(holds);
    let mut stamps = second.stamps.chunks(1_024).zip(moved);
    let armed = stamps.any(|(stamps, arena)| arena.deadline != 0 && *stamps != [0; 1_024]);
    let holds = |arena: &Arena| arena.is_exclusive() && arena.used != [0; 32];
    vec![
        ("joined: deadlines and stamps move", armed),
        (
            "joined: pending chunks move",
            some(|arena| arena.pending != [0; 32]),
        ),
        (
            "joined: held chunks of an exclusive arena move",
            some(holds),
        ),
        (
            "joined: flags above 1 move",
            some(|arena| arena.exclusive > 1 && arena.owned > 1),
        ),
    ]
}

fn neighbours(one: &Arena, other: &Arena) -> bool {
    let end = |arena: &Arena| arena.base + arena.chunks as u64 * CHUNK;
    end(one) == other.base || end(other) == one.base
}

/// Whether what lies past the arenas that stand is not all blank.
fn has_rest(table: &Table) -> bool {
    table
        .records
        .get(table.state.count)
        .is_some_and(|record| *record != Arena::EMPTY)
}

fn broken(both: [&Table; 2], page: u64) -> States {
    let is_broken =
        both.map(|table| document::broken(&table.records, &table.stamps, &table.state, 4_096));
    let asks = both.map(|table| table.state.question != 0);
    vec![
        ("refused 1", true),
        (BROKEN[0], is_broken == [true, false]),
        (BROKEN[1], is_broken == [false, true]),
        (
            "refused 1, a page size",
            is_broken == [false; 2] && !PAGES.contains(&page),
        ),
        (
            "refused 1, and the other table asks",
            is_broken == [true, false] && asks[1] || is_broken == [false, true] && asks[0],
        ),
    ]
}

fn asks([first, second]: [&Table; 2]) -> States {
    let kinds = [first, second].map(|table| table.state.question);
    let mut states = vec![
        ("refused 2", true),
        ("refused 2, both ask", kinds[0] != 0 && kinds[1] != 0),
        (
            "refused 2, and ranges overlap",
            shares_an_address(first, second),
        ),
        (
            "refused 2, and too many arenas",
            first.state.count + second.state.count > 32,
        ),
    ];
    for (side, kind) in kinds.into_iter().enumerate().filter(|(_, kind)| *kind != 0) {
        states.push((ASKS[side][kind as usize - 1], true));
    }
    states
}
