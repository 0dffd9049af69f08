//! The states that calls with a negative delay are to reach.

use super::document::arenas;
use super::never::speaks_of;
use super::pair::Agreed;
use super::{Moment, CHUNK, PAGES};
use sirqobal::lent::{Arena, Call};
use sirqobal::{Ask, Layer};

/// Each with the least number of times in a run.
pub const WANTED: &[(&str, u64)] = &[
    ("never, release: granted", 5_000),
    (OF_DELAY[0][0], 2_000),
    (OF_DELAY[0][1], 500),
    (OF_DELAY[0][2], 500),
    (OF_DELAY[0][3], 1_000),
    ("never, release: told committed", 1_000),
    ("never, release: told uncommitted", 500),
    ("never, release: held chunks", 1_000),
    ("never, release: a chunk that is pending", 500),
    ("never, release: older pending chunks, armed", 500),
    ("never, release: nothing pending, not armed", 2_000),
    ("never, release: refused 1", 50),
    ("never, release: refused 2", 500),
    ("never, release: refused 4", 500),
    ("never, release: refused 7", 200),
    ("never, release: refused 8", 1_000),
    ("never, release: refused 9", 500),
    ("never, unforced sweep: granted", 2_000),
    ("never, unforced sweep: delay 0 would ask", 500),
    (OF_DELAY[1][0], 200),
    (OF_DELAY[1][1], 50),
    (OF_DELAY[1][2], 50),
    (OF_DELAY[1][3], 100),
    ("never, unforced sweep: refused 1", 20),
    ("never, unforced sweep: refused 2", 200),
    ("never, forced sweep: asks", 300),
    ("never, forced sweep: asks nothing", 500),
    ("never, forced sweep: answered with another delay", 300),
    ("never, answer: a sweep begun with another delay", 2_000),
    (AFTERWARDS[0], 1_000),
    (AFTERWARDS[1], 1_000),
];

/// By call, then by delay.
const OF_DELAY: [[&str; 4]; 2] = [
    [
        "never, release: granted, -1",
        "never, release: granted, -2",
        "never, release: granted, -2^63",
        "never, release: granted, another",
    ],
    [
        "never, unforced sweep: it would ask, -1",
        "never, unforced sweep: it would ask, -2",
        "never, unforced sweep: it would ask, -2^63",
        "never, unforced sweep: it would ask, another",
    ],
];

/// After a release with a negative delay on the same layer, by force.
const AFTERWARDS: [&str; 2] = [
    "never before, unforced sweep from 0 on: asks",
    "never before, forced sweep from 0 on: asks",
];

type States = Vec<(&'static str, bool)>;

fn reached(states: States) -> Vec<&'static str> {
    let reached = states.into_iter().filter(|(_, holds)| *holds);
    reached.map(|(state, _)| state).collect()
}

/// What a call is about to reach, on the table before it, if it is refused with this number or granted.
pub fn before(
    layer: &Layer,
    moment: &Moment,
    call: &Call,
    refused: Option<u32>,
) -> Vec<&'static str> {
    if !speaks_of(moment.delay, call) {
        return Vec::new();
    }
    let kind = delay_kind(moment.delay);
    match (*call, refused) {
        (_, Some(number)) => turned_down(call, number).into_iter().collect(),
        (
            Call::ChunkRelease {
                address, n, told, ..
            },
            _,
        ) => {
            let mut states = release(layer, address, n);
            states.extend([
                ("never, release: granted", true),
                (OF_DELAY[0][kind], true),
                ("never, release: told committed", told > 0),
                ("never, release: told uncommitted", told == 0),
            ]);
            reached(states)
        }
        _ => {
            let asks = would_ask(layer, moment);
            reached(vec![
                ("never, unforced sweep: granted", true),
                ("never, unforced sweep: delay 0 would ask", asks),
                (OF_DELAY[1][kind], asks),
            ])
        }
    }
}

fn delay_kind(delay: i64) -> usize {
    match delay {
        -1 => 0,
        -2 => 1,
        i64::MIN => 2,
        _ => 3,
    }
}

fn turned_down(call: &Call, number: u32) -> Option<&'static str> {
    let release = matches!(call, Call::ChunkRelease { .. });
    Some(match (release, number) {
        (true, 1) => "never, release: refused 1",
        (true, 2) => "never, release: refused 2",
        (true, 4) => "never, release: refused 4",
        (true, 7) => "never, release: refused 7",
        (true, 8) => "never, release: refused 8",
        (true, 9) => "never, release: refused 9",
        (false, 1) => "never, unforced sweep: refused 1",
        (false, 2) => "never, unforced sweep: refused 2",
        _ => return None,
    })
}

/// Of the run that is given back, and its arena.
fn release(layer: &Layer, address: u64, n: usize) -> States {
    let place = |arena: &Arena| (address.wrapping_sub(arena.base) / CHUNK) as usize;
    let mut all = arenas(layer).iter();
    let Some(arena) = all.find(|arena| place(arena) < arena.chunks) else {
        return Vec::new();
    };
    let run = place(arena)..place(arena) + n;
    let armed = arena.deadline != 0;
    let pending = |chunk: usize| bit(&arena.pending, chunk);
    let older = (0..arena.chunks).any(|chunk| !run.contains(&chunk) && pending(chunk));
    let over = run.clone().any(pending);
    vec![
        (
            "never, release: held chunks",
            run.clone().any(|chunk| bit(&arena.used, chunk)),
        ),
        ("never, release: a chunk that is pending", over),
        (
            "never, release: older pending chunks, armed",
            older && armed,
        ),
        (
            "never, release: nothing pending, not armed",
            arena.pending == [0; 32] && !armed,
        ),
    ]
}

/// Whether a sweep with delay 0 would ask: a chunk is pending and not used in an arena that is armed and not
/// "skipped if due differs from now and due − now, wrapping, is below 2,147,483,647" (document 01).
fn would_ask(layer: &Layer, moment: &Moment) -> bool {
    let now = ((moment.ns / 1_000_000) as u32).max(1);
    let is_due = |arena: &&Arena| {
        let ahead = arena.deadline.wrapping_sub(now);
        arena.deadline != 0 && (ahead == 0 || ahead >= 2_147_483_647)
    };
    let waits = |arena: &Arena| (0..32).any(|word| arena.pending[word] & !arena.used[word] != 0);
    arenas(layer).iter().filter(is_due).any(waits)
}

/// What a call reached by its questions, their answers and what was tried meanwhile.
pub fn swept(agreed: &Agreed) -> Vec<&'static str> {
    let Some(((begun, call), rest)) = agreed.made.split_first() else {
        return Vec::new();
    };
    let never = begun.delay < 0;
    let forced = never && *call == Call::PurgeDue { force: true };
    let is_purge = |(ask, _): &(Ask, Option<u64>)| matches!(ask, Ask::Purge { .. });
    let asks = agreed.asked.iter().any(is_purge);
    let other = |(moment, made): &(Moment, Call)| {
        matches!(made, Call::Answer { kind: 2, .. }) && (moment.delay < 0) != never
    };
    let answered = asks && rest.iter().any(other);
    let nothing = forced && !asks && agreed.reply.number == 0;
    let mut states = vec![
        ("never, forced sweep: asks", forced && asks),
        ("never, forced sweep: asks nothing", nothing),
        (
            "never, forced sweep: answered with another delay",
            never && answered,
        ),
        (
            "never, answer: a sweep begun with another delay",
            !never && answered,
        ),
    ];
    states.extend(meanwhile(rest));
    reached(states)
}

/// What was tried while a question was open: with a sound page size it was refused with 2.
fn meanwhile(made: &[(Moment, Call)]) -> impl Iterator<Item = (&'static str, bool)> + '_ {
    made.iter().filter_map(|(moment, call)| {
        let named = speaks_of(moment.delay, call) && PAGES.contains(&moment.page);
        let state = turned_down(call, 2).filter(|_| named);
        state.map(|state| (state, true))
    })
}

/// What a sweep reached on a layer on which a pending release with a negative delay was granted before.
pub fn afterwards(moment: &Moment, call: &Call, agreed: &Agreed) -> Option<&'static str> {
    match call {
        Call::PurgeDue { force } if moment.delay >= 0 && !agreed.asked.is_empty() => {
            Some(AFTERWARDS[usize::from(*force)])
        }
        _ => None,
    }
}

fn bit(map: &[u32; 32], chunk: usize) -> bool {
    map[chunk / 32] >> (chunk % 32) & 1 == 1
}
