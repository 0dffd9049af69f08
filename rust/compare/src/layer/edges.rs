//! Joins at their edges: copies of two tables, changed so that ranges meet, that arenas are just too
//! many, that a table asks or is broken. Lists too are made on tables that ask or are broken.

use super::draw::any_arena;
use super::plain::Table;
use super::{Moment, CHUNK};
use crate::rng::Rng;
use sirqobal::lent::{Arena, State, RECORDS};

/// Changes two tables and what the join carries.
pub fn change(rng: &mut Rng, both: &mut [Table; 2], moment: &mut Moment) {
    if rng.percent(50) {
        meet(rng, both);
    }
    if rng.percent(40) {
        fill(rng, both);
    }
    if rng.percent(30) {
        let mark = [(); 2].map(|()| rng.percent(50).into());
        [both[0].state.mark, both[1].state.mark] = mark;
    }
    if rng.percent(30) {
        both.iter_mut().for_each(|table| leave(rng, table));
    }
    let sides: &[usize] = match rng.below(20) {
        0 | 1 => &[0],
        2 | 3 => &[1],
        4 | 5 => &[0, 1],
        _ => &[],
    };
    for side in sides {
        ask(rng, &mut both[*side]);
    }
    match rng.below(10) {
        0 => {
            let side = rng.below(2) as usize;
            damage(rng, &mut both[side]);
        }
        1 if rng.percent(30) => moment.page = rng.pick(&[0, 1, 2_048, 4_097, 12_288, 1 << 17]),
        _ => {}
    }
}

/// Moves an arena of one table to one of the other's: beside it, or into it by a chunk or more.
fn meet(rng: &mut Rng, both: &mut [Table; 2]) {
    let side = rng.below(2) as usize;
    let Some(still) = some_id(rng, &both[side]).map(|id| both[side].records[id]) else {
        return;
    };
    let moving = &mut both[1 - side];
    if moving.state.count == 0 {
        let chunks = rng.between(1, 40);
        let arena = any_arena(rng, CHUNK, chunks, 0, true);
        push(moving, arena);
    }
    let id = some_id(rng, moving).expect("it has one");
    let moved = &mut moving.records[id];
    let (size, end) = (
        moved.chunks as u64 * CHUNK,
        still.base + still.chunks as u64 * CHUNK,
    );
    let within = rng.below(still.chunks as u64) * CHUNK;
    moved.base = match rng.below(8) {
        0 | 1 => still.base.wrapping_sub(size),
        2 | 3 => end,
        4 => still.base.wrapping_sub(size).wrapping_add(CHUNK),
        5 => end - CHUNK,
        6 => still.base,
        _ => still.base + within,
    };
}

/// Adds arenas far up until the two have 32, or some more.
fn fill(rng: &mut Rng, both: &mut [Table; 2]) {
    let wanted = rng.pick(&[31, 32, 32, 33, 33, 34, 50, 64]);
    let mut base = CHUNK * rng.between(1 << 30, 1 << 31);
    while both[0].state.count + both[1].state.count < wanted {
        let mut side = rng.below(2) as usize;
        if both[side].state.count == RECORDS {
            side = 1 - side;
        }
        let chunks = rng.between(1, 40);
        let deadline = rng.bits() as u32;
        let arena = any_arena(rng, base, chunks, deadline, true);
        push(&mut both[side], arena);
        base += CHUNK * (chunks + rng.below(2));
    }
}

/// Something lies past the arenas that stand.
fn leave(rng: &mut Rng, table: &mut Table) {
    let count = table.state.count;
    let bits = rng.bits();
    table.records[count..].fill(any_arena(rng, bits, 9_999, 1, false));
    table.stamps[1_024 * count..].fill(bits as u32);
}

/// One arena more. Its stamps are whatever stands there.
fn push(table: &mut Table, arena: Arena) {
    table.records[table.state.count] = arena;
    table.state.count += 1;
}

fn some_id(rng: &mut Rng, table: &Table) -> Option<usize> {
    let count = table.state.count;
    (count != 0).then(|| rng.below(count as u64) as usize)
}

/// A question of any kind is open, as a call leaves it.
pub fn ask(rng: &mut Rng, table: &mut Table) {
    let idle = State {
        count: table.state.count,
        mark: table.state.mark,
        ..State::EMPTY
    };
    table.state = match some_id(rng, table) {
        Some(id) if rng.percent(50) => {
            let arena = &mut table.records[id];
            let start = rng.below(arena.chunks as u64) as usize;
            arena.used[start / 32] |= 1 << (start % 32);
            asks_about(rng, State { id, start, ..idle })
        }
        _ => asks_for_memory(rng, idle),
    };
}

/// A commit or a purge of one chunk.
fn asks_about(rng: &mut Rng, mut state: State) -> State {
    match rng.below(2) {
        0 => (state.question, state.n) = (1, 1),
        _ => (state.question, state.now, state.decommit) = (2, 5, 1),
    }
    state
}

/// Memory, or its return; a reserve waits or a claim.
fn asks_for_memory(rng: &mut Rng, mut state: State) -> State {
    match rng.below(2) {
        0 => (state.question, state.chunks, state.bytes) = (3, 2, 2 * CHUNK),
        _ => (state.question, state.cause) = (4, rng.pick(&[7, 12, 13])),
    }
    if rng.percent(50) {
        (state.waiting, state.n) = (1, 3);
    }
    state
}

/// Something of row 1.
pub(super) fn damage(rng: &mut Rng, table: &mut Table) {
    let id = some_id(rng, table).unwrap_or(0);
    let record = &mut table.records[id];
    match rng.below(12) {
        0 => table.records.truncate(rng.pick(&[0, 1, 31])),
        1 => table.records.resize(rng.pick(&[33, 64]), Arena::EMPTY),
        2 => table.stamps.truncate(rng.pick(&[0, 1_024, 32_767])),
        3 => table.stamps.resize(rng.pick(&[32_769, 65_536]), 0),
        4 => table.state.count = rng.pick(&[33, 64, usize::MAX]),
        5 => record.base += rng.pick(&[1, CHUNK / 2, CHUNK - 1]),
        6 => record.chunks = rng.pick(&[0, 1_025, usize::MAX]),
        7 => record.base = rng.pick(&[0, u64::MAX - CHUNK + 1]),
        8 => record.pending[31] |= 1 << 31,
        9 => table.state.mark = 2,
        10 => table.state.question = 5,
        _ => table.state.purged += 1,
    }
}
