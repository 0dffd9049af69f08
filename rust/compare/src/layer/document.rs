//! What document 01 says of a call, as far as the original does not: which refusal it is. Written
//! from the document's table "Turned down" and its orders alone, and plainly: chunk by chunk.

use super::{inside, Moment, CHUNK, PAGES};
use sirqobal::lent::{Arena, Call, State};
use sirqobal::Layer;

/// The refusal that comes before any search and any question; None if there is none.
pub fn at_once(layer: &Layer, moment: &Moment, call: &Call) -> Option<u32> {
    let open = layer.state().question;
    if !sound_page(moment.page) {
        return Some(1);
    }
    match *call {
        Call::Owns { .. } | Call::ArenaArea { .. } => None,
        Call::Answer { kind, .. } if open == 0 || kind != open => Some(3),
        Call::Answer { yes, base, .. } => {
            let range = layer.state().chunks * CHUNK;
            (open == 3 && yes && no_range(layer, base, range)).then_some(6)
        }
        _ if open != 0 => Some(2),
        _ => of_its_own(layer, moment, call),
    }
}

fn of_its_own(layer: &Layer, moment: &Moment, call: &Call) -> Option<u32> {
    match *call {
        Call::ReserveOsMemory { size, .. } => product_is_past(size).then_some(12),
        Call::ManageOsMemory {
            start,
            size,
            mapped,
            reserved,
            ..
        } => manage(layer, start, size, mapped || !reserved),
        Call::AdoptOsBlock { address, size } => adopt(layer, address, size),
        Call::ChunkAllocN { n: 0, .. } => Some(4),
        Call::ChunkAlloc { id } | Call::ChunkClaim { id } | Call::ChunkAllocN { id, .. } => {
            (moment.off && id < 0).then_some(5)
        }
        Call::ChunkRelease { address, n, .. } => cannot_release(arenas(layer), address, n),
        _ => None,
    }
}

/// Reserve after yes: 12, 7, 13 (6 comes before, with the answer).
pub fn cannot_register(layer: &Layer, size: u64, base: u64) -> Option<u32> {
    let chunks = size.div_ceil(CHUNK);
    first([
        (chunks == 0 || chunks > 1_024, 12),
        (!whole(base), 7),
        (layer.state().count == 32, 13),
    ])
}

/// Manage: 15, 16, 6, 12, 13.
fn manage(layer: &Layer, start: u64, size: u64, host_says_no: bool) -> Option<u32> {
    let sums = start.checked_add(size).zip(start.checked_add(CHUNK - 1));
    let Some((end, up)) = sums else {
        return Some(15);
    };
    let (low, high) = (up / CHUNK * CHUNK, end / CHUNK * CHUNK);
    if start == 0 || high <= low {
        return Some(15);
    }
    first([
        (host_says_no, 16),
        (no_range(layer, low, high - low), 6),
        (high - low > 1_024 * CHUNK, 12),
        (layer.state().count == 32, 13),
    ])
}

/// Adopt: 4, 7, 6, growth, 12, 13.
fn adopt(layer: &Layer, address: u64, size: u64) -> Option<u32> {
    let grows = |arena: &Arena| {
        let fits = size / CHUNK + arena.chunks as u64 <= 1_024;
        arena.is_owned() && !arena.is_exclusive() && end(arena) == u128::from(address) && fits
    };
    let early = first([
        (size == 0, 4),
        (!whole(address) || !whole(size), 7),
        (no_range(layer, address, size), 6),
    ]);
    if early.is_some() || arenas(layer).iter().any(grows) {
        return early;
    }
    first([(size > 1_024 * CHUNK, 12), (layer.state().count == 32, 13)])
}

/// Release: 4, 8, 7, 9.
pub fn cannot_release(arenas: &[Arena], address: u64, n: usize) -> Option<u32> {
    let inside = |arena: &&Arena| arena.base <= address && u128::from(address) < end(arena);
    if n == 0 {
        return Some(4);
    }
    let Some(arena) = arenas.iter().find(inside) else {
        return Some(8);
    };
    let run_end = u128::from(address) + n as u128 * u128::from(CHUNK);
    first([(!whole(address), 7), (run_end > end(arena), 9)])
}

/// Whether an arena that this id means has n neighbouring clear used bits.
pub fn has_run(layer: &Layer, id: i32, n: usize) -> bool {
    let eligible = |place: usize, arena: &Arena| match id {
        0.. => place == id as usize,
        _ => !arena.is_exclusive(),
    };
    let fits = |arena: &Arena| {
        let mut run = 0;
        (0..arena.chunks).any(|chunk| {
            run = if bit(&arena.used, chunk) { 0 } else { run + 1 };
            run == n
        })
    };
    let mut arenas = arenas(layer).iter().enumerate();
    arenas.any(|(place, arena)| eligible(place, arena) && fits(arena))
}

/// Row 6: it starts at 0, ends past 2^64 - 1 or overlaps an arena.
fn no_range(layer: &Layer, start: u64, size: u64) -> bool {
    let stop = u128::from(start) + u128::from(size);
    let overlaps = |arena: &Arena| {
        size != 0 && u128::from(start) < end(arena) && u128::from(arena.base) < stop
    };
    start == 0 || stop > u128::from(u64::MAX) || arenas(layer).iter().any(overlaps)
}

/// Whole chunks of this size, or they and one chunk more, pass 2^64 - 1.
pub fn product_is_past(size: u64) -> bool {
    let product = u128::from(size.div_ceil(CHUNK)) * u128::from(CHUNK);
    product + u128::from(CHUNK) > u128::from(u64::MAX)
}

fn whole(number: u64) -> bool {
    number.is_multiple_of(CHUNK)
}

fn sound_page(page: u64) -> bool {
    PAGES.contains(&page)
}

pub fn arenas(layer: &Layer) -> &[Arena] {
    &layer.records()[..layer.state().count]
}

fn end(arena: &Arena) -> u128 {
    u128::from(arena.base) + arena.chunks as u128 * u128::from(CHUNK)
}

/// The number of the first that holds.
fn first<const N: usize>(rows: [(bool, u32); N]) -> Option<u32> {
    let row = rows.into_iter().find(|(holds, _)| *holds);
    row.map(|(_, number)| number)
}

/// Row 1, all of it.
pub fn broken(records: &[Arena], stamps: &[u32], state: &State, page: u64) -> bool {
    let lengths = records.len() == 32 && stamps.len() == 32_768;
    if !lengths || !sound_page(page) || state.count > 32 {
        return true;
    }
    let arenas = &records[..state.count];
    let apart = |(id, arena): (usize, &Arena)| {
        let before = arenas[..id].iter();
        before.clone().all(|other| {
            end(other) <= u128::from(arena.base) || end(arena) <= u128::from(other.base)
        })
    };
    let sound = arenas.iter().all(|arena| !bad_record(arena))
        && arenas.iter().enumerate().all(apart)
        && *state == as_left(state);
    !sound || bad_question(arenas, state)
}

fn bad_record(arena: &Arena) -> bool {
    let maps = [&arena.used, &arena.dirty, &arena.committed, &arena.pending];
    let past_end =
        |map: &&[u32; 32]| (0..32).any(|word| map[word] & !inside(arena.chunks, word) != 0);
    !(1..=1_024).contains(&arena.chunks)
        || arena.base == 0
        || !whole(arena.base)
        || end(arena) > u128::from(u64::MAX)
        || maps.iter().any(past_end)
}

/// The open question is about an arena that stands, chunks inside it, and used bits that are set.
fn bad_question(arenas: &[Arena], state: &State) -> bool {
    let n = match state.question {
        1 => state.n,
        2 => 1,
        _ => return false,
    };
    let Some(arena) = arenas.get(state.id) else {
        return true;
    };
    let stop = state.start.checked_add(n);
    let Some(stop) = stop.filter(|stop| *stop <= arena.chunks) else {
        return true;
    };
    let clear = (state.start..stop).any(|chunk| !bit(&arena.used, chunk));
    clear || (state.question == 2 && state.purged > 1_024 * state.id + state.start)
}

/// The state with only what its question uses, and flags of 0 or 1. Where this changes it, or its
/// kind, cause or waiting call is none, no call left it.
fn as_left(state: &State) -> State {
    let flag = |number: u32| number.min(1);
    let bare = State {
        count: state.count,
        mark: flag(state.mark),
        question: state.question,
        ..State::EMPTY
    };
    let waits = match state.waiting {
        0 => bare,
        _ => State {
            waiting: 1,
            n: state.n,
            commits: flag(state.commits),
            ..bare
        },
    };
    match state.question {
        0 => bare,
        1 => State {
            id: state.id,
            start: state.start,
            n: state.n,
            ..bare
        },
        2 => State {
            id: state.id,
            start: state.start,
            force: flag(state.force),
            now: state.now,
            delay: state.delay,
            decommit: flag(state.decommit),
            purged: state.purged,
            ..bare
        },
        3 => State {
            chunks: state.chunks,
            bytes: state.bytes,
            commit: flag(state.commit),
            exclusive: flag(state.exclusive),
            ..waits
        },
        4 if [7, 12, 13].contains(&state.cause) => State {
            cause: state.cause,
            ..waits
        },
        _ => State::EMPTY, // no such question
    }
}

fn bit(map: &[u32; 32], chunk: usize) -> bool {
    map[chunk / 32] >> (chunk % 32) & 1 == 1
}
