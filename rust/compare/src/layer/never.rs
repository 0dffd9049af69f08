//! What document 02's wish 2 says of a call with a negative delay, plainly: which refusal it is, and every
//! record, every stamp and the state afterwards. Written from that paper; the refusals are document 01's. The
//! original takes a negative delay for 0, so this stands beside ours in its place, and has nothing of ours.

use super::document::at_once;
use super::joined::differing;
use super::plain::Table;
use super::{Moment, CHUNK};
use sirqobal::lent::{Arena, Call, Reply};
use sirqobal::Layer;

/// What a call answers, and the table that it leaves.
pub struct Said {
    pub number: u32,
    pub left: Table,
}

/// Whether the wish says something of this call: "a pending release" and "an unforced sweep" of "A negative
/// delay". All else is as before, "a forced sweep" too.
pub fn speaks_of(delay: i64, call: &Call) -> bool {
    let named = matches!(
        call,
        Call::ChunkRelease { pending: true, .. } | Call::PurgeDue { force: false }
    );
    delay < 0 && named
}

/// What the paper says of this call on a sound table; None if it says nothing.
pub fn said(layer: &Layer, moment: &Moment, call: &Call) -> Option<Said> {
    if !speaks_of(moment.delay, call) {
        return None;
    }
    let number = at_once(layer, moment, call).unwrap_or(0);
    let mut left = Table::of(layer);
    match *call {
        Call::ChunkRelease {
            address, n, told, ..
        } if number == 0 => give_back(&mut left, address, n, told),
        _ => {} // refused, or a sweep, which "puts no question and leaves deadlines"
    }
    Some(Said { number, left })
}

/// "stamps nothing, marks nothing and arms nothing": the chunks are not used any more, and committed or not
/// where that is told.
fn give_back(left: &mut Table, address: u64, n: usize, told: i32) {
    for chunk in 0..n as u64 {
        let (arena, place) = chunk_at(left, address + chunk * CHUNK);
        write(&mut arena.used, place, false);
        if told >= 0 {
            write(&mut arena.committed, place, told > 0);
        }
    }
}

/// The chunk at this address, which is one of an arena that stands.
fn chunk_at(table: &mut Table, address: u64) -> (&mut Arena, usize) {
    let count = table.state.count;
    let place = |arena: &Arena| (address.wrapping_sub(arena.base) / CHUNK) as usize;
    let mut arenas = table.records[..count].iter_mut();
    let arena = arenas.find(|arena| place(arena) < arena.chunks);
    let arena = arena.expect("a run that is not refused lies in an arena");
    let place = place(arena);
    (arena, place)
}

fn write(map: &mut [u32; 32], place: usize, on: bool) {
    let bit = 1 << (place % 32);
    match on {
        true => map[place / 32] |= bit,
        false => map[place / 32] &= !bit,
    }
}

impl Said {
    /// A grant says nothing more, and a sweep's that it purged 0 chunks.
    pub fn reply(&self) -> Reply {
        Reply {
            number: self.number,
            state: self.left.state,
            ..Reply::default()
        }
    }

    /// Whether ours answered and left the same; an error says what differs.
    pub fn is(&self, reply: &Reply, records: &[Arena], stamps: &[u32]) -> Result<(), String> {
        let expected = self.reply();
        if *reply != expected {
            return Err(format!(
                "negative delay: expected {expected:?}, ours {reply:?}"
            ));
        }
        let place = differing(records, &self.left.records).map(|id| format!("record {id}"));
        let place = place
            .or_else(|| differing(stamps, &self.left.stamps).map(|stamp| format!("stamp {stamp}")));
        match place {
            Some(place) => Err(format!("negative delay, {}: {place}", self.number)),
            None => Ok(()),
        }
    }
}

/// What is called on the original where ours is called so: it knows no negative delay, so a pending release
/// is made not pending, and a sweep not at all.
pub fn for_original(delay: i64, call: Call) -> Option<Call> {
    match call {
        _ if !speaks_of(delay, &call) => Some(call),
        Call::ChunkRelease {
            address, n, told, ..
        } => Some(Call::ChunkRelease {
            address,
            n,
            told,
            pending: false,
        }),
        _ => None,
    }
}

#[cfg(test)]
mod tests {
    use super::*;
    use crate::layer::QUIET;

    const NEVER: [i64; 4] = [-1, -2, -77, i64::MIN];

    /// Two arenas of 40 chunks each, the second at chunk 200. In each chunks 0 to 34 are used, chunk 33 is
    /// committed, and 31, 33 and 39 are pending since 7, due at 9.
    fn table() -> Table {
        let mut table = Table::empty();
        for id in 0..2 {
            table.records[id] = Arena {
                base: 100 * (id as u64 + 1) * CHUNK,
                chunks: 40,
                deadline: 9,
                ..Arena::EMPTY
            };
            let arena = &mut table.records[id];
            arena.used[..2].copy_from_slice(&[u32::MAX, 0b111]);
            arena.committed[1] = 0b10;
            arena.pending[..2].copy_from_slice(&[1 << 31, 0b1000_0010]);
            for chunk in [31, 33, 39] {
                table.stamps[1_024 * id + chunk] = 7;
            }
        }
        table.state.count = 2;
        table
    }

    /// At 20 ms: both arenas are due.
    fn at(delay: i64) -> Moment {
        Moment {
            ns: 20_000_000,
            delay,
            ..QUIET
        }
    }

    fn release(chunk: u64, n: usize, told: i32) -> Call {
        Call::ChunkRelease {
            address: chunk * CHUNK,
            n,
            told,
            pending: true,
        }
    }

    const SWEEP: Call = Call::PurgeDue { force: false };

    fn number(table: &Table, moment: Moment, call: Call) -> u32 {
        let said = said(&table.layer(), &moment, &call).expect("the wish speaks of it");
        assert!(said.number == 0 || said.left == *table);
        assert_eq!(said.reply().number, said.number);
        said.number
    }

    // Chunks 31 to 33 of the second arena, two of them pending: used bits go, and nothing else moves.
    #[test]
    fn a_release_gives_back_alone() {
        for delay in NEVER {
            let said = said(&table().layer(), &at(delay), &release(231, 3, -1)).expect("said");
            let mut left = table();
            left.records[1].used[..2].copy_from_slice(&[u32::MAX >> 1, 0b100]);
            assert_eq!(said.number, 0);
            assert!(said.left == left);
            let reply = Reply {
                state: left.state,
                ..Reply::default()
            };
            assert_eq!(said.reply(), reply);
        }
    }

    #[test]
    fn a_release_hears_what_is_told() {
        for (told, committed) in [(0, [0, 0]), (1, [1 << 31, 0b11]), (9, [1 << 31, 0b11])] {
            let said = said(&table().layer(), &at(-1), &release(131, 3, told)).expect("said");
            let mut left = table();
            left.records[0].used[..2].copy_from_slice(&[u32::MAX >> 1, 0b100]);
            left.records[0].committed[..2].copy_from_slice(&committed);
            assert!(said.left == left);
        }
    }

    // Both arenas are due, with a chunk that is pending and not used: deadlines stay, and no question.
    #[test]
    fn a_sweep_leaves_all() {
        for delay in NEVER {
            let said = said(&table().layer(), &at(delay), &SWEEP).expect("said");
            assert_eq!(said.number, 0);
            assert!(said.left == table());
            assert_eq!((said.reply().count, said.reply().kind), (0, 0));
        }
    }

    #[test]
    fn refused_as_before() {
        let lent = table();
        assert_eq!(number(&lent, at(-1), release(5, 0, 0)), 4);
        assert_eq!(number(&lent, at(-1), release(99, 1, 0)), 8);
        assert_eq!(number(&lent, at(-1), release(139, 2, 0)), 9);
        let aslant = Call::ChunkRelease {
            address: 100 * CHUNK + 1,
            n: 99,
            told: 0,
            pending: true,
        };
        assert_eq!(number(&lent, at(-1), aslant), 7);
        let mut asks = table();
        (asks.state.question, asks.state.cause) = (4, 7);
        let page = Moment {
            page: 4_095,
            ..at(-1)
        };
        for call in [release(100, 1, 0), release(5, 0, 0), SWEEP] {
            assert_eq!(number(&asks, at(-1), call), 2);
            assert_eq!(number(&asks, page, call), 1);
        }
    }

    // Delays from 0 on, releases that are not pending and forced sweeps are document 01's, and the original's.
    #[test]
    fn speaks_of_nothing_else() {
        let quiet = Call::ChunkRelease {
            address: 100 * CHUNK,
            n: 1,
            told: 0,
            pending: false,
        };
        let forced = Call::PurgeDue { force: true };
        let others = [(0, release(100, 1, 0)), (0, SWEEP), (1, SWEEP)];
        for (delay, call) in others.into_iter().chain([(-1, quiet), (-1, forced)]) {
            assert!(said(&table().layer(), &at(delay), &call).is_none());
            assert_eq!(for_original(delay, call), Some(call));
        }
        assert_eq!(for_original(-1, release(100, 1, 0)), Some(quiet));
        assert_eq!(for_original(-1, SWEEP), None);
    }
}
