//! A table as a file has it: the bytes of the state, then those of the 32 records, as they lie in
//! memory. The stamps are not in it. The program `picture` prints such a file.
//!
//! ```
//! use sirqobal::{saved, Layer, Moment, Picture, CHUNK};
//!
//! let mut layer = Layer::new();
//! layer.adopt_os_block(Moment::default(), 1 << 30, 4 * CHUNK)?;
//! let bytes = saved::to_bytes(&layer.state(), layer.records());
//! let (state, records) = saved::from_bytes(&bytes)?;
//! let picture = Picture::new(&records, state.count);
//! assert_eq!(picture.to_string(), layer.picture().to_string());
//! # Ok::<(), Box<dyn std::error::Error>>(())
//! ```

use crate::lent::{Arena, State, RECORDS};
use std::error::Error;
use std::fmt;
use std::mem::size_of;

/// Bytes of a saved table.
pub const BYTES: usize = size_of::<State>() + RECORDS * size_of::<Arena>();

/// The bytes of a table.
pub fn to_bytes(state: &State, records: &[Arena; RECORDS]) -> Vec<u8> {
    let mut bytes = Vec::with_capacity(BYTES);
    write_state(&mut bytes, state);
    for arena in records {
        write_arena(&mut bytes, arena);
    }
    bytes
}

/// The table of these bytes; every table will do, broken ones too.
///
/// # Errors
/// If there are not exactly [`BYTES`] of them.
pub fn from_bytes(bytes: &[u8]) -> Result<(State, [Arena; RECORDS]), WrongLength> {
    if bytes.len() != BYTES {
        return Err(WrongLength { bytes: bytes.len() });
    }
    let mut reader = Reader(bytes);
    let state = reader.state();
    let records = std::array::from_fn(|_| reader.arena());
    Ok((state, records))
}

/// The bytes are no saved table.
#[derive(Clone, Copy, Debug, PartialEq, Eq)]
#[non_exhaustive]
pub struct WrongLength {
    /// How many they are.
    pub bytes: usize,
}

impl fmt::Display for WrongLength {
    fn fmt(&self, f: &mut fmt::Formatter<'_>) -> fmt::Result {
        write!(f, "a saved table has {BYTES} bytes, not {}", self.bytes)
    }
}

impl Error for WrongLength {}

fn write_state(bytes: &mut Vec<u8>, state: &State) {
    bytes.extend(state.count.to_ne_bytes());
    bytes.extend(state.mark.to_ne_bytes());
    bytes.extend(state.question.to_ne_bytes());
    for number in [state.id, state.start, state.n] {
        bytes.extend(number.to_ne_bytes());
    }
    bytes.extend(state.chunks.to_ne_bytes());
    bytes.extend(state.bytes.to_ne_bytes());
    let words = [
        state.commit,
        state.exclusive,
        state.waiting,
        state.commits,
        state.cause,
        state.force,
        state.now,
        state.delay,
        state.decommit,
        0, // between two fields
    ];
    bytes.extend(words.iter().flat_map(|word| word.to_ne_bytes()));
    bytes.extend(state.purged.to_ne_bytes());
}

fn write_arena(bytes: &mut Vec<u8>, arena: &Arena) {
    bytes.extend(arena.base.to_ne_bytes());
    bytes.extend(arena.chunks.to_ne_bytes());
    bytes.extend(arena.exclusive.to_ne_bytes());
    bytes.extend(arena.owned.to_ne_bytes());
    bytes.extend(arena.node.to_ne_bytes());
    bytes.extend(arena.deadline.to_ne_bytes());
    for map in [arena.used, arena.dirty, arena.committed, arena.pending] {
        bytes.extend(map.iter().flat_map(|word| word.to_ne_bytes()));
    }
}

/// What is left to read; past the end there are zeros.
struct Reader<'a>(&'a [u8]);

impl Reader<'_> {
    fn take<const N: usize>(&mut self) -> [u8; N] {
        let (head, rest) = self.0.split_first_chunk().unwrap_or((&[0; N], &[]));
        self.0 = rest;
        *head
    }

    fn word(&mut self) -> u32 {
        u32::from_ne_bytes(self.take())
    }

    fn long(&mut self) -> u64 {
        u64::from_ne_bytes(self.take())
    }

    fn size(&mut self) -> usize {
        usize::from_ne_bytes(self.take())
    }

    fn map(&mut self) -> [u32; 32] {
        std::array::from_fn(|_| self.word())
    }

    /// The fields, in their order in memory.
    fn state(&mut self) -> State {
        let mut state = State {
            count: self.size(),
            mark: self.word(),
            question: self.word(),
            id: self.size(),
            start: self.size(),
            n: self.size(),
            chunks: self.long(),
            bytes: self.long(),
            commit: self.word(),
            exclusive: self.word(),
            waiting: self.word(),
            commits: self.word(),
            cause: self.word(),
            force: self.word(),
            now: self.word(),
            delay: self.word(),
            decommit: self.word(),
            purged: 0,
        };
        self.word(); // between two fields
        state.purged = self.size();
        state
    }

    fn arena(&mut self) -> Arena {
        Arena {
            base: self.long(),
            chunks: self.size(),
            exclusive: self.word(),
            owned: self.word(),
            node: self.word() as i32,
            deadline: self.word(),
            used: self.map(),
            dirty: self.map(),
            committed: self.map(),
            pending: self.map(),
        }
    }
}

#[cfg(test)]
mod tests {
    use super::*;
    use std::mem::offset_of;

    #[test]
    fn every_byte_lies_where_memory_has_it() {
        assert_eq!(BYTES, 104 + 32 * 544);
        let state = State {
            count: 1,
            decommit: 2,
            purged: 3,
            ..State::EMPTY
        };
        let mut records = [Arena::EMPTY; RECORDS];
        records[1].node = -4;
        records[1].pending[31] = 5;
        let bytes = to_bytes(&state, &records);
        assert_eq!(bytes.len(), BYTES);
        let word = |at: usize| u32::from_ne_bytes(bytes[at..at + 4].try_into().unwrap());
        assert_eq!(word(offset_of!(State, count)), 1);
        assert_eq!(word(offset_of!(State, decommit)), 2);
        assert_eq!(word(offset_of!(State, purged)), 3);
        let second = size_of::<State>() + size_of::<Arena>();
        assert_eq!(word(second + offset_of!(Arena, node)) as i32, -4);
        assert_eq!(word(second + offset_of!(Arena, pending) + 124), 5);
    }

    #[test]
    fn all_tables_come_back_and_other_lengths_do_not() {
        let bytes: Vec<u8> = (0..BYTES).map(|at| (at * 7 + at / 251) as u8).collect();
        let (state, records) = from_bytes(&bytes).unwrap();
        let mut again = to_bytes(&state, &records);
        let hole = offset_of!(State, decommit) + 4;
        again[hole..hole + 4].copy_from_slice(&bytes[hole..hole + 4]);
        assert!(again == bytes);
        for len in [0, 1, BYTES - 1, BYTES + 1] {
            let wrong = from_bytes(&vec![0; len]).unwrap_err();
            assert_eq!(wrong, WrongLength { bytes: len });
        }
    }
}
