use crate::lent::{Arena, Reply, State, QUESTION, RECORDS};
use crate::CHUNK;
use std::fmt;

/// What the host is asked, in numbers: to be printed or compared. It is answered through
/// [`Question`](crate::Question).
#[derive(Clone, Copy, Debug, PartialEq, Eq)]
pub enum Ask {
    /// Make this range usable.
    Commit {
        /// Where it begins.
        address: u64,
        /// Its bytes.
        bytes: u64,
    },
    /// Hand the memory of this range back, keeping the addresses.
    Purge {
        /// Where it begins.
        address: u64,
        /// Its bytes.
        bytes: u64,
        /// Decommit it, too.
        decommit: bool,
    },
    /// Reserve so much memory.
    Memory {
        /// How much.
        bytes: u64,
        /// Its address is to be a multiple of this.
        align: u64,
        /// It is to be committed.
        commit: bool,
        /// It may be on large pages.
        large: bool,
    },
    /// Unmap this range, which could not be registered. Either answer will do.
    GiveBack {
        /// Where it begins; 0 in a table that was taken over, whose state does not keep the range.
        address: u64,
        /// Its bytes: the whole chunks of the memory, 0 for a reserve of size 0.
        bytes: u64,
    },
}

impl Ask {
    /// The question's number in `sirqobal.h`.
    ///
    /// ```
    /// assert_eq!(sirqobal::Ask::Commit { address: 0, bytes: 0 }.kind(), 1);
    /// ```
    pub fn kind(self) -> u32 {
        match self {
            Ask::Commit { .. } => 1,
            Ask::Purge { .. } => 2,
            Ask::Memory { .. } => 3,
            Ask::GiveBack { .. } => 4,
        }
    }

    /// The question that a call ended with, if it did.
    ///
    /// ```
    /// use sirqobal::lent::{Reply, QUESTION};
    ///
    /// let reply = Reply { number: QUESTION, kind: 4, address: 7, bytes: 9, ..Reply::default() };
    /// let ask = sirqobal::Ask::of(&reply);
    /// assert_eq!(ask, Some(sirqobal::Ask::GiveBack { address: 7, bytes: 9 }));
    /// ```
    pub fn of(reply: &Reply) -> Option<Ask> {
        let Reply { address, bytes, .. } = *reply;
        if reply.number != QUESTION {
            return None;
        }
        match reply.kind {
            1 => Some(Ask::Commit { address, bytes }),
            2 => Some(Ask::Purge {
                address,
                bytes,
                decommit: reply.decommit,
            }),
            3 => Some(Ask::Memory {
                bytes,
                align: reply.align,
                commit: reply.commit,
                large: reply.large,
            }),
            4 => Some(Ask::GiveBack { address, bytes }),
            _ => None,
        }
    }

    /// The question that is open in a table, if it tells one. A state does not keep whether large
    /// pages were allowed (then no) nor what is given back.
    pub(crate) fn in_table(records: &[Arena; RECORDS], state: &State) -> Option<Ask> {
        let run = |n: usize| {
            let arena = records.get(state.id).filter(|_| state.id < state.count)?;
            let offset = CHUNK.checked_mul(state.start as u64)?;
            Some((
                arena.base.checked_add(offset)?,
                CHUNK.checked_mul(n as u64)?,
            ))
        };
        match state.question {
            1 => run(state.n).map(|(address, bytes)| Ask::Commit { address, bytes }),
            2 => run(1).map(|(address, bytes)| Ask::Purge {
                address,
                bytes,
                decommit: state.decommit != 0,
            }),
            3 => Some(Ask::Memory {
                bytes: state.bytes,
                align: CHUNK,
                commit: state.commit != 0,
                large: false,
            }),
            4 => Some(Ask::GiveBack {
                address: 0,
                bytes: 0,
            }),
            _ => None,
        }
    }
}

impl fmt::Display for Ask {
    fn fmt(&self, f: &mut fmt::Formatter<'_>) -> fmt::Result {
        match *self {
            Ask::Commit { address, bytes } => write!(f, "commit {bytes} bytes at {address:#x}"),
            Ask::Purge {
                address,
                bytes,
                decommit,
            } => {
                let how = if decommit { " and decommit" } else { "" };
                write!(f, "purge{how} {bytes} bytes at {address:#x}")
            }
            Ask::Memory { bytes, align, .. } => {
                write!(f, "reserve {bytes} bytes at a multiple of {align}")
            }
            Ask::GiveBack { address: 0, .. } => f.write_str("give back the memory"),
            Ask::GiveBack { address, bytes } => {
                write!(f, "give back {bytes} bytes at {address:#x}")
            }
        }
    }
}
