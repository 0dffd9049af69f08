use super::waiting::{Answered, Waiting};
use super::Kept;
use crate::Moment;
#[cfg(doc)]
use crate::Refusal;

/// Asks to hand the memory of a range back, keeping the addresses.
#[derive(Debug)]
#[must_use = "the layer waits for the answer"]
pub struct Purge<'a, T> {
    pub(super) address: u64,
    pub(super) bytes: u64,
    pub(super) decommits: bool,
    pub(super) waiting: Waiting<'a, T>,
}

impl<'a, T> Purge<'a, T> {
    /// Where the range begins.
    pub fn address(&self) -> u64 {
        self.address
    }

    /// Its bytes.
    pub fn bytes(&self) -> u64 {
        self.bytes
    }

    /// Whether the range is to be decommitted: a claim asks to commit it again.
    pub fn decommits(&self) -> bool {
        self.decommits
    }

    /// Answers whether the range is purged; the sweep goes on with the delay that it began with,
    /// and may ask about the next.
    ///
    /// # Errors
    /// [`Refusal::Broken`] for an unsound page size or a broken table; the question stays open.
    pub fn answer(self, moment: Moment, purged: bool) -> Answered<'a, T, Self> {
        let Purge {
            address,
            bytes,
            decommits,
            waiting,
        } = self;
        let answered = waiting.answer(moment, 2, purged, 0);
        answered.map_err(|(refusal, waiting)| Kept {
            refusal,
            question: Purge {
                address,
                bytes,
                decommits,
                waiting,
            },
        })
    }
}
