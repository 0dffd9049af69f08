use super::waiting::{Answered, Waiting};
use super::Kept;
use crate::Moment;
#[cfg(doc)]
use crate::Refusal;

/// Asks for memory.
#[derive(Debug)]
#[must_use = "the layer waits for the answer"]
pub struct GetMemory<'a, T> {
    pub(super) bytes: u64,
    pub(super) align: u64,
    pub(super) commits: bool,
    pub(super) large: bool,
    pub(super) waiting: Waiting<'a, T>,
}

impl<'a, T> GetMemory<'a, T> {
    /// How many bytes.
    pub fn bytes(&self) -> u64 {
        self.bytes
    }

    /// Its address is to be a multiple of this.
    pub fn align(&self) -> u64 {
        self.align
    }

    /// Whether it is to be committed.
    pub fn commits(&self) -> bool {
        self.commits
    }

    /// Whether it may be on large pages; no in a table that was taken over, which does not keep it.
    pub fn may_be_large(&self) -> bool {
        self.large
    }

    /// Answers where the memory is, or that there is none; the reserve or the claim goes on.
    ///
    /// # Errors
    /// [`Refusal::Range`] for memory that starts at 0, ends past 2^64 - 1 or overlaps an arena;
    /// [`Refusal::Broken`] for an unsound page size or a broken table. The question stays open.
    ///
    /// ```
    /// use sirqobal::{Layer, Moment, NotDone, Outcome, Question, Refusal, CHUNK};
    ///
    /// let now = Moment::default();
    /// let mut layer = Layer::new();
    /// let asks = layer.reserve_os_memory(now, 3 * CHUNK - 1, true, false, true);
    /// let Outcome::Asks(Question::GetMemory(memory)) = asks else { panic!() };
    /// assert_eq!((memory.bytes(), memory.align()), (3 * CHUNK, CHUNK));
    /// assert!(memory.commits() && !memory.may_be_large());
    /// // No memory starts at 0: the question stays open.
    /// let kept = memory.answer(now, Some(0)).unwrap_err();
    /// assert_eq!(kept.refusal, Refusal::Range);
    /// let refused = kept.question.answer(now, None)?.done();
    /// assert_eq!(refused, Err(NotDone::Refused(Refusal::MemoryRefused)));
    /// # Ok::<(), NotDone>(())
    /// ```
    pub fn answer(self, moment: Moment, base: Option<u64>) -> Answered<'a, T, Self> {
        let GetMemory {
            bytes,
            align,
            commits,
            large,
            waiting,
        } = self;
        let answered = waiting.answer(moment, 3, base.is_some(), base.unwrap_or(0));
        answered.map_err(|(refusal, waiting)| Kept {
            refusal,
            question: GetMemory {
                bytes,
                align,
                commits,
                large,
                waiting,
            },
        })
    }
}
