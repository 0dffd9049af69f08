use super::waiting::{Answered, Waiting};
use super::Kept;
use crate::Moment;
#[cfg(doc)]
use crate::Refusal;

/// Asks to make a range usable.
#[derive(Debug)]
#[must_use = "the layer waits for the answer"]
pub struct Commit<'a, T> {
    pub(super) address: u64,
    pub(super) bytes: u64,
    pub(super) waiting: Waiting<'a, T>,
}

impl<'a, T> Commit<'a, T> {
    /// Where the range begins.
    pub fn address(&self) -> u64 {
        self.address
    }

    /// Its bytes.
    pub fn bytes(&self) -> u64 {
        self.bytes
    }

    /// Answers whether the range is usable now; the claim goes on.
    ///
    /// # Errors
    /// [`Refusal::Broken`] for an unsound page size or a broken table; the question stays open.
    ///
    /// ```
    /// use sirqobal::{Layer, Moment, NotDone, Outcome, Question, Refusal, CHUNK};
    ///
    /// let now = Moment::default();
    /// let mut layer = Layer::new();
    /// layer.adopt_os_block(now, 1 << 30, CHUNK)?;
    /// layer.chunk_release(now, 1 << 30, 1, Some(false), false)?;
    /// let asks = layer.chunk_alloc(now, 0);
    /// let Outcome::Asks(Question::Commit(commit)) = asks else { panic!() };
    /// assert_eq!((commit.address(), commit.bytes()), (1 << 30, CHUNK));
    /// let refused = commit.answer(now, false)?.done();
    /// assert_eq!(refused, Err(NotDone::Refused(Refusal::CommitRefused)));
    /// # Ok::<(), NotDone>(())
    /// ```
    pub fn answer(self, moment: Moment, committed: bool) -> Answered<'a, T, Self> {
        let Commit { address, bytes, .. } = self;
        let answered = self.waiting.answer(moment, 1, committed, 0);
        answered.map_err(|(refusal, waiting)| Kept {
            refusal,
            question: Commit {
                address,
                bytes,
                waiting,
            },
        })
    }
}
