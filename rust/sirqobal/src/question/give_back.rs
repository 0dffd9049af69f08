use super::waiting::{Answered, Waiting};
use super::Kept;
use crate::Moment;
#[cfg(doc)]
use crate::Refusal;

/// Asks to unmap memory that was got for an arena which could not be registered.
#[derive(Debug)]
#[must_use = "the layer waits for the answer"]
pub struct GiveBack<'a, T> {
    /// Address and bytes; an address of 0 is not known.
    pub(super) range: (u64, u64),
    pub(super) waiting: Waiting<'a, T>,
}

impl<'a, T> GiveBack<'a, T> {
    /// The address and the bytes of the whole chunks that were got: 0 bytes for a reserve of size
    /// 0, which got a page. None in a table that was taken over: its state does not keep them,
    /// and who was asked then has to know.
    pub fn range(&self) -> Option<(u64, u64)> {
        Some(self.range).filter(|range| range.0 != 0)
    }

    /// Lets the call end. Whether the memory was given back changes nothing.
    ///
    /// # Errors
    /// [`Refusal::Broken`] for an unsound page size or a broken table; the question stays open.
    ///
    /// ```
    /// use sirqobal::{Layer, Moment, NotDone, Outcome, Question, Refusal, CHUNK};
    ///
    /// let now = Moment::default();
    /// let mut layer = Layer::new();
    /// let asks = layer.reserve_os_memory(now, CHUNK, true, false, true);
    /// let Outcome::Asks(Question::GetMemory(memory)) = asks else { panic!() };
    /// let asks = memory.answer(now, Some((1 << 30) + 4_096))?;
    /// let Outcome::Asks(Question::GiveBack(give_back)) = asks else { panic!() };
    /// assert_eq!(give_back.range(), Some(((1 << 30) + 4_096, CHUNK)));
    /// let refused = give_back.answer(now)?.done();
    /// assert_eq!(refused, Err(NotDone::Refused(Refusal::NotWhole)));
    /// # Ok::<(), NotDone>(())
    /// ```
    pub fn answer(self, moment: Moment) -> Answered<'a, T, Self> {
        let GiveBack { range, waiting } = self;
        let answered = waiting.answer(moment, 4, true, 0);
        answered.map_err(|(refusal, waiting)| Kept {
            refusal,
            question: GiveBack { range, waiting },
        })
    }
}
