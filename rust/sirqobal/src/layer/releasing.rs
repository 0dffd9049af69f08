use super::{granted, Layer, Moment};
use crate::lent::{Call, Reply};
use crate::{Outcome, Refusal};

/// A sweep's yes answers.
pub(super) fn count_of(reply: &Reply) -> usize {
    reply.count
}

/// Releasing and sweeping.
impl Layer {
    /// Releases n chunks from an address on, held or not. `committed` tells whether they are
    /// committed now; `pending` leaves them to a later sweep. It never asks.
    ///
    /// With a negative delay ([`NEVER`](crate::NEVER)) it is the same release not pending: nothing
    /// is stamped, marked or armed, and what earlier ones left to a sweep stays.
    ///
    /// # Errors
    /// [`Refusal::Zero`], [`Refusal::NotInside`], [`Refusal::NotWhole`], [`Refusal::PastEnd`].
    ///
    /// ```
    /// use sirqobal::{Layer, Moment, NotDone, Refusal, CHUNK};
    ///
    /// let now = Moment::default();
    /// let mut layer = Layer::new();
    /// layer.adopt_os_block(now, 1 << 30, 4 * CHUNK)?;
    /// layer.chunk_alloc_n(now, 0, 4).done()?;
    /// layer.chunk_release(now, 1 << 30, 4, None, false)?;
    /// let past_end = layer.chunk_release(now, 1 << 30, 5, None, false);
    /// assert_eq!(past_end, Err(Refusal::PastEnd));
    /// # Ok::<(), NotDone>(())
    /// ```
    pub fn chunk_release(
        &mut self,
        moment: Moment,
        address: u64,
        n: usize,
        committed: Option<bool>,
        pending: bool,
    ) -> Result<(), Refusal> {
        let call = Call::ChunkRelease {
            address,
            n,
            told: committed.map_or(-1, i32::from),
            pending,
        };
        granted(&self.call(moment, call)).map(|_| ())
    }

    /// Sweeps the arenas whose deadline has come; all that are armed, if forced. It asks about each
    /// chunk and answers how many were purged. Its clock, delay and `decommits` count until it
    /// ends; those of the answers do not.
    ///
    /// With a negative delay ([`NEVER`](crate::NEVER)) it asks nothing and changes nothing, and
    /// answers 0; forced, it goes on as with a delay of 0.
    ///
    /// # Errors
    /// None of its own.
    ///
    /// ```
    /// use sirqobal::{Layer, Moment, NotDone, Outcome, Question, CHUNK};
    ///
    /// let now = Moment::default();
    /// let mut layer = Layer::new();
    /// layer.adopt_os_block(now, 1 << 30, CHUNK)?;
    /// layer.chunk_release(now, 1 << 30, 1, None, true)?;
    /// let asks = layer.purge_due(now, true);
    /// let Outcome::Asks(Question::Purge(purge)) = asks else { panic!() };
    /// assert_eq!((purge.address(), purge.bytes()), (1 << 30, CHUNK));
    /// assert!(purge.decommits());
    /// assert_eq!(purge.answer(now, true)?.done(), Ok(1));
    /// # Ok::<(), NotDone>(())
    /// ```
    ///
    /// What is pending when the delay becomes negative stays so, however long it is due:
    ///
    /// ```
    /// use sirqobal::{Layer, Moment, NotDone, Outcome, Question, CHUNK, NEVER};
    ///
    /// let mut layer = Layer::new();
    /// layer.adopt_os_block(Moment::default(), 1 << 30, CHUNK)?;
    /// layer.chunk_release(Moment::default(), 1 << 30, 1, None, true)?;
    /// let later = Moment { ns: 1 << 40, delay: NEVER, ..Moment::default() };
    /// assert_eq!(layer.purge_due(later, false).done(), Ok(0));
    /// assert_eq!(layer.records()[0].pending[0], 1);
    /// let asks = layer.purge_due(later, true);
    /// let Outcome::Asks(Question::Purge(purge)) = asks else { panic!() };
    /// assert_eq!(purge.answer(later, true)?.done(), Ok(1));
    /// # Ok::<(), NotDone>(())
    /// ```
    pub fn purge_due(&mut self, moment: Moment, force: bool) -> Outcome<'_, usize> {
        self.outcome(moment, Call::PurgeDue { force }, count_of)
    }
}
