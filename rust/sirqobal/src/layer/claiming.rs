use super::{Layer, Moment};
use crate::lent::{Call, Reply};
use crate::Outcome;
#[cfg(doc)]
use crate::Refusal;

/// Neighbouring chunks that a claim was granted.
#[derive(Clone, Copy, Debug, PartialEq, Eq)]
#[non_exhaustive]
pub struct Run {
    /// Where the first of them is.
    pub address: u64,
    /// No chunk of it was claimed before: the memory is still as it came from the OS.
    pub fresh: bool,
    /// All of it is committed. Only [`Layer::chunk_claim`] may grant a run that is not.
    pub committed: bool,
}

impl Run {
    pub(super) fn of(reply: &Reply) -> Run {
        Run {
            address: reply.address,
            fresh: reply.fresh,
            committed: reply.committed,
        }
    }
}

/// Claiming.
impl Layer {
    /// Claims one chunk, committed, of the arena with this id or of [`ANY`](crate::ANY). It may
    /// ask for memory (a default reserve: [`Moment::reserve`]) and to commit the chunk.
    ///
    /// # Errors
    /// [`Refusal::ArenasOff`]; [`Refusal::NoRun`]; [`Refusal::CommitRefused`] with the answer no.
    ///
    /// A default reserve that fails sets the give-up mark: this claim is refused with
    /// [`Refusal::NoRun`], and no later one reserves ([`Layer::has_given_up`]).
    ///
    /// ```
    /// use sirqobal::{Layer, Moment, NotDone, ANY, CHUNK};
    ///
    /// let now = Moment::default();
    /// let mut layer = Layer::new();
    /// layer.adopt_os_block(now, 1 << 30, CHUNK)?;
    /// assert_eq!(layer.chunk_alloc(now, ANY).done()?.address, 1 << 30);
    /// # Ok::<(), NotDone>(())
    /// ```
    pub fn chunk_alloc(&mut self, moment: Moment, id: i32) -> Outcome<'_, Run> {
        self.outcome(moment, Call::ChunkAlloc { id }, Run::of)
    }

    /// Claims one chunk as it is, committed or not. It may ask for memory.
    ///
    /// # Errors
    /// [`Refusal::ArenasOff`]; [`Refusal::NoRun`], as with [`chunk_alloc`](Layer::chunk_alloc).
    ///
    /// ```
    /// use sirqobal::{Layer, Moment, NotDone, Outcome, Question, CHUNK};
    ///
    /// let now = Moment::default();
    /// let mut layer = Layer::new();
    /// let asks = layer.reserve_os_memory(now, CHUNK, false, false, false);
    /// let Outcome::Asks(Question::GetMemory(memory)) = asks else { panic!() };
    /// let id = memory.answer(now, Some(1 << 30))?.done()?;
    /// let run = layer.chunk_claim(now, id).done()?;
    /// assert!(run.fresh && !run.committed);
    /// # Ok::<(), NotDone>(())
    /// ```
    pub fn chunk_claim(&mut self, moment: Moment, id: i32) -> Outcome<'_, Run> {
        self.outcome(moment, Call::ChunkClaim { id }, Run::of)
    }

    /// Claims the lowest run of n chunks, committed. It may ask for memory and to commit the run.
    ///
    /// # Errors
    /// [`Refusal::Zero`], then as [`chunk_alloc`](Layer::chunk_alloc).
    ///
    /// ```
    /// use sirqobal::{Layer, Moment, NotDone, Refusal, CHUNK};
    ///
    /// let now = Moment::default();
    /// let mut layer = Layer::new();
    /// layer.adopt_os_block(now, 1 << 30, 4 * CHUNK)?;
    /// let refused = layer.chunk_alloc_n(now, 0, 5).done();
    /// assert_eq!(refused, Err(NotDone::Refused(Refusal::NoRun)));
    /// assert_eq!(layer.chunk_alloc_n(now, 0, 4).done()?.address, 1 << 30);
    /// # Ok::<(), NotDone>(())
    /// ```
    pub fn chunk_alloc_n(&mut self, moment: Moment, id: i32, n: usize) -> Outcome<'_, Run> {
        self.outcome(moment, Call::ChunkAllocN { id, n }, Run::of)
    }
}
