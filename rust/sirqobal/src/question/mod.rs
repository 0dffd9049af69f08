//! How a call ends, and the question that it may end with.

use crate::lent::Reply;
use crate::{Layer, Refusal, Run};

mod ask;
mod commit;
mod get_memory;
mod give_back;
mod purge;
mod unmet;
mod waiting;

pub use ask::Ask;
pub use commit::Commit;
pub use get_memory::GetMemory;
pub use give_back::GiveBack;
pub use purge::Purge;
pub use unmet::{Kept, NotDone};

use waiting::Waiting;

/// How a call ended.
#[must_use = "a call that asks waits for its answer"]
#[derive(Debug)]
#[non_exhaustive]
pub enum Outcome<'a, T> {
    /// Granted.
    Done(T),
    /// Turned down.
    Refused(Refusal),
    /// Stopped: the host is asked, and the call goes on with the answer.
    Asks(Question<'a, T>),
}

/// The open question of a call, by its kind; each takes the answer that fits it. One that is
/// dropped stays open: until [`Layer::open`] gives it back and it is answered, calls are refused
/// with [`Refusal::QuestionOpen`].
#[must_use = "the layer waits for the answer"]
#[derive(Debug)]
pub enum Question<'a, T> {
    /// Make a range usable.
    Commit(Commit<'a, T>),
    /// Hand the memory of a range back, keeping the addresses.
    Purge(Purge<'a, T>),
    /// Reserve memory.
    GetMemory(GetMemory<'a, T>),
    /// Unmap memory that could not be registered.
    GiveBack(GiveBack<'a, T>),
}

impl<'a, T> Question<'a, T> {
    pub(crate) fn new(layer: &'a mut Layer, ask: Ask, grant: fn(&Reply) -> T) -> Question<'a, T> {
        let waiting = Waiting { layer, grant };
        match ask {
            Ask::Commit { address, bytes } => Question::Commit(Commit {
                address,
                bytes,
                waiting,
            }),
            Ask::Purge {
                address,
                bytes,
                decommit,
            } => Question::Purge(Purge {
                address,
                bytes,
                decommits: decommit,
                waiting,
            }),
            Ask::Memory {
                bytes,
                align,
                commit,
                large,
            } => Question::GetMemory(GetMemory {
                bytes,
                align,
                commits: commit,
                large,
                waiting,
            }),
            Ask::GiveBack { address, bytes } => Question::GiveBack(GiveBack {
                range: (address, bytes),
                waiting,
            }),
        }
    }

    /// What is asked, in numbers.
    ///
    /// ```
    /// use sirqobal::{Ask, Layer, Moment, Outcome, CHUNK};
    ///
    /// let mut layer = Layer::new();
    /// let asks = layer.reserve_os_memory(Moment::default(), 3 * CHUNK - 1, true, false, true);
    /// let Outcome::Asks(question) = asks else { panic!() };
    /// let memory = Ask::Memory { bytes: 3 * CHUNK, align: CHUNK, commit: true, large: false };
    /// assert_eq!(question.ask(), memory);
    /// ```
    pub fn ask(&self) -> Ask {
        match *self {
            Question::Commit(Commit { address, bytes, .. }) => Ask::Commit { address, bytes },
            Question::Purge(ref purge) => Ask::Purge {
                address: purge.address,
                bytes: purge.bytes,
                decommit: purge.decommits,
            },
            Question::GetMemory(ref memory) => Ask::Memory {
                bytes: memory.bytes,
                align: memory.align,
                commit: memory.commits,
                large: memory.large,
            },
            Question::GiveBack(ref give_back) => Ask::GiveBack {
                address: give_back.range.0,
                bytes: give_back.range.1,
            },
        }
    }
}

impl<'a, T> Outcome<'a, T> {
    pub(crate) fn of(
        layer: &'a mut Layer,
        reply: &Reply,
        grant: fn(&Reply) -> T,
    ) -> Outcome<'a, T> {
        match (Ask::of(reply), Refusal::from_number(reply.number)) {
            (Some(ask), _) => Outcome::Asks(Question::new(layer, ask, grant)),
            (None, Some(refusal)) => Outcome::Refused(refusal),
            (None, None) => Outcome::Done(grant(reply)),
        }
    }

    /// The grant, where no question is expected.
    ///
    /// # Errors
    /// The refusal, or what is asked: the question stays open, and [`Layer::open`] gives it.
    ///
    /// ```
    /// use sirqobal::{Layer, Moment, NotDone, Refusal, ANY, CHUNK};
    ///
    /// let now = Moment::default();
    /// let mut layer = Layer::new();
    /// let refused = layer.chunk_alloc(now, ANY).done();
    /// assert_eq!(refused, Err(NotDone::Refused(Refusal::NoRun)));
    /// let asks = layer.reserve_os_memory(now, CHUNK, false, false, true).done();
    /// assert!(matches!(asks, Err(NotDone::Asks(_))));
    /// assert!(layer.open().is_some());
    /// ```
    pub fn done(self) -> Result<T, NotDone> {
        match self {
            Outcome::Done(grant) => Ok(grant),
            Outcome::Refused(refusal) => Err(NotDone::Refused(refusal)),
            Outcome::Asks(question) => Err(NotDone::Asks(question.ask())),
        }
    }
}

/// An open question, by the call that waits for it.
#[derive(Debug)]
#[non_exhaustive]
pub enum Open<'a> {
    /// A claim waits.
    Claim(Question<'a, Run>),
    /// A reserve waits.
    Reserve(Question<'a, i32>),
    /// A sweep waits.
    Sweep(Question<'a, usize>),
}
