use super::Ask;
use crate::Refusal;
use std::error::Error;
use std::fmt;

/// Why a call has no grant (yet): [`Outcome::done`](super::Outcome::done).
#[derive(Clone, Copy, Debug, PartialEq, Eq)]
#[non_exhaustive]
pub enum NotDone {
    /// It was turned down.
    Refused(Refusal),
    /// It waits: the host is asked this.
    Asks(Ask),
}

impl fmt::Display for NotDone {
    fn fmt(&self, f: &mut fmt::Formatter<'_>) -> fmt::Result {
        match self {
            NotDone::Refused(refusal) => refusal.fmt(f),
            NotDone::Asks(ask) => write!(f, "the call waits, the host is asked to {ask}"),
        }
    }
}

impl Error for NotDone {}

impl From<Refusal> for NotDone {
    fn from(refusal: Refusal) -> NotDone {
        NotDone::Refused(refusal)
    }
}

/// An answer that was turned down and left the question open.
#[derive(Debug)]
#[non_exhaustive]
pub struct Kept<Q> {
    /// Why.
    pub refusal: Refusal,
    /// The question, to be answered again.
    pub question: Q,
}

impl<Q> fmt::Display for Kept<Q> {
    fn fmt(&self, f: &mut fmt::Formatter<'_>) -> fmt::Result {
        write!(f, "{}; the question stays open", self.refusal)
    }
}

impl<Q: fmt::Debug> Error for Kept<Q> {}

impl<Q> From<Kept<Q>> for Refusal {
    fn from(kept: Kept<Q>) -> Refusal {
        kept.refusal
    }
}

impl<Q> From<Kept<Q>> for NotDone {
    fn from(kept: Kept<Q>) -> NotDone {
        NotDone::Refused(kept.refusal)
    }
}
