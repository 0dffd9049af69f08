use super::{Kept, Outcome};
use crate::lent::{Call, Reply};
use crate::{Layer, Moment, Refusal};
use std::fmt;

/// The call that goes on with the answer.
pub(super) struct Waiting<'a, T> {
    pub(super) layer: &'a mut Layer,
    pub(super) grant: fn(&Reply) -> T,
}

/// An answer: the outcome, or the refusal that left the question open.
pub(super) type Answered<'a, T, Q> = Result<Outcome<'a, T>, Kept<Q>>;

impl<'a, T> Waiting<'a, T> {
    pub(super) fn answer(
        self,
        moment: Moment,
        kind: u32,
        yes: bool,
        base: u64,
    ) -> Result<Outcome<'a, T>, (Refusal, Self)> {
        let reply = self.layer.call(moment, Call::Answer { kind, yes, base });
        match Refusal::from_number(reply.number) {
            Some(refusal) if self.layer.state().question != 0 => Err((refusal, self)),
            _ => Ok(Outcome::of(self.layer, &reply, self.grant)),
        }
    }
}

impl<T> fmt::Debug for Waiting<'_, T> {
    fn fmt(&self, f: &mut fmt::Formatter<'_>) -> fmt::Result {
        self.layer.fmt(f)
    }
}
