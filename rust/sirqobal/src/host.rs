use crate::{Kept, Moment, Outcome, Question, Refusal};

/// Who answers the layer's questions, each kind with the answer that fits it.
pub trait Host {
    /// Makes a range usable; says whether it is.
    fn commit(&mut self, address: u64, bytes: u64) -> bool;

    /// Hands the memory of a range back, keeping the addresses, and decommits it if `decommit`;
    /// says whether it did.
    fn purge(&mut self, address: u64, bytes: u64, decommit: bool) -> bool;

    /// Reserves memory at a multiple of `align`, committed if `commit`, on large pages if it may
    /// and they are to be had; says where.
    fn memory(&mut self, bytes: u64, align: u64, commit: bool, large: bool) -> Option<u64>;

    /// Takes memory of [`memory`](Host::memory) back that the layer cannot register. The bytes are
    /// those of its whole chunks: 0 where less than a chunk was asked for.
    fn give_back(&mut self, address: u64, bytes: u64);
}

impl<'a, T> Question<'a, T> {
    /// Has the host answer this question. Memory that the layer does not take goes back to the
    /// host; after [`Refusal::Range`] the question is then answered no. A give-back whose range is
    /// not known (a table that was taken over) is answered without the host.
    ///
    /// # Errors
    /// [`Refusal::Broken`] for an unsound page size or a broken table: the question stays open.
    pub fn answered_by(
        self,
        moment: Moment,
        host: &mut impl Host,
    ) -> Result<Outcome<'a, T>, Refusal> {
        match self {
            Question::Commit(commit) => {
                let committed = host.commit(commit.address(), commit.bytes());
                Ok(commit.answer(moment, committed)?)
            }
            Question::Purge(purge) => {
                let purged = host.purge(purge.address(), purge.bytes(), purge.decommits());
                Ok(purge.answer(moment, purged)?)
            }
            Question::GiveBack(give_back) => {
                if let Some((address, bytes)) = give_back.range() {
                    host.give_back(address, bytes);
                }
                Ok(give_back.answer(moment)?)
            }
            Question::GetMemory(memory) => {
                let (bytes, align) = (memory.bytes(), memory.align());
                let base = host.memory(bytes, align, memory.commits(), memory.may_be_large());
                memory.answer(moment, base).or_else(|kept| {
                    if let Some(base) = base {
                        host.give_back(base, bytes);
                    }
                    match kept {
                        Kept {
                            refusal: Refusal::Range,
                            question,
                        } => Ok(question.answer(moment, None)?),
                        kept => Err(kept.refusal),
                    }
                })
            }
        }
    }
}

impl<T> Outcome<'_, T> {
    /// Has the host answer until the call ends.
    ///
    /// # Errors
    /// The call's refusal; or [`Refusal::Broken`] for an answer with an unsound page size or a
    /// broken table, which leaves the question open.
    ///
    /// ```
    /// use sirqobal::{Host, Layer, Moment, CHUNK};
    ///
    /// struct Paper;
    ///
    /// impl Host for Paper {
    ///     fn commit(&mut self, _: u64, _: u64) -> bool {
    ///         true
    ///     }
    ///     fn purge(&mut self, _: u64, _: u64, _: bool) -> bool {
    ///         true
    ///     }
    ///     fn memory(&mut self, _: u64, _: u64, _: bool, _: bool) -> Option<u64> {
    ///         Some(1 << 30)
    ///     }
    ///     fn give_back(&mut self, _: u64, _: u64) {}
    /// }
    ///
    /// let now = Moment { reserve: CHUNK, ..Moment::default() };
    /// let mut layer = Layer::new();
    /// let run = layer.chunk_alloc(now, sirqobal::ANY).settle(now, &mut Paper)?;
    /// assert_eq!(run.address, 1 << 30);
    /// # Ok::<(), sirqobal::Refusal>(())
    /// ```
    pub fn settle(self, moment: Moment, host: &mut impl Host) -> Result<T, Refusal> {
        let mut outcome = self;
        loop {
            outcome = match outcome {
                Outcome::Done(grant) => return Ok(grant),
                Outcome::Refused(refusal) => return Err(refusal),
                Outcome::Asks(question) => question.answered_by(moment, host)?,
            };
        }
    }
}
