/// What the calls on a [`Memory`](super::Memory) carry.
#[derive(Clone, Copy, Debug, PartialEq, Eq)]
#[non_exhaustive]
pub struct Options {
    /// The purge delay in milliseconds; above 1,073,741,823 it counts as that. Negative: never
    /// ([`NEVER`](crate::NEVER)). What is released then stays committed, with its bytes, and is
    /// claimed again without a call to the OS:
    ///
    /// ```
    /// use sirqobal::{linux::Memory, CHUNK, NEVER};
    ///
    /// let mut memory = Memory::new();
    /// memory.options_mut().delay = NEVER;
    /// let id = memory.reserve(2 * CHUNK, true)?;
    /// let mut ring = memory.claim(id, 2)?;
    /// ring.fill(7);
    /// memory.release(ring)?;
    /// assert_eq!(memory.sweep(false)?, 0);
    /// assert_eq!(memory.sweep(true)?, 0); // nothing was left to it
    /// let ring = memory.claim(id, 2)?;
    /// assert!(!ring.is_fresh() && ring.iter().all(|byte| *byte == 7));
    /// # Ok::<(), sirqobal::linux::Error>(())
    /// ```
    pub delay: i64,
    /// A purge decommits: the chunks can't be touched until they are claimed again.
    pub decommits: bool,
    /// Arenas serve only claims that name them.
    pub off: bool,
    /// The default reserve: what a claim of [`ANY`](crate::ANY) that finds nothing reserves, in
    /// bytes; nothing below [`CHUNK`](crate::CHUNK). The first such reserve that fails, because the
    /// OS says no or because 32 arenas stand, is the last: the layer gives up
    /// ([`Layer::has_given_up`](crate::Layer::has_given_up)), whatever is set here later.
    pub reserve: u64,
}

impl Default for Options {
    /// Purges after 10 ms, which decommit; no default reserve.
    fn default() -> Options {
        Options {
            delay: 10,
            decommits: true,
            off: false,
            reserve: 0,
        }
    }
}
