use super::{granted, Layer, Moment};
use crate::lent::{Call, Reply};
use crate::{Outcome, Refusal};

/// A range that [`Layer::manage_os_memory`] takes over, and the host's facts about its whole chunks.
#[derive(Clone, Copy, Debug, PartialEq, Eq)]
pub struct Managed {
    /// Where it begins.
    pub start: u64,
    /// Its bytes.
    pub size: u64,
    /// The NUMA node, only stored.
    pub node: i32,
    /// The arena serves only claims that name its id.
    pub exclusive: bool,
    /// It is in the segment map already.
    pub mapped: bool,
    /// The OS has reserved it.
    pub reserved: bool,
}

/// The registered arena.
pub(super) fn id_of(reply: &Reply) -> i32 {
    reply.id as i32
}

/// Registering: each answers the arena's id.
impl Layer {
    /// Reserves memory, rounded up to whole chunks, as an arena; answers its id. It asks the host.
    ///
    /// # Errors
    /// At once: [`Refusal::ChunkCount`] for a size whose chunks pass the last address. With the
    /// answer: [`Refusal::MemoryRefused`] for no; after a yes [`Refusal::Range`], which keeps the
    /// question open, and, once the block is given back, [`Refusal::ChunkCount`],
    /// [`Refusal::NotWhole`] and [`Refusal::TableFull`].
    ///
    /// ```
    /// use sirqobal::{Layer, Moment, NotDone, Outcome, Question, CHUNK};
    ///
    /// let now = Moment::default();
    /// let mut layer = Layer::new();
    /// let asks = layer.reserve_os_memory(now, 2 * CHUNK, false, false, true);
    /// let Outcome::Asks(Question::GetMemory(memory)) = asks else { panic!() };
    /// let id = memory.answer(now, Some(1 << 30))?.done()?;
    /// assert_eq!(layer.arena_area(now, id)?, (1 << 30, 2 * CHUNK));
    /// # Ok::<(), NotDone>(())
    /// ```
    pub fn reserve_os_memory(
        &mut self,
        moment: Moment,
        size: u64,
        commit: bool,
        allow_large: bool,
        exclusive: bool,
    ) -> Outcome<'_, i32> {
        let call = Call::ReserveOsMemory {
            size,
            commit,
            allow_large,
            exclusive,
        };
        self.outcome(moment, call, id_of)
    }

    /// Registers the whole chunks inside a range that the host has; answers the arena's id. It
    /// never asks.
    ///
    /// # Errors
    /// [`Refusal::NoWholeChunk`], [`Refusal::HostRefused`], [`Refusal::Range`],
    /// [`Refusal::ChunkCount`], [`Refusal::TableFull`].
    ///
    /// ```
    /// use sirqobal::{Layer, Managed, Moment, CHUNK};
    ///
    /// let range = Managed {
    ///     start: (1 << 30) - 5,
    ///     size: 2 * CHUNK,
    ///     node: -1,
    ///     exclusive: true,
    ///     mapped: false,
    ///     reserved: true,
    /// };
    /// let mut layer = Layer::new();
    /// let id = layer.manage_os_memory(Moment::default(), range)?;
    /// assert_eq!(layer.arena_area(Moment::default(), id)?, (1 << 30, CHUNK));
    /// # Ok::<(), sirqobal::Refusal>(())
    /// ```
    pub fn manage_os_memory(&mut self, moment: Moment, range: Managed) -> Result<i32, Refusal> {
        let call = Call::ManageOsMemory {
            start: range.start,
            size: range.size,
            flags: [true, false, false],
            node: range.node,
            exclusive: range.exclusive,
            mapped: range.mapped,
            reserved: range.reserved,
        };
        granted(&self.call(moment, call)).map(id_of)
    }

    /// Takes over a block of the allocator's own: the arena that ends at it grows, or a new one
    /// stands; answers its id. It never asks.
    ///
    /// # Errors
    /// [`Refusal::Zero`], [`Refusal::NotWhole`], [`Refusal::Range`]; and, where no arena grows,
    /// [`Refusal::ChunkCount`], [`Refusal::TableFull`].
    ///
    /// ```
    /// use sirqobal::{Layer, Moment, CHUNK};
    ///
    /// let now = Moment::default();
    /// let mut layer = Layer::new();
    /// assert_eq!(layer.adopt_os_block(now, 1 << 30, 4 * CHUNK), Ok(0));
    /// assert_eq!(layer.adopt_os_block(now, (1 << 30) + 4 * CHUNK, CHUNK), Ok(0));
    /// assert_eq!(layer.records()[0].chunks, 5);
    /// ```
    pub fn adopt_os_block(
        &mut self,
        moment: Moment,
        address: u64,
        size: u64,
    ) -> Result<i32, Refusal> {
        granted(&self.call(moment, Call::AdoptOsBlock { address, size })).map(id_of)
    }
}
