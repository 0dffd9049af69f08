use super::mapping::Mapping;
use crate::{Span, CHUNK};
use std::fmt;
use std::ops::{Deref, DerefMut, Range};
use std::slice;
use std::sync::Arc;

/// Claimed chunks: their bytes, and the right to release them. Made by
/// [`Memory::claim`](super::Memory::claim) alone and ended by
/// [`Memory::release`](super::Memory::release) or
/// [`Memory::release_list`](super::Memory::release_list), in the memory that has their arena then:
/// a [join](super::Memory::join) takes the arena to another. Dropped unreleased they stay claimed,
/// which is a leak of the arena's chunks and nothing worse.
///
/// They may go to another thread, and may outlive the `Memory`: the arena stays mapped until they
/// are dropped.
#[must_use = "chunks that are dropped and not released stay claimed"]
pub struct Chunks {
    mapping: Arc<Mapping>,
    offset: usize,
    n: usize,
    fresh: bool,
}

impl Chunks {
    /// # Safety
    /// The n chunks at this offset lie inside the mapping and are committed, and until this value
    /// is consumed by a release, nobody else is granted one of them, and none is purged.
    pub(super) unsafe fn new(mapping: Arc<Mapping>, offset: usize, n: usize, fresh: bool) -> Self {
        Chunks {
            mapping,
            offset,
            n,
            fresh,
        }
    }

    pub(super) fn mapping(&self) -> &Arc<Mapping> {
        &self.mapping
    }

    /// Where they are.
    ///
    /// ```
    /// use sirqobal::{linux::Memory, CHUNK};
    ///
    /// let mut memory = Memory::new();
    /// let id = memory.reserve(CHUNK, true)?;
    /// assert_eq!(memory.claim(id, 1)?.address() % CHUNK, 0);
    /// # Ok::<(), sirqobal::linux::Error>(())
    /// ```
    pub fn address(&self) -> u64 {
        self.mapping.address() + self.offset as u64
    }

    /// Their addresses.
    ///
    /// ```
    /// use sirqobal::{linux::Memory, CHUNK};
    ///
    /// let mut memory = Memory::new();
    /// let id = memory.reserve(2 * CHUNK, true)?;
    /// let ring = memory.claim(id, 2)?;
    /// assert!(ring.addresses().contains(&(ring.address() + 2 * CHUNK - 1)));
    /// # Ok::<(), sirqobal::linux::Error>(())
    /// ```
    pub fn addresses(&self) -> Range<u64> {
        self.address()..self.address() + self.bytes() as u64
    }

    /// How many chunks.
    ///
    /// ```
    /// use sirqobal::{linux::Memory, CHUNK};
    ///
    /// let mut memory = Memory::new();
    /// let id = memory.reserve(2 * CHUNK, true)?;
    /// assert_eq!(memory.claim(id, 2)?.count(), 2);
    /// # Ok::<(), sirqobal::linux::Error>(())
    /// ```
    pub fn count(&self) -> usize {
        self.n
    }

    /// Whether none of them was ever claimed before: all their bytes are 0.
    ///
    /// ```
    /// use sirqobal::{linux::Memory, CHUNK};
    ///
    /// let mut memory = Memory::new();
    /// let id = memory.reserve(CHUNK, true)?;
    /// assert!(memory.claim(id, 1)?.is_fresh());
    /// # Ok::<(), sirqobal::linux::Error>(())
    /// ```
    pub fn is_fresh(&self) -> bool {
        self.fresh
    }

    /// What a list of releases says of them: a claim grants at most 1,024.
    pub(super) fn span(&self) -> Span {
        Span {
            address: self.address(),
            n: self.n as u32,
        }
    }

    fn bytes(&self) -> usize {
        self.n * CHUNK as usize
    }
}

impl Deref for Chunks {
    type Target = [u8];

    fn deref(&self) -> &[u8] {
        // SAFETY: `new`'s: mapped as long as this value lives, readable, and nobody else writes.
        // Memory from the OS has no byte that is not set.
        unsafe { slice::from_raw_parts(self.mapping.at(self.offset).as_ptr(), self.bytes()) }
    }
}

impl DerefMut for Chunks {
    fn deref_mut(&mut self) -> &mut [u8] {
        // SAFETY: as above, and this value, of which there is one, is borrowed mutably.
        unsafe { slice::from_raw_parts_mut(self.mapping.at(self.offset).as_ptr(), self.bytes()) }
    }
}

/// Where and how many; not the bytes.
impl fmt::Debug for Chunks {
    fn fmt(&self, f: &mut fmt::Formatter<'_>) -> fmt::Result {
        f.debug_struct("Chunks")
            .field("address", &format_args!("{:#x}", self.address()))
            .field("count", &self.n)
            .field("fresh", &self.fresh)
            .finish()
    }
}
