use super::mapping::Mapping;
use super::{now, page_size, Chunks, Error, Options, Os, Unreleased};
use crate::{Layer, Managed, Moment, Outcome, Refusal, Rise, Span, CHUNK};
use std::io;
use std::ptr::NonNull;
use std::sync::Arc;

/// A layer over real memory. Dropped, it gives its mappings back; those whose chunks somebody still
/// has go with the last of these.
///
/// Its chunks are had as [`Chunks`], by claims alone, and nothing else reaches the memory: the host
/// that talks to the OS is private to it, and so is the layer, but for looking. It may go to another
/// thread, and be looked at by several.
#[derive(Debug)]
pub struct Memory {
    layer: Layer,
    os: Os,
    options: Options,
    page: u64,
}

impl Memory {
    /// No arena; purges after 10 ms, which decommit; no default reserve.
    ///
    /// ```
    /// let memory = sirqobal::linux::Memory::new();
    /// assert_eq!(memory.layer().to_string(), "arenas: none\n");
    /// ```
    pub fn new() -> Memory {
        Memory {
            layer: Layer::new(),
            os: Os::default(),
            options: Options::default(),
            page: page_size(),
        }
    }

    /// What the next calls carry.
    ///
    /// ```
    /// assert_eq!(sirqobal::linux::Memory::new().options().delay, 10);
    /// ```
    pub fn options(&self) -> &Options {
        &self.options
    }

    /// What the next calls carry, to be set.
    ///
    /// ```
    /// use sirqobal::{linux::Memory, ANY, CHUNK};
    ///
    /// let mut memory = Memory::new();
    /// memory.options_mut().reserve = 4 * CHUNK;
    /// let chunk = memory.claim(ANY, 1)?;
    /// assert_eq!(memory.layer().records()[0].chunks, 4);
    /// # Ok::<(), sirqobal::linux::Error>(())
    /// ```
    pub fn options_mut(&mut self) -> &mut Options {
        &mut self.options
    }

    /// Reserves an arena, rounded up to whole chunks, and answers its id. An exclusive one serves
    /// only claims that name it.
    ///
    /// # Errors
    /// [`Refusal::MemoryRefused`] with the OS's reason; [`Refusal::ChunkCount`] for a size of 0 or
    /// more than 1,024 chunks; [`Refusal::TableFull`].
    ///
    /// ```
    /// use sirqobal::{linux::Memory, CHUNK};
    ///
    /// assert_eq!(Memory::new().reserve(3 * CHUNK, true), Ok(0));
    /// ```
    pub fn reserve(&mut self, bytes: u64, exclusive: bool) -> Result<i32, Error> {
        self.settle(|layer, moment| layer.reserve_os_memory(moment, bytes, false, false, exclusive))
    }

    /// Registers the whole chunks inside a range that the program has mapped, and answers the
    /// arena's id. The range is not unmapped; when the memory that has the arena and the last of
    /// its chunks are dropped it is readable and writable again, with any bytes.
    ///
    /// # Safety
    /// The range is private anonymous memory, readable and writable, and its bytes are initialised.
    /// From now on, as long as this memory, one that it is [joined](Memory::join) to or any of its
    /// chunks lives, it stays mapped, and nobody else reads, writes, protects or advises it.
    ///
    /// # Errors
    /// [`Refusal::NoWholeChunk`], [`Refusal::Range`] if it overlaps an arena,
    /// [`Refusal::ChunkCount`], [`Refusal::TableFull`].
    ///
    /// ```
    /// use sirqobal::{linux::Memory, CHUNK};
    /// use std::alloc::{alloc_zeroed, dealloc, Layout};
    /// use std::ptr::NonNull;
    ///
    /// let layout = Layout::from_size_align(2 * CHUNK as usize, CHUNK as usize).unwrap();
    /// // SAFETY: the layout is not empty.
    /// let block = NonNull::new(unsafe { alloc_zeroed(layout) }).unwrap();
    /// let mut memory = Memory::new();
    /// // SAFETY: whole pages of a block of our own, which is used through the memory alone.
    /// let id = unsafe { memory.manage(block, layout.size(), true) }?;
    /// let mut ring = memory.claim(id, 2)?;
    /// ring.fill(7);
    /// memory.release(ring)?;
    /// assert_eq!(memory.sweep(true)?, 2);
    /// drop(memory);
    /// // SAFETY: of `alloc_zeroed`, and no longer managed.
    /// unsafe { dealloc(block.as_ptr(), layout) };
    /// # Ok::<(), sirqobal::linux::Error>(())
    /// ```
    pub unsafe fn manage(
        &mut self,
        start: NonNull<u8>,
        bytes: usize,
        exclusive: bool,
    ) -> Result<i32, Error> {
        self.os.begin();
        let moment = self.moment();
        let first = start.addr().get() as u64;
        let range = Managed {
            start: first,
            size: bytes as u64,
            node: -1,
            exclusive,
            mapped: false,
            reserved: true,
        };
        let id = self.layer.manage_os_memory(moment, range)?;
        let (base, bytes) = self.layer.arena_area(moment, id)?;
        // SAFETY: the area lies inside the range, which is as the caller says.
        let mapping = unsafe {
            let base = start.add((base - first) as usize);
            Mapping::managed(base, bytes as usize)
        };
        self.os.keep(mapping);
        Ok(id)
    }

    /// Claims n neighbouring chunks, committed, of an arena or of [`ANY`](crate::ANY).
    ///
    /// # Errors
    /// [`Refusal::Zero`]; [`Refusal::ArenasOff`]; [`Refusal::NoRun`], with the OS's reason if a
    /// default reserve failed; [`Refusal::CommitRefused`] with the OS's reason.
    ///
    /// A default reserve ([`Options::reserve`]) that fails is the last: no later claim reserves,
    /// whatever is released or set since ([`Layer::has_given_up`]).
    ///
    /// ```
    /// use sirqobal::{linux::Memory, CHUNK};
    ///
    /// let mut memory = Memory::new();
    /// let id = memory.reserve(CHUNK, true)?;
    /// assert_eq!(memory.claim(id, 1)?.len() as u64, CHUNK);
    /// # Ok::<(), sirqobal::linux::Error>(())
    /// ```
    pub fn claim(&mut self, id: i32, n: usize) -> Result<Chunks, Error> {
        let run = self.settle(|layer, moment| layer.chunk_alloc_n(moment, id, n))?;
        // A granted run has at most 1,024 chunks, and lies in an arena of ours.
        let found = self.os.find(run.address, n as u64 * CHUNK);
        let (mapping, offset) = found.ok_or(Refusal::Broken)?;
        // SAFETY: inside the mapping, by `find`; `chunk_alloc_n` grants what is committed and what
        // nobody holds, and neither grants nor purges it before a release says so.
        Ok(unsafe { Chunks::new(Arc::clone(mapping), offset, n, run.fresh) })
    }

    /// Releases chunks that were claimed here, or in a memory that was joined to this one since; a
    /// later sweep purges them.
    ///
    /// With a negative [`Options::delay`] the release leaves nothing to a sweep: the chunks stay
    /// committed, and whoever claims them next finds the bytes. What an earlier release left to a
    /// sweep is left to it still.
    ///
    /// # Errors
    /// Chunks of another memory are refused with [`Refusal::NotInside`] and come back.
    ///
    /// ```
    /// use sirqobal::{linux::Memory, CHUNK};
    ///
    /// let mut memory = Memory::new();
    /// let id = memory.reserve(CHUNK, true)?;
    /// let chunks = memory.claim(id, 1)?;
    /// memory.release(chunks)?;
    /// assert!(!memory.claim(id, 1)?.is_fresh());
    /// # Ok::<(), sirqobal::linux::Error>(())
    /// ```
    pub fn release(&mut self, chunks: Chunks) -> Result<(), Unreleased> {
        self.os.begin();
        let released = if self.os.has(chunks.mapping()) {
            let (address, n) = (chunks.address(), chunks.count());
            let moment = self.moment();
            self.layer.chunk_release(moment, address, n, None, true)
        } else {
            Err(Refusal::NotInside)
        };
        released.map_err(|refusal| Unreleased {
            error: refusal.into(),
            chunks,
        })
    }

    /// Releases many at once, each as [`release`](Memory::release) does, and answers those that
    /// were refused, in their order and with the reason. One that is refused does not stop the
    /// others.
    ///
    /// Chunks of another memory are refused with [`Refusal::NotInside`]; there is no other refusal
    /// that a program can bring about. A memory has at most 32,768 chunks, so that all that are
    /// claimed of it fit into one list.
    ///
    /// It takes all of them before it releases the first, and allocates for them and for the lists
    /// that the layer is lent. If the iterator panics, what it has given by then is dropped, and
    /// stays claimed.
    ///
    /// ```
    /// use sirqobal::{linux::Memory, Refusal, CHUNK};
    ///
    /// let (mut memory, mut other) = (Memory::new(), Memory::new());
    /// let (id, theirs) = (memory.reserve(3 * CHUNK, true)?, other.reserve(CHUNK, true)?);
    /// let ring = vec![memory.claim(id, 1)?, other.claim(theirs, 1)?, memory.claim(id, 2)?];
    ///
    /// let mut refused = memory.release_list(ring);
    /// assert_eq!(memory.claim(id, 3)?.count(), 3);
    /// let unreleased = refused.pop().unwrap();
    /// assert_eq!(unreleased.error, Refusal::NotInside);
    /// assert!(refused.is_empty() && other.release_list([unreleased.chunks]).is_empty());
    /// # Ok::<(), sirqobal::linux::Error>(())
    /// ```
    #[must_use = "those that come back stay claimed"]
    pub fn release_list(&mut self, chunks: impl IntoIterator<Item = Chunks>) -> Vec<Unreleased> {
        let given: Vec<Chunks> = chunks.into_iter().collect();
        self.os.begin();
        let is_own = |chunks: &Chunks| self.os.has(chunks.mapping());
        let own = given.iter().filter(|chunks| is_own(chunks));
        let spans: Vec<Span> = own.map(Chunks::span).collect();
        let moment = self.moment();
        let released = self.layer.chunk_release_list(moment, &spans, true);
        // Refused as a whole, it comes back whole.
        let answers = released.unwrap_or_else(|refusal| vec![Err(refusal); spans.len()]);
        let mut answers = answers.into_iter();
        let refused = |chunks: Chunks| {
            // What is granted ends here, and so would what has no answer: no handle lives on unless
            // the layer has refused it.
            let refusal = match is_own(&chunks) {
                true => answers.next()?.err()?,
                false => Refusal::NotInside,
            };
            Some(Unreleased {
                error: refusal.into(),
                chunks,
            })
        };
        given.into_iter().filter_map(refused).collect()
    }

    /// Purges what was released long enough ago, or all of it, and answers how many chunks. Where
    /// the OS says no, a chunk is passed over, and [`os_error`](Memory::os_error) tells why.
    ///
    /// With a negative [`Options::delay`] it purges none; forced, what was released while the delay
    /// was not negative.
    ///
    /// # Errors
    /// None that a program can bring about.
    ///
    /// ```
    /// assert_eq!(sirqobal::linux::Memory::new().sweep(true), Ok(0));
    /// ```
    pub fn sweep(&mut self, force: bool) -> Result<usize, Error> {
        self.settle(|layer, moment| layer.purge_due(moment, force))
    }

    /// Joins another memory to this one, while chunks of both are held: the second's arenas become
    /// this one's, their mappings with them. Nothing moves in memory. Chunks of the second stay
    /// what they are, and are released and swept here from then on; its arenas are named here by
    /// their new ids, which the [`Rise`] tells. The second has no arena, and may be used again or
    /// dropped. Both keep their options.
    ///
    /// # Errors
    /// [`Refusal::TooManyArenas`] if more than 32 would result; both are then as they were. There
    /// is no other that a program can bring about: the ranges of two memories do not overlap.
    ///
    /// ```
    /// use sirqobal::{linux::Memory, Refusal, CHUNK};
    ///
    /// let (mut first, mut second) = (Memory::new(), Memory::new());
    /// let guidance = first.reserve(2 * CHUNK, true)?;
    /// let recorder = second.reserve(2 * CHUNK, true)?;
    /// let mut telemetry = second.claim(recorder, 1)?;
    /// telemetry.fill(7);
    ///
    /// let rise = first.join(&mut second)?;
    /// let recorder = rise.id(recorder).unwrap();
    /// assert_ne!(recorder, guidance);
    /// assert_eq!(first.claim(recorder, 1)?.address(), telemetry.address() + CHUNK);
    /// assert!(telemetry.iter().all(|byte| *byte == 7));
    ///
    /// // The second knows it no longer.
    /// let unreleased = second.release(telemetry).unwrap_err();
    /// assert_eq!(unreleased.error, Refusal::NotInside);
    /// first.release(unreleased.chunks)?;
    /// # Ok::<(), sirqobal::linux::Error>(())
    /// ```
    pub fn join(&mut self, second: &mut Memory) -> Result<Rise, Error> {
        self.os.begin();
        second.os.begin();
        let moment = self.moment();
        let rise = self.layer.join_tables(moment, &mut second.layer)?;
        // The used bits of the second's handles are this layer's now, and their mappings go along:
        // a handle is released, and its chunks are purged and granted again, by whoever has both.
        self.os.take(&mut second.os);
        Ok(rise)
    }

    /// The layer, to look at.
    ///
    /// ```
    /// assert_eq!(sirqobal::linux::Memory::new().layer().state().count, 0);
    /// ```
    pub fn layer(&self) -> &Layer {
        &self.layer
    }

    /// What the OS last said no with during the last call, granted or not.
    ///
    /// ```
    /// assert!(sirqobal::linux::Memory::new().os_error().is_none());
    /// ```
    pub fn os_error(&self) -> Option<io::Error> {
        self.os.errno().map(io::Error::from_raw_os_error)
    }

    /// Makes a call, and has the OS answer until it ends.
    fn settle<T>(
        &mut self,
        call: impl FnOnce(&mut Layer, Moment) -> Outcome<'_, T>,
    ) -> Result<T, Error> {
        self.os.begin();
        let moment = self.moment();
        let ended = call(&mut self.layer, moment).settle(moment, &mut self.os);
        ended.map_err(|refusal| Error::new(refusal, self.os.errno()))
    }

    fn moment(&self) -> Moment {
        let Options {
            delay,
            decommits,
            off,
            reserve,
        } = self.options;
        Moment {
            ns: now(),
            delay,
            decommits,
            off,
            reserve,
            page: self.page,
        }
    }
}

impl Default for Memory {
    fn default() -> Memory {
        Memory::new()
    }
}
