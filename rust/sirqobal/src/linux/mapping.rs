//! Ranges of real memory.

use super::sys;
use std::ffi::c_int;
use std::io;
use std::ptr::{self, NonNull};

/// A range of memory under one arena. The memory and each handle of its chunks share it; it goes
/// back when the last of them is dropped.
#[derive(Debug)]
pub(super) struct Mapping {
    base: NonNull<u8>,
    bytes: usize,
    /// Mapped here, to be unmapped; else another's.
    ours: bool,
}

// SAFETY: the range belongs to no thread, and a shared `Mapping` gives raw pointers alone. What may
// be done through them and when is said at the unsafe functions.
unsafe impl Send for Mapping {}
// SAFETY: as above.
unsafe impl Sync for Mapping {}

impl Mapping {
    /// Reserves memory at a multiple of `align`: more is reserved, and its two ends go back.
    pub(super) fn reserve(bytes: u64, align: u64) -> io::Result<Mapping> {
        let no_memory = || io::Error::from_raw_os_error(sys::ENOMEM);
        let room = bytes.checked_add(align).ok_or_else(no_memory)?;
        let [bytes, align, room] = [bytes, align, room].map(|number| number as usize);
        let file = -1;
        // SAFETY: a new mapping, at an address that the OS chooses.
        let found = unsafe {
            sys::mmap(
                ptr::null_mut(),
                room,
                sys::PROT_NONE,
                sys::MAP_RESERVATION,
                file,
                0,
            )
        };
        if found.addr() == usize::MAX {
            return Err(io::Error::last_os_error());
        }
        let found = NonNull::new(found.cast::<u8>()).ok_or_else(no_memory)?;
        let address = found.addr().get();
        let head = address.next_multiple_of(align) - address;
        // SAFETY: head, range and tail are the new mapping, which nobody else knows yet.
        unsafe {
            let base = found.add(head);
            unmap(found, head);
            unmap(base.add(bytes), align - head);
            Ok(Mapping {
                base,
                bytes,
                ours: true,
            })
        }
    }

    /// A range that another has mapped, and will unmap.
    ///
    /// # Safety
    /// It is mapped, page by page, and nobody else uses it as long as this value lives.
    pub(super) unsafe fn managed(base: NonNull<u8>, bytes: usize) -> Mapping {
        Mapping {
            base,
            bytes,
            ours: false,
        }
    }

    pub(super) fn address(&self) -> u64 {
        self.base.addr().get() as u64
    }

    /// The part of the range that begins at this address; none if it does not lie inside.
    pub(super) fn part(&self, address: u64, bytes: u64) -> Option<Part<'_>> {
        let offset = address.checked_sub(self.address())?;
        let end = offset.checked_add(bytes)?;
        (end <= self.bytes as u64).then_some(Part {
            mapping: self,
            offset: offset as usize,
            bytes: bytes as usize,
        })
    }

    /// Where the byte at this offset is.
    pub(super) fn at(&self, offset: usize) -> NonNull<u8> {
        self.base.map_addr(|base| base.saturating_add(offset))
    }
}

impl Drop for Mapping {
    /// Unmaps it; a managed range becomes readable and writable again, as it came.
    fn drop(&mut self) {
        // SAFETY: the last owner is gone, so no handle and no slice of it lives.
        unsafe {
            if self.ours {
                unmap(self.base, self.bytes);
            } else {
                sys::mprotect(self.base.as_ptr().cast(), self.bytes, sys::PROT_READ_WRITE);
            }
        }
    }
}

/// A part of a mapping.
pub(super) struct Part<'a> {
    mapping: &'a Mapping,
    offset: usize,
    bytes: usize,
}

impl Part<'_> {
    pub(super) fn offset(&self) -> usize {
        self.offset
    }

    /// Makes it readable and writable.
    pub(super) fn commit(&self) -> io::Result<()> {
        // SAFETY: takes no byte and no right away, so slices of it stay what they are.
        unsafe { self.protect(sys::PROT_READ_WRITE) }
    }

    /// Takes reading and writing away.
    ///
    /// # Safety
    /// No handle has a chunk of it.
    pub(super) unsafe fn decommit(&self) -> io::Result<()> {
        // SAFETY: the caller's.
        unsafe { self.protect(sys::PROT_NONE) }
    }

    /// Hands its pages back now; where it is committed it reads as zeros from then on. Not
    /// MADV_FREE: the OS would take pages at any time later, out of a slice that was granted since.
    ///
    /// # Safety
    /// No handle has a chunk of it.
    pub(super) unsafe fn discard(&self) -> io::Result<()> {
        // SAFETY: the caller's; inside the mapping.
        unsafe { self.advise(sys::MADV_DONTNEED) }
    }

    /// Asks for large pages, as far as there are any.
    pub(super) fn prefer_large(&self) -> io::Result<()> {
        // SAFETY: changes no byte; inside the mapping.
        unsafe { self.advise(sys::MADV_HUGEPAGE) }
    }

    unsafe fn protect(&self, protection: c_int) -> io::Result<()> {
        let start = self.mapping.at(self.offset).as_ptr().cast();
        // SAFETY: the caller's; inside the mapping.
        done(unsafe { sys::mprotect(start, self.bytes, protection) })
    }

    unsafe fn advise(&self, advice: c_int) -> io::Result<()> {
        let start = self.mapping.at(self.offset).as_ptr().cast();
        // SAFETY: the caller's; inside the mapping.
        done(unsafe { sys::madvise(start, self.bytes, advice) })
    }
}

/// Unmaps a range; what the OS then keeps is not used again.
unsafe fn unmap(start: NonNull<u8>, bytes: usize) {
    if bytes != 0 {
        // SAFETY: the caller's: a range of ours that nobody uses.
        unsafe { sys::munmap(start.as_ptr().cast(), bytes) };
    }
}

fn done(status: c_int) -> io::Result<()> {
    match status {
        0 => Ok(()),
        _ => Err(io::Error::last_os_error()),
    }
}
