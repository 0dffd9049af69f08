//! Stands in for prim/: every call to the OS becomes a question to the host of the call, but those
//! for descriptors, which the port does not have.

use crate::script::{self, Question};
use crate::types::SEGMENT_SIZE;
use std::alloc::{alloc_zeroed, handle_alloc_error, Layout};
use std::cell::RefCell;

pub type PrimError = u32;

/// Any error: the arena layer looks only at whether there is one.
const REFUSED: PrimError = 12;

pub const FREE_RETURNS_MEMORY: bool = true;

pub struct MemConfig {
    pub page_size: usize,
    pub alloc_granularity: usize,
    pub large_page_size: usize,
}

pub struct Alloc {
    pub ptr: *mut u8,
    pub is_large: bool,
    pub is_zero: bool,
}

/// Not reached: the page size is stored before each call.
pub fn mem_init() -> MemConfig {
    MemConfig {
        page_size: 4_096,
        alloc_granularity: 4_096,
        large_page_size: 0,
    }
}

pub fn clock_now() -> u64 {
    script::get().ns
}

pub fn range_is_reserved(_ptr: *const u8, _size: usize) -> bool {
    script::get().reserved
}

/// # Safety
/// None: nothing is dereferenced. The original's callers write `unsafe`.
pub unsafe fn alloc(
    size: usize,
    align: usize,
    commit: bool,
    large: bool,
) -> Result<Alloc, PrimError> {
    if align != SEGMENT_SIZE {
        return Ok(block(descriptor(size)));
    }
    let base = script::ask(Question::Memory {
        bytes: size as u64,
        align: align as u64,
        commit,
        large,
    });
    base.map(|base| block(at(base))).ok_or(REFUSED)
}

/// # Safety
/// As [`alloc`].
pub unsafe fn free(ptr: *mut u8, size: usize) -> Result<(), PrimError> {
    if give_descriptor(ptr) {
        return Ok(());
    }
    yes_or_no(Question::GiveBack {
        address: ptr.addr() as u64,
        bytes: size as u64,
    })
}

/// # Safety
/// As [`alloc`].
pub unsafe fn commit(ptr: *mut u8, size: usize) -> Result<bool, PrimError> {
    let question = Question::Commit {
        address: ptr.addr() as u64,
        bytes: size as u64,
    };
    yes_or_no(question).map(|()| false)
}

/// # Safety
/// As [`alloc`].
pub unsafe fn decommit(ptr: *mut u8, size: usize) -> Result<bool, PrimError> {
    purge(ptr, size, true).map(|()| true)
}

/// # Safety
/// As [`alloc`].
pub unsafe fn reset(ptr: *mut u8, size: usize) -> Result<(), PrimError> {
    purge(ptr, size, false)
}

pub mod fixed {
    /// Not reached: there is no fixed region.
    pub fn stride_base() -> usize {
        0
    }
}

fn purge(ptr: *mut u8, size: usize, decommit: bool) -> Result<(), PrimError> {
    yes_or_no(Question::Purge {
        address: ptr.addr() as u64,
        bytes: size as u64,
        decommit,
    })
}

fn yes_or_no(question: Question) -> Result<(), PrimError> {
    script::ask(question).map(|_| ()).ok_or(REFUSED)
}

/// The addresses of the layer are numbers; nothing is read or written there.
pub fn at(address: u64) -> *mut u8 {
    std::ptr::without_provenance_mut(address as usize)
}

fn block(ptr: *mut u8) -> Alloc {
    Alloc {
        ptr,
        is_large: false,
        is_zero: true,
    }
}

/// Room for a descriptor at every page size.
const DESCRIPTOR: Layout = match Layout::from_size_align(65_536, 65_536) {
    Ok(layout) => layout,
    Err(_) => panic!(),
};

/// Descriptors: those in use, and those to be used again.
#[derive(Default)]
struct Descriptors {
    lent: Vec<*mut u8>,
    idle: Vec<*mut u8>,
}

thread_local!(static DESCRIPTORS: RefCell<Descriptors> = RefCell::default());

fn descriptor(size: usize) -> *mut u8 {
    assert!(size <= DESCRIPTOR.size());
    DESCRIPTORS.with_borrow_mut(|all| {
        // SAFETY: of the layout's size, from the same allocator.
        let ptr = unsafe {
            match all.idle.pop() {
                Some(ptr) => {
                    ptr.write_bytes(0, size);
                    ptr
                }
                None => alloc_zeroed(DESCRIPTOR),
            }
        };
        if ptr.is_null() {
            handle_alloc_error(DESCRIPTOR);
        }
        all.lent.push(ptr);
        ptr
    })
}

fn give_descriptor(ptr: *mut u8) -> bool {
    DESCRIPTORS.with_borrow_mut(|all| {
        let place = all.lent.iter().position(|lent| *lent == ptr);
        if let Some(place) = place {
            let ptr = all.lent.swap_remove(place);
            all.idle.push(ptr);
        }
        place.is_some()
    })
}

/// Descriptors in use by a layer that is put aside: they are taken back with it alone.
#[derive(Default)]
pub struct Kept(Vec<*mut u8>);

impl Kept {
    /// All that are in use.
    pub fn take() -> Kept {
        DESCRIPTORS.with_borrow_mut(|all| Kept(std::mem::take(&mut all.lent)))
    }

    /// They are in use again by the layer that stands.
    pub fn put(mut self) {
        DESCRIPTORS.with_borrow_mut(|all| all.lent.append(&mut self.0));
    }
}

impl Drop for Kept {
    fn drop(&mut self) {
        DESCRIPTORS.with_borrow_mut(|all| all.idle.append(&mut self.0));
    }
}

/// Takes all descriptors in use back; the layer must have been reset.
pub fn take_descriptors() {
    DESCRIPTORS.with_borrow_mut(|all| {
        let Descriptors { lent, idle } = all;
        idle.append(lent);
    });
}
