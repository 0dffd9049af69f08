//! The original rusty_alloc, compiled from its unchanged text (see build.rs) and given plain numbers
//! in and out: the functions on numbers and the slice pool here, the arena layer in [`layer`].
//!
//! Standing in for what is not published or not wanted here: `prim` (every call to the OS is put to
//! the host of the call), `options`, `segment_map`, `page`, and the constants of the original's
//! lib.rs for 64-bit Linux.
//!
//! The slice pool and the layer are statics, as in the original: use them from one thread at a time.

// The original's `usize` is compared with 64-bit numbers.
const _: () = assert!(usize::BITS == 64);

include!(concat!(env!("OUT_DIR"), "/mods.rs"));

pub mod layer;
mod prim;
mod script;
mod stand_ins;

pub use slice_pool::{alloc_run, free_range, pool_words, set_pool_words};
use stand_ins::{options, page, segment_map};
use std::process::abort;

// lib.rs of the original, on 64-bit Linux.
const OS_PAGES: bool = true;
const FIXED_REGION: bool = false;
const REGION_STRIDES: bool = false;

/// `page_align_up` of os.rs by itself.
mod page_align_up {
    use std::cell::Cell;

    thread_local!(pub static PAGE_SIZE: Cell<usize> = const { Cell::new(0) });

    fn page_size() -> usize {
        PAGE_SIZE.get()
    }

    include!(concat!(env!("OUT_DIR"), "/page_align_up.rs"));
}

/// `is_aligned_to` of bins.rs.
pub fn is_aligned_to(x: usize, align: usize) -> bool {
    bins::is_aligned_to(x, align)
}

/// `page_align_up` of os.rs at this page size.
///
/// The original's `page_size` never answers 0 (it aborts first); the function by itself takes it.
pub fn page_align_up(page: usize, size: usize) -> usize {
    page_align_up::PAGE_SIZE.set(page);
    page_align_up::page_align_up(size)
}

/// `now_ms` of arena.rs at this clock.
pub fn now_ms(ns: u64) -> u32 {
    script::set(script::Script {
        ns,
        ..script::Script::NONE
    });
    arena::now()
}

/// `delay_ms` of arena.rs with this purge delay.
pub fn delay_ms(delay: i64) -> u32 {
    script::set(script::Script {
        delay,
        ..script::Script::NONE
    });
    arena::delay()
}

/// The deadline that `arm` of arena.rs leaves where `deadline` stood.
pub fn arm(deadline: u32, due: u32) -> u32 {
    arena::armed(deadline, due)
}

/// Whether an unforced `purge_due` of arena.rs works on an arena with this deadline.
pub fn is_due(due: u32, now: u32) -> bool {
    !arena::not_yet_due(false, due, now)
}
