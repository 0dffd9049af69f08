//! The OS's own functions.

use std::ffi::{c_int, c_long, c_void};

#[repr(C)]
struct Timespec {
    seconds: i64,
    nanoseconds: c_long,
}

extern "C" {
    pub(super) fn mmap(
        address: *mut c_void,
        bytes: usize,
        protection: c_int,
        flags: c_int,
        file: c_int,
        offset: i64,
    ) -> *mut c_void;
    pub(super) fn munmap(address: *mut c_void, bytes: usize) -> c_int;
    pub(super) fn mprotect(address: *mut c_void, bytes: usize, protection: c_int) -> c_int;
    pub(super) fn madvise(address: *mut c_void, bytes: usize, advice: c_int) -> c_int;
    fn clock_gettime(clock: c_int, time: *mut Timespec) -> c_int;
    fn sysconf(name: c_int) -> c_long;
}

pub(super) const PROT_NONE: c_int = 0;
pub(super) const PROT_READ_WRITE: c_int = 3;
/// Private, anonymous, and nothing is set aside before it is touched.
pub(super) const MAP_RESERVATION: c_int = 0x02 | 0x20 | 0x4000;
pub(super) const MADV_DONTNEED: c_int = 4;
pub(super) const MADV_HUGEPAGE: c_int = 14;
pub(super) const ENOMEM: c_int = 12;
const CLOCK_MONOTONIC: c_int = 1;
const SC_PAGESIZE: c_int = 30;

/// The monotonic clock, in nanoseconds.
///
/// ```
/// assert!(sirqobal::linux::now() <= sirqobal::linux::now());
/// ```
pub fn now() -> u64 {
    let mut time = Timespec {
        seconds: 0,
        nanoseconds: 0,
    };
    // SAFETY: it writes the one struct. Linux has this clock; without it the time would be 0.
    unsafe { clock_gettime(CLOCK_MONOTONIC, &mut time) };
    time.seconds as u64 * 1_000_000_000 + time.nanoseconds as u64
}

/// The page size.
///
/// ```
/// assert!(sirqobal::linux::page_size().is_power_of_two());
/// ```
pub fn page_size() -> u64 {
    // SAFETY: takes all numbers.
    unsafe { sysconf(SC_PAGESIZE) as u64 }
}
