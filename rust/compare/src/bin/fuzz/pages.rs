//! Slices at the edges of mapped pages: what lies before the first page or behind the last may
//! not be touched, so that a read or a write there ends the program.

use std::ffi::{c_int, c_void};
use std::marker::PhantomData;
use std::{ptr, slice};

extern "C" {
    fn mmap(
        address: *mut c_void,
        length: usize,
        protection: c_int,
        flags: c_int,
        file: c_int,
        offset: i64,
    ) -> *mut c_void;
    fn mprotect(address: *mut c_void, length: usize, protection: c_int) -> c_int;
    fn munmap(address: *mut c_void, length: usize) -> c_int;
}

const NO_ACCESS: c_int = 0;
const READ_AND_WRITE: c_int = 3;
const PRIVATE_AND_ANONYMOUS: c_int = 0x22;

/// A multiple of every page size that Linux has.
const PAGE: usize = 65_536;

/// Numbers of a kind for which all bits are sound: `u32` or `u64`.
pub trait Number: Copy {}

impl Number for u32 {}
impl Number for u64 {}

/// Pages between two that may not be touched.
pub struct Pages<T: Number> {
    /// The first page, which may not.
    map: *mut c_void,
    /// The bytes that may.
    bytes: usize,
    numbers: PhantomData<T>,
}

impl<T: Number> Pages<T> {
    /// Pages for at least so many numbers.
    pub fn new(room: usize) -> Pages<T> {
        let bytes = (room * size_of::<T>()).next_multiple_of(PAGE);
        let length = bytes + 2 * PAGE;
        let flags = PRIVATE_AND_ANONYMOUS;
        // SAFETY: a new mapping, wherever there is room.
        let map = unsafe { mmap(ptr::null_mut(), length, NO_ACCESS, flags, -1, 0) };
        assert!(map.addr() != usize::MAX, "no memory for {length} bytes");
        // SAFETY: these bytes lie inside the mapping, and nobody uses them yet.
        let done = unsafe { mprotect(map.byte_add(PAGE), bytes, READ_AND_WRITE) };
        assert_eq!(done, 0, "the pages stay closed");
        Pages {
            map,
            bytes,
            numbers: PhantomData,
        }
    }

    /// A copy of these numbers, which begins at the first edge or ends at the last.
    pub fn holding(&mut self, numbers: &[T], at_last: bool) -> &mut [T] {
        let length = size_of_val(numbers);
        assert!(length <= self.bytes, "room for {} bytes", self.bytes);
        let before = if at_last { self.bytes - length } else { 0 };
        // SAFETY: the slice lies inside the pages that may be touched, as many bytes before their
        // end as it has or at their start; it is aligned, since they are and its length is a
        // multiple of a number's; all bits are numbers; and it borrows the pages mutably.
        let lent = unsafe {
            let start = self.map.byte_add(PAGE + before).cast::<T>();
            slice::from_raw_parts_mut(start, numbers.len())
        };
        lent.copy_from_slice(numbers);
        lent
    }
}

impl<T: Number> Drop for Pages<T> {
    fn drop(&mut self) {
        // SAFETY: the mapping is this one's alone, and no slice of it is borrowed any more.
        let done = unsafe { munmap(self.map, self.bytes + 2 * PAGE) };
        assert_eq!(done, 0, "the mapping was ours");
    }
}
