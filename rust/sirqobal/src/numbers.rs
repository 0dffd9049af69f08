//! The functions on numbers.

use crate::abi;

/// Whether `x` is a multiple of `align`; false if `align` is no power of two.
///
/// ```
/// assert!(sirqobal::is_aligned_to(65_536, 4_096));
/// assert!(!sirqobal::is_aligned_to(12, 3));
/// assert!(!sirqobal::is_aligned_to(12, 0));
/// ```
pub fn is_aligned_to(x: u64, align: u64) -> bool {
    // SAFETY: takes all numbers.
    unsafe { abi::sirqobal_is_aligned_to(x, align) }
}

/// `size` rounded up to whole pages, the page being the lowest set bit of `page`. Page 0 and size 0
/// count as 1; a sum past 2^64 - 1 leaves the size as it is.
///
/// ```
/// assert_eq!(sirqobal::page_align_up(4_096, 4_097), 8_192);
/// assert_eq!(sirqobal::page_align_up(4_096, 0), 4_096);
/// assert_eq!(sirqobal::page_align_up(4_096, u64::MAX), u64::MAX);
/// ```
pub fn page_align_up(page: u64, size: u64) -> u64 {
    // SAFETY: takes all numbers.
    unsafe { abi::sirqobal_page_align_up(page, size) }
}

/// Milliseconds of a clock in nanoseconds, wrapping at 2^32; 0 becomes 1.
///
/// ```
/// assert_eq!(sirqobal::now_ms(2_000_000), 2);
/// assert_eq!(sirqobal::now_ms(4_294_967_296_000_000), 1);
/// ```
pub fn now_ms(ns: u64) -> u32 {
    // SAFETY: takes all numbers.
    unsafe { abi::sirqobal_now_ms(ns) }
}

/// The milliseconds of a purge delay, clamped to 0 .. 1,073,741,823. A negative delay gives 0, as a
/// forced sweep keeps it: whether anything is purged at all, its sign says
/// ([`NEVER`](crate::NEVER)).
///
/// ```
/// assert_eq!(sirqobal::delay_ms(10), 10);
/// assert_eq!(sirqobal::delay_ms(-1), 0);
/// assert_eq!(sirqobal::delay_ms(1_073_741_824), 1_073_741_823);
/// ```
pub fn delay_ms(delay: i64) -> u32 {
    // SAFETY: takes all numbers.
    unsafe { abi::sirqobal_delay_ms(delay) }
}

/// The deadline that stands after arming `due` over `deadline`: the earlier of the two in wrapping
/// time, a deadline of 0 being none. A `due` of 0 becomes 1.
///
/// ```
/// assert_eq!(sirqobal::arm(100, 50), 50);
/// assert_eq!(sirqobal::arm(50, 100), 50);
/// assert_eq!(sirqobal::arm(0, 0), 1);
/// ```
pub fn arm(deadline: u32, due: u32) -> u32 {
    // SAFETY: takes all numbers.
    unsafe { abi::sirqobal_arm(deadline, due) }
}

/// Whether the deadline `due` has come at `now`, in wrapping time.
///
/// ```
/// assert!(sirqobal::is_due(7, 7));
/// assert!(!sirqobal::is_due(5, 4_294_967_290));
/// ```
pub fn is_due(due: u32, now: u32) -> bool {
    // SAFETY: takes all numbers.
    unsafe { abi::sirqobal_is_due(due, now) }
}

#[cfg(test)]
mod tests {
    use super::*;

    // Document 01, "Worked by hand".
    #[test]
    fn worked_by_hand() {
        assert_eq!(arm(2_147_483_648, 1), 1);
        assert_eq!(arm(2_147_483_649, 1), 2_147_483_649);
        assert!(!is_due(2_147_483_646, 0));
        assert!(is_due(2_147_483_647, 0));
        assert_eq!(now_ms(999_999), 1);
    }

    #[test]
    fn zero_counts_as_one() {
        assert_eq!(page_align_up(0, 0), 1);
        assert_eq!(page_align_up(0, 5), 5);
        assert_eq!(page_align_up(12, 5), 8);
    }
}
