use crate::abi;
use crate::Refusal;

/// Bytes in a slice.
pub const SLICE_SIZE: u64 = 65_536;

/// Slices in a pool: 4 GiB of addresses.
pub const SLICES: usize = 65_536;

/// Words in a pool's map, 32 slices each.
pub const WORDS: usize = SLICES / 32;

/// A pool of free slices: bit j % 32 of word j / 32 is set if slice j, at address j × 65,536, is
/// free. It only keeps the book; it never touches the memory at these addresses.
///
/// ```
/// use sirqobal::{SlicePool, SLICE_SIZE};
///
/// let mut pool = SlicePool::new();
/// pool.free_range(30 * SLICE_SIZE, 4 * SLICE_SIZE)?;
/// assert_eq!(pool.alloc_run(3)?, 30 * SLICE_SIZE);
/// assert_eq!(pool.words()[1], 0b10);
/// # Ok::<(), sirqobal::Refusal>(())
/// ```
#[derive(Clone, Debug, PartialEq, Eq)]
pub struct SlicePool {
    words: Box<[u32; WORDS]>,
}

impl SlicePool {
    /// A pool in which no slice is free.
    ///
    /// ```
    /// let pool = sirqobal::SlicePool::new();
    /// assert!(pool.words().iter().all(|word| *word == 0));
    /// ```
    pub fn new() -> SlicePool {
        SlicePool::from_words([0; WORDS])
    }

    /// A pool over this map. Every map will do, one with slice 0 free too.
    ///
    /// ```
    /// use sirqobal::{SlicePool, WORDS};
    ///
    /// let mut pool = SlicePool::from_words([u32::MAX; WORDS]);
    /// assert_eq!(pool.alloc_run(65_536), Ok(0));
    /// ```
    pub fn from_words(words: [u32; WORDS]) -> SlicePool {
        SlicePool {
            words: Box::new(words),
        }
    }

    /// The map.
    ///
    /// ```
    /// let mut pool = sirqobal::SlicePool::new();
    /// pool.free_range(65_536, 65_536)?;
    /// assert_eq!(pool.words()[0], 2);
    /// # Ok::<(), sirqobal::Refusal>(())
    /// ```
    pub fn words(&self) -> &[u32; WORDS] {
        &self.words
    }

    /// Sets the whole map.
    ///
    /// ```
    /// use sirqobal::{SlicePool, WORDS};
    ///
    /// let mut pool = SlicePool::new();
    /// pool.set_words(&[1 << 31; WORDS]);
    /// assert_eq!(pool.alloc_run(1), Ok(31 * 65_536));
    /// ```
    pub fn set_words(&mut self, words: &[u32; WORDS]) {
        *self.words = *words;
    }

    /// Takes the lowest run of this many free slices and answers its address.
    ///
    /// # Errors
    /// [`Refusal::Zero`], [`Refusal::NoRun`].
    ///
    /// ```
    /// use sirqobal::{Refusal, SlicePool};
    ///
    /// let mut pool = SlicePool::new();
    /// pool.free_range(65_536, 131_072)?;
    /// assert_eq!(pool.alloc_run(3), Err(Refusal::NoRun));
    /// assert_eq!(pool.alloc_run(2), Ok(65_536));
    /// # Ok::<(), Refusal>(())
    /// ```
    pub fn alloc_run(&mut self, slices: u64) -> Result<u64, Refusal> {
        alloc_run_in(&mut self.words[..], slices)
    }

    /// Frees the slices of a range of whole slices, already free or not. The first slice, at
    /// address 0, is never accepted.
    ///
    /// # Errors
    /// [`Refusal::Zero`], [`Refusal::NotWhole`], [`Refusal::NotInside`], [`Refusal::PastEnd`].
    ///
    /// ```
    /// use sirqobal::{Refusal, SlicePool};
    ///
    /// let mut pool = SlicePool::new();
    /// assert_eq!(pool.free_range(65_536, 65_536), Ok(()));
    /// assert_eq!(pool.free_range(65_536, 65_536), Ok(()));
    /// assert_eq!(pool.free_range(65_537, 65_536), Err(Refusal::NotWhole));
    /// assert_eq!(pool.free_range(0, 65_536), Err(Refusal::NotInside));
    /// assert_eq!(pool.free_range(65_536, 1 << 32), Err(Refusal::PastEnd));
    /// ```
    pub fn free_range(&mut self, base: u64, size: u64) -> Result<(), Refusal> {
        free_range_in(&mut self.words[..], base, size)
    }
}

impl Default for SlicePool {
    fn default() -> SlicePool {
        SlicePool::new()
    }
}

/// [`SlicePool::alloc_run`] on a lent map.
///
/// # Errors
/// [`Refusal::Broken`] for a map that has not exactly [`WORDS`] words; then as
/// [`SlicePool::alloc_run`].
///
/// ```
/// use sirqobal::{alloc_run_in, Refusal};
///
/// assert_eq!(alloc_run_in(&mut [u32::MAX; 2_047], 1), Err(Refusal::Broken));
/// assert_eq!(alloc_run_in(&mut [u32::MAX; 2_048], 1), Ok(0));
/// ```
pub fn alloc_run_in(words: &mut [u32], slices: u64) -> Result<u64, Refusal> {
    // SAFETY: pointer and length are those of one slice, lent for the call.
    let answer = unsafe { abi::sirqobal_alloc_run(words.as_mut_ptr(), words.len(), slices) };
    granted(answer.number).map(|()| answer.address)
}

/// [`SlicePool::free_range`] on a lent map.
///
/// # Errors
/// [`Refusal::Broken`] for a map that has not exactly [`WORDS`] words; then as
/// [`SlicePool::free_range`].
///
/// ```
/// use sirqobal::{free_range_in, Refusal};
///
/// assert_eq!(free_range_in(&mut [], 65_536, 65_536), Err(Refusal::Broken));
/// assert_eq!(free_range_in(&mut [0; 2_048], 65_536, 65_536), Ok(()));
/// ```
pub fn free_range_in(words: &mut [u32], base: u64, size: u64) -> Result<(), Refusal> {
    // SAFETY: pointer and length are those of one slice, lent for the call.
    granted(unsafe { abi::sirqobal_free_range(words.as_mut_ptr(), words.len(), base, size) })
}

fn granted(number: u32) -> Result<(), Refusal> {
    match Refusal::from_number(number) {
        Some(refusal) => Err(refusal),
        None if number == 0 => Ok(()),
        None => unreachable!("libsirqobal answered {number}, no row of its table"),
    }
}

#[cfg(test)]
mod tests {
    use super::*;

    #[test]
    fn refusals_come_in_order_and_change_nothing() {
        let mut pool = SlicePool::from_words([0x5555_5555; WORDS]);
        let before = pool.clone();
        assert_eq!(pool.alloc_run(0), Err(Refusal::Zero));
        assert_eq!(pool.alloc_run(2), Err(Refusal::NoRun));
        assert_eq!(pool.alloc_run(65_537), Err(Refusal::NoRun));
        assert_eq!(pool.alloc_run(u64::MAX), Err(Refusal::NoRun));
        assert_eq!(pool.free_range(1, 0), Err(Refusal::Zero));
        assert_eq!(pool.free_range(1, SLICE_SIZE), Err(Refusal::NotWhole));
        assert_eq!(pool.free_range(0, 1), Err(Refusal::NotWhole));
        assert_eq!(pool.free_range(0, SLICE_SIZE), Err(Refusal::NotInside));
        assert_eq!(pool.free_range(1 << 32, SLICE_SIZE), Err(Refusal::PastEnd));
        let wraps = u64::MAX - (SLICE_SIZE - 1);
        assert_eq!(pool.free_range(SLICE_SIZE, wraps), Err(Refusal::PastEnd));
        assert_eq!(pool, before);
    }

    #[test]
    fn wrong_lengths_are_broken() {
        for len in [0, 1, WORDS - 1, WORDS + 1, 2 * WORDS] {
            let mut words = vec![u32::MAX; len];
            assert_eq!(alloc_run_in(&mut words, 0), Err(Refusal::Broken));
            assert_eq!(alloc_run_in(&mut words, 1), Err(Refusal::Broken));
            assert_eq!(free_range_in(&mut words, 0, 0), Err(Refusal::Broken));
            assert!(words.iter().all(|word| *word == u32::MAX));
        }
    }

    #[test]
    fn a_run_may_cross_words() {
        let mut pool = SlicePool::new();
        pool.free_range(31 * SLICE_SIZE, 33 * SLICE_SIZE).unwrap();
        assert_eq!(pool.words()[..2], [1 << 31, u32::MAX]);
        assert_eq!(pool.alloc_run(33), Ok(31 * SLICE_SIZE));
        assert_eq!(pool, SlicePool::default());
    }
}
