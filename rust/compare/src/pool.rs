//! States of the slice pool, and calls on it.

use crate::rng::Rng;
use sirqobal::{SLICES, SLICE_SIZE, WORDS};

pub type Words = [u32; WORDS];

#[derive(Clone, Copy, Debug, PartialEq, Eq)]
pub enum Call {
    Claim { slices: u64 },
    Free { base: u64, size: u64 },
}

impl Call {
    /// Frees `n` slices from `start` on.
    pub fn free(start: u64, n: u64) -> Call {
        Call::Free {
            base: start * SLICE_SIZE,
            size: n * SLICE_SIZE,
        }
    }
}

/// No slice is free.
pub const EMPTY: Words = [0; WORDS];

/// Every slice is free but slice 0, which no call can give back.
pub const FULL: Words = {
    let mut words = [u32::MAX; WORDS];
    words[0] = u32::MAX - 1;
    words
};

/// Every other slice is free, from slice 2 on.
pub const CHECKERBOARD: Words = {
    let mut words = [0x5555_5555; WORDS];
    words[0] = 0x5555_5554;
    words
};

/// Sets or clears the bits of slices `start .. start + n`.
pub fn mark(words: &mut Words, start: usize, n: usize, free: bool) {
    for slice in start..start + n {
        let bit = 1 << (slice % 32);
        match free {
            true => words[slice / 32] |= bit,
            false => words[slice / 32] &= !bit,
        }
    }
}

/// Each slice is free so many times in a hundred; slice 0 is not.
pub fn fragmented(rng: &mut Rng, percent: u64) -> Words {
    let mut words = EMPTY;
    for slice in 1..SLICES {
        mark(&mut words, slice, 1, rng.percent(percent));
    }
    words
}

/// Free and used stretches by turns, each of at most so many slices.
pub fn stretches(rng: &mut Rng, longest: u64) -> Words {
    let mut words = EMPTY;
    let mut start = 0;
    let mut free = rng.percent(50);
    while start < SLICES {
        let n = (rng.between(1, longest) as usize).min(SLICES - start);
        mark(&mut words, start, n, free);
        start += n;
        free = !free;
    }
    words
}

/// Words that a search treats apart: empty, full, all but an end bit, or anything.
pub fn patterns(rng: &mut Rng) -> Words {
    std::array::from_fn(|_| match rng.below(6) {
        0 => 0,
        1 => u32::MAX,
        2 => u32::MAX >> 1,
        3 => u32::MAX << 1,
        4 => 1 << rng.below(32),
        _ => rng.bits() as u32,
    })
}

/// The states from which the random sequences start, by number.
pub fn state(rng: &mut Rng, number: u64) -> (&'static str, Words) {
    match number % 12 {
        0 => ("empty", EMPTY),
        1 => ("all free", [u32::MAX; WORDS]),
        2 => ("all free but slice 0", FULL),
        3 => ("10 % free", fragmented(rng, 10)),
        4 => ("50 % free", fragmented(rng, 50)),
        5 => ("75 % free", fragmented(rng, 75)),
        6 => ("97 % free", fragmented(rng, 97)),
        7 => ("checkerboard", CHECKERBOARD),
        8 => ("checkerboard with slice 1", CHECKERBOARD.map(|word| !word)),
        9 => ("stretches to 100", stretches(rng, 100)),
        10 => ("stretches to 6,000", stretches(rng, 6_000)),
        _ => ("word patterns", patterns(rng)),
    }
}

/// Makes random calls, of all kinds, on a pool whose grants it is told.
#[derive(Default)]
pub struct Caller {
    /// Ranges that were granted and not freed since, as start and number of slices.
    held: Vec<(u64, u64)>,
    /// The last range freed.
    freed: (u64, u64),
}

impl Caller {
    pub fn next_call(&mut self, rng: &mut Rng) -> Call {
        match rng.below(100) {
            0..=49 => Call::Claim {
                slices: Caller::run(rng),
            },
            50..=69 => self.held_range(rng),
            70..=74 => Call::free(self.freed.0, self.freed.1),
            75..=84 => Caller::any_range(rng),
            _ => Caller::bad_range(rng),
        }
    }

    pub fn told(&mut self, call: Call, address: Option<u64>) {
        if let (Call::Claim { slices }, Some(address)) = (call, address) {
            self.held.push((address / SLICE_SIZE, slices));
        }
    }

    fn run(rng: &mut Rng) -> u64 {
        let slices = SLICES as u64;
        match rng.below(100) {
            0..=54 => rng.between(1, 8),
            55..=69 => rng.between(9, 40),
            70..=79 => rng.between(31, 33),
            80..=84 => rng.between(63, 65),
            85..=89 => rng.between(66, 1_000),
            90..=92 => rng.between(1_001, 20_000),
            93..=94 => rng.between(20_001, slices),
            95..=96 => rng.pick(&[slices - 1, slices, slices + 1, u64::MAX, 1 << 32]),
            97 => rng.between(slices + 1, u64::MAX),
            _ => 0,
        }
    }

    /// A range granted before: whole, its first part or its last.
    fn held_range(&mut self, rng: &mut Rng) -> Call {
        if self.held.is_empty() {
            return Caller::any_range(rng);
        }
        let place = rng.below(self.held.len() as u64) as usize;
        let (start, n) = self.held.swap_remove(place);
        let part = rng.between(1, n);
        let (start, n) = match rng.below(4) {
            0 => (start, part),
            1 => (start + n - part, part),
            _ => (start, n),
        };
        self.freed = (start, n);
        Call::free(start, n)
    }

    /// A range that may be freed, free already or not; its end is often the last slice's.
    fn any_range(rng: &mut Rng) -> Call {
        let last = SLICES as u64 - 1;
        let start = rng.between(1, last);
        let room = SLICES as u64 - start;
        let n = match rng.below(10) {
            0 => room,
            1 => rng.between(1, room),
            2..=4 => rng.between(1, 100).min(room),
            _ => rng.between(1, 8).min(room),
        };
        Call::free(start, n)
    }

    /// A range that is turned down, most often for one reason alone.
    fn bad_range(rng: &mut Rng) -> Call {
        let slices = SLICES as u64;
        let whole = |n: u64| n.wrapping_mul(SLICE_SIZE);
        let start = rng.between(1, slices - 1);
        let n = rng.between(1, 100);
        let off = rng.between(1, SLICE_SIZE - 1);
        let (base, size) = match rng.below(14) {
            0 => (whole(start), 0),
            1 => (rng.number(), 0),
            2 => (whole(start) + off, whole(n)),
            3 => (whole(start), whole(n) + off),
            4 => (off, whole(n)),
            5 => (0, whole(n)),
            6 => (0, rng.number()),
            7 => (whole(start), whole(slices - start + 1)),
            8 => (whole(slices), whole(n)),
            9 => (whole(rng.bits()), whole(rng.bits())),
            // base + size wraps at 2^64
            10 => (whole(start), whole(n.wrapping_sub(start))),
            11 => (u64::MAX, rng.number()),
            12 => (rng.number(), u64::MAX),
            _ => (rng.number(), rng.number()),
        };
        Call::Free { base, size }
    }
}

#[cfg(test)]
mod tests {
    use super::*;

    #[test]
    fn marks_across_words() {
        let mut words = EMPTY;
        mark(&mut words, 30, 4, true);
        assert_eq!(words[..3], [3 << 30, 3, 0]);
        mark(&mut words, 31, 2, false);
        assert_eq!(words[..3], [1 << 30, 2, 0]);
        mark(&mut words, 0, SLICES, true);
        mark(&mut words, 0, 1, false);
        assert_eq!(words, FULL);
    }

    #[test]
    fn slice_0_is_used_where_said() {
        let mut rng = Rng::new(0);
        for words in [FULL, CHECKERBOARD, fragmented(&mut rng, 100)] {
            assert_eq!(words[0] & 1, 0);
        }
    }
}
