//! The six functions on numbers, both sides behind one signature.

use crate::rng::Rng;

/// A function on two numbers. A 32-bit argument is the low half of its number, a signed one its
/// two's complement, a bool is answered as 0 or 1; a function of one number ignores the second.
pub struct Function {
    /// Its digit in the recorded sample.
    pub kind: u8,
    pub name: &'static str,
    pub takes: Takes,
    pub rust: fn(u64, u64) -> u64,
    pub ours: fn(u64, u64) -> u64,
    /// First and second numbers of the small ranges, of which all pairs are tried.
    pub small: fn() -> (Vec<u64>, Vec<u64>),
    /// Random arguments, of which a good part reaches the answers that are rare by chance.
    pub draw: fn(&mut Rng) -> (u64, u64),
}

#[derive(Clone, Copy, PartialEq, Eq)]
pub enum Takes {
    TwoWide,
    TwoNarrow,
    OneWide,
}

pub const FUNCTIONS: [Function; 6] = [
    Function {
        kind: 1,
        name: "is_aligned_to",
        takes: Takes::TwoWide,
        rust: |x, align| oracle::is_aligned_to(x as usize, align as usize).into(),
        ours: |x, align| sirqobal::is_aligned_to(x, align).into(),
        small: || ((0..=300).collect(), (0..=300).collect()),
        draw: |rng| match rng.below(2) {
            0 => (rng.bits() << rng.below(64), rng.power()),
            _ => (rng.number(), rng.number()),
        },
    },
    Function {
        kind: 2,
        name: "page_align_up",
        takes: Takes::TwoWide,
        rust: |page, size| oracle::page_align_up(page as usize, size as usize) as u64,
        ours: sirqobal::page_align_up,
        small: || ((0..=130).collect(), (0..=600).collect()),
        draw: |rng| match rng.below(2) {
            0 => (rng.number() << rng.below(64), rng.number()),
            _ => (rng.number(), rng.number()),
        },
    },
    on_times(
        3,
        "arm",
        |deadline, due| oracle::arm(deadline as u32, due as u32).into(),
        |deadline, due| sirqobal::arm(deadline as u32, due as u32).into(),
    ),
    on_times(
        4,
        "is_due",
        |due, now| oracle::is_due(due as u32, now as u32).into(),
        |due, now| sirqobal::is_due(due as u32, now as u32).into(),
    ),
    Function {
        kind: 5,
        name: "now_ms",
        takes: Takes::OneWide,
        rust: |ns, _| oracle::now_ms(ns).into(),
        ours: |ns, _| sirqobal::now_ms(ns).into(),
        small: small_clocks,
        draw: |rng| {
            let whole = rng.number().wrapping_mul(1_000_000);
            let wrap = rng.below(4_295) * WRAP_NS;
            match rng.below(3) {
                0 => (rng.near(whole), 0),
                1 => (wrap.wrapping_add(rng.below(2_000_000)), 0),
                _ => (rng.number(), 0),
            }
        },
    },
    Function {
        kind: 6,
        name: "delay_ms",
        takes: Takes::OneWide,
        rust: |delay, _| oracle::delay_ms(delay as i64).into(),
        ours: |delay, _| sirqobal::delay_ms(delay as i64).into(),
        small: || {
            (
                around(&[0, 1 << 30, 1 << 31, 1 << 32, 1 << 63], 3_000, u64::MAX),
                vec![0],
            )
        },
        draw: |rng| match rng.below(3) {
            0 => (rng.below(1 << 31), 0),
            1 => (rng.number().wrapping_neg(), 0),
            _ => (rng.number(), 0),
        },
    },
];

/// A function on two points of the 32-bit clock.
const fn on_times(
    kind: u8,
    name: &'static str,
    rust: fn(u64, u64) -> u64,
    ours: fn(u64, u64) -> u64,
) -> Function {
    Function {
        kind,
        name,
        takes: Takes::TwoNarrow,
        rust,
        ours,
        small: small_times,
        draw: two_times,
    }
}

/// The clock's milliseconds wrap after so many nanoseconds.
const WRAP_NS: u64 = 1_000_000 << 32;

/// Around 0, the quarters of a turn and its end.
fn small_times() -> (Vec<u64>, Vec<u64>) {
    let times = around(&[0, 1 << 30, 1 << 31, 3 << 30], 40, 0xffff_ffff);
    (times.clone(), times)
}

/// The first nanoseconds of the first milliseconds, and of those where they wrap.
fn small_clocks() -> (Vec<u64>, Vec<u64>) {
    let wraps: Vec<u64> = (0..=4_294).map(|turn| turn << 32).collect();
    let ms = (0..=5_000).chain(around(&wraps, 2, u64::MAX >> 1));
    let starts: Vec<u64> = ms.map(|ms| ms.wrapping_mul(1_000_000)).collect();
    (around(&starts, 1, u64::MAX), vec![0])
}

/// Two points of a 32-bit clock, often close to each other or half a turn apart.
fn two_times(rng: &mut Rng) -> (u64, u64) {
    let a = rng.number();
    let b = match rng.below(3) {
        0 => rng.near(a),
        1 => rng.near(a.wrapping_add(1 << 31)),
        _ => rng.number(),
    };
    (a & 0xffff_ffff, b & 0xffff_ffff)
}

impl Function {
    /// All pairs of boundaries; for a function of one number, their sums.
    pub fn boundary_pairs(&self) -> Vec<(u64, u64)> {
        let numbers = boundaries(if self.takes == Takes::TwoNarrow {
            32
        } else {
            64
        });
        let pairs = numbers
            .iter()
            .flat_map(|a| numbers.iter().map(|b| (*a, *b)));
        match self.takes {
            Takes::OneWide => pairs.map(|(a, b)| (a.wrapping_add(b), 0)).collect(),
            _ => pairs.collect(),
        }
    }
}

/// 0, the powers of two, their negations, and the neighbours of all these, in so many bits.
pub fn boundaries(bits: u32) -> Vec<u64> {
    let mask = u64::MAX >> (64 - bits);
    let powers = (0..bits).map(|k| 1u64 << k);
    let centres: Vec<u64> = powers
        .flat_map(|p| [p, p.wrapping_neg()])
        .chain([0])
        .collect();
    around(&centres, 1, mask)
}

/// The numbers at most so far from these, wrapping.
fn around(centres: &[u64], distance: i64, mask: u64) -> Vec<u64> {
    let mut numbers: Vec<u64> = centres
        .iter()
        .flat_map(|c| (-distance..=distance).map(|d| c.wrapping_add_signed(d) & mask))
        .collect();
    numbers.sort_unstable();
    numbers.dedup();
    numbers
}

#[cfg(test)]
mod tests {
    use super::*;

    #[test]
    fn boundaries_hold_the_ends() {
        for bits in [32, 64] {
            let numbers = boundaries(bits);
            let last = u64::MAX >> (64 - bits);
            assert_eq!(numbers[..3], [0, 1, 2]);
            assert_eq!(numbers[numbers.len() - 3..], [last - 2, last - 1, last]);
            assert!([65_535, 65_536, 65_537].iter().all(|n| numbers.contains(n)));
        }
    }

    #[test]
    fn kinds_are_the_places() {
        for (kind, function) in (1..).zip(&FUNCTIONS) {
            assert_eq!(function.kind, kind);
        }
    }
}
