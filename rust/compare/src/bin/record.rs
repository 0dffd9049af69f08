//! Writes a sample of the original's answers to the standard output, for a program that has no Rust
//! at hand to replay. The same seed gives the same sample.
//!
//! A line has 53 bytes: the kind as one hex digit, then two numbers and the answer as 16 hex digits
//! each, with a space between and a newline behind.
//!
//! | kind | numbers | answer |
//! |---|---|---|
//! | 1 | is_aligned_to: x, align | 0 or 1 |
//! | 2 | page_align_up: page, size | size |
//! | 3 | arm: deadline, due | deadline |
//! | 4 | is_due: due, now | 0 or 1 |
//! | 5 | now_ms: ns, 0 | ms |
//! | 6 | delay_ms: delay (two's complement), 0 | ms |
//! | 7 | alloc_run: slices, 0 | address, or 2^64 - 1 for none |
//! | 8 | free_range: base, size | 0 or 1 |
//! | 9 | hash of the map after the line before, 0 | 1 |
//! | a | the pool is emptied: 0, 0 | 1 |

use compare_common::functions::{Function, FUNCTIONS};
use compare_common::pool::{Call, Caller, EMPTY};
use compare_common::rng::Rng;
use compare_common::{args, SEED};
use sirqobal::{SLICES, SLICE_SIZE};
use std::io::{self, Write};

fn main() -> io::Result<()> {
    let [seed] = args::read(["--seed"], [SEED]);
    let mut rng = Rng::new(seed);
    let mut sample = Sample::default();
    for function in &FUNCTIONS {
        sample.function(function, &mut rng);
    }
    sample.word_borders();
    sample.refusals();
    sample.second_frees();
    sample.long_runs();
    sample.checkerboard(&mut rng);
    sample.fragmented(&mut rng);
    io::stdout().lock().write_all(sample.text.as_bytes())
}

#[derive(Default)]
struct Sample {
    text: String,
}

impl Sample {
    fn line(&mut self, kind: u8, a: u64, b: u64, answer: u64) {
        self.text += &format!("{kind:x} {a:016x} {b:016x} {answer:016x}\n");
    }

    /// Boundaries and random numbers.
    fn function(&mut self, function: &Function, rng: &mut Rng) {
        let pairs = function.boundary_pairs();
        for n in 0..400 {
            let (a, b) = match n % 2 {
                0 => rng.pick(&pairs),
                _ => (function.draw)(rng),
            };
            self.line(function.kind, a, b, (function.rust)(a, b));
        }
    }

    fn emptied(&mut self) {
        oracle::set_pool_words(&EMPTY);
        self.line(0xa, 0, 0, 1);
        self.map();
    }

    fn claim(&mut self, slices: u64) -> Option<u64> {
        let address = oracle::alloc_run(slices as usize).map(|address| address as u64);
        self.line(7, slices, 0, address.unwrap_or(u64::MAX));
        self.map();
        address
    }

    fn free(&mut self, base: u64, size: u64) {
        let granted = oracle::free_range(base as usize, size as usize);
        self.line(8, base, size, granted.into());
        self.map();
    }

    fn free_slices(&mut self, start: u64, n: u64) {
        self.free(start * SLICE_SIZE, n * SLICE_SIZE);
    }

    fn map(&mut self) {
        let hash = oracle::pool_words()
            .iter()
            .fold(2_166_136_261, |h: u32, w| (h ^ w).wrapping_mul(16_777_619));
        self.line(9, hash.into(), 0, 1);
    }

    /// Runs that start, end and lie across the borders of words.
    fn word_borders(&mut self) {
        self.emptied();
        self.free_slices(1, 2);
        self.claim(2);
        for start in [31, 32, 63, 64, 65, 95, 127, 128] {
            self.free_slices(start, 1);
        }
        for slices in [3, 2, 2, 2, 1, 1, 1] {
            self.claim(slices);
        }
        // Each stretch is one too short for the next run.
        for slices in [31, 32, 33, 63, 64, 65, 95, 96, 97] {
            self.emptied();
            self.free_slices(33, slices - 1);
            self.free_slices(33 + slices, slices - 1);
            self.free_slices(257, slices);
            self.claim(slices);
            self.claim(slices);
            self.free_slices(32 + slices, 1);
            self.claim(slices);
            self.claim(slices - 1);
            self.claim(slices - 1);
        }
        // Every start in a word, and the last slices of the pool.
        for start in 1..=32 {
            self.emptied();
            self.free_slices(start, 34);
            self.claim(33);
        }
        self.emptied();
        let last = SLICES as u64 - 1;
        for start in [last, last - 1, last - 33] {
            self.free_slices(start, SLICES as u64 - start);
            self.claim(SLICES as u64 - start + 1);
            self.claim(SLICES as u64 - start);
        }
    }

    /// Every way to be turned down, alone and with others.
    fn refusals(&mut self) {
        self.emptied();
        self.claim(1);
        self.free_slices(1, 40);
        for slices in [0, 41, 65_535, 65_536, 65_537, 1 << 32, 1 << 63, u64::MAX] {
            self.claim(slices);
        }
        let end = 1 << 32;
        let numbers = [
            0,
            1,
            65_535,
            65_536,
            65_537,
            end - SLICE_SIZE,
            end,
            u64::MAX,
        ];
        for base in numbers {
            for size in numbers {
                self.free(base, size);
            }
        }
        // Sums that wrap at 2^64.
        for base in [SLICE_SIZE, 2 * SLICE_SIZE, end, 1 << 63] {
            self.free(base, base.wrapping_neg());
            self.free(base, base.wrapping_neg().wrapping_add(SLICE_SIZE));
        }
        self.claim(1);
    }

    fn second_frees(&mut self) {
        self.emptied();
        for (start, n) in [(5, 1), (5, 1), (4, 3), (4, 3), (1, 70), (60, 20), (1, 1)] {
            self.free_slices(start, n);
        }
        self.claim(79);
        self.claim(1);
        self.free_slices(30, 4);
        self.claim(2);
        self.free_slices(30, 4);
        self.claim(4);
        self.claim(1);
    }

    fn long_runs(&mut self) {
        let all = SLICES as u64 - 1;
        self.emptied();
        self.free_slices(1, all);
        self.claim(all + 1);
        self.claim(all);
        self.claim(1);
        self.free_slices(1, all);
        let powers: Vec<u64> = (0..16).map(|k| 1 << k).collect();
        let up: Vec<_> = powers.iter().map(|n| (self.claim(*n), *n)).collect();
        for (address, n) in up {
            if let Some(address) = address {
                self.free(address, n * SLICE_SIZE);
            }
        }
        for n in powers.iter().rev() {
            self.claim(*n);
        }
        self.claim(1);
    }

    /// Every other one of the first 4,096 slices, then runs where a gap is closed.
    fn checkerboard(&mut self, rng: &mut Rng) {
        self.emptied();
        for start in (1..4_096).step_by(2) {
            self.free_slices(start, 1);
        }
        self.claim(2);
        for slices in [1, 1, 1, 3, 3, 5, 3, 7] {
            let gap = 2 * rng.between(100, 2_000);
            self.free_slices(gap, 1);
            self.free_slices(gap + 2, 1);
            self.claim(slices);
        }
    }

    /// Random calls on a pool that random frees have filled.
    fn fragmented(&mut self, rng: &mut Rng) {
        for longest in [4, 40, 400] {
            self.emptied();
            for _ in 0..40 {
                let start = rng.between(1, 40 * longest);
                self.free_slices(start, rng.between(1, longest));
            }
            let mut caller = Caller::default();
            for _ in 0..130 {
                let call = caller.next_call(rng);
                let address = match call {
                    Call::Claim { slices } => self.claim(slices),
                    Call::Free { base, size } => {
                        self.free(base, size);
                        None
                    }
                };
                caller.told(call, address);
            }
        }
    }
}
