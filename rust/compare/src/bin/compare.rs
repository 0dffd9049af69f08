//! Runs the original and the proved library side by side and compares every answer and, for the
//! slice pool, the whole map after every call. The original only says that a pool call is refused;
//! by which number is judged by `document`, written from document 01 alone.

use compare_common::functions::{boundaries, Function, FUNCTIONS};
use compare_common::pool::{fragmented, patterns, state, Call, Caller, Words, EMPTY, FULL};
use compare_common::rng::Rng;
use compare_common::{args, by_number, SEED};
use sirqobal::{alloc_run_in, free_range_in, Refusal, SlicePool, SLICE_SIZE, WORDS};
use std::process::ExitCode;

fn main() -> ExitCode {
    let [seed, cases, sequences, calls] = args::read(
        ["--seed", "--cases", "--sequences", "--calls"],
        [SEED, 1_000_000, 400, 1_000],
    );
    println!("seed {seed}");
    let mut tally = Tally::default();
    let mut rng = Rng::new(seed);

    for function in &FUNCTIONS {
        let (first, second) = (function.small)();
        for a in first {
            for b in &second {
                tally.numbers(function, a, *b);
            }
        }
        tally.family("small ranges", function.name, "");
    }
    for function in &FUNCTIONS {
        for (a, b) in function.boundary_pairs() {
            tally.numbers(function, a, b);
        }
        tally.family("boundaries", function.name, "");
    }
    for function in &FUNCTIONS {
        for _ in 0..cases {
            let (a, b) = (function.draw)(&mut rng);
            tally.numbers(function, a, b);
        }
        tally.family("random", function.name, "");
    }
    wrong_lengths(&mut tally, &mut rng);
    pool_boundaries(&mut tally, &mut rng);
    pool_sequences(&mut tally, &mut rng, sequences, calls);

    let Tally {
        total, differences, ..
    } = tally;
    println!("compared: {total} cases, {differences} differences");
    ExitCode::from(u8::from(differences != 0))
}

/// Counts cases and differences, and prints them.
#[derive(Default)]
struct Tally {
    total: u64,
    family_start: u64,
    differences: u64,
}

impl Tally {
    /// Differences told in words: enough to see what is wrong.
    const TOLD: u64 = 10;

    fn case(&mut self, alike: bool, tell: impl FnOnce() -> String) {
        self.total += 1;
        if !alike {
            self.differences += 1;
            if self.differences <= Tally::TOLD {
                println!("DIFFERENT {}", tell());
            }
        }
    }

    fn numbers(&mut self, function: &Function, a: u64, b: u64) {
        let (rust, ours) = ((function.rust)(a, b), (function.ours)(a, b));
        self.case(rust == ours, || {
            let name = function.name;
            format!("{name}: {a} (0x{a:x}), {b} (0x{b:x}): Rust {rust}, ours {ours}")
        });
    }

    fn family(&mut self, family: &str, of: &str, more: &str) {
        let cases = self.total - self.family_start;
        println!("{family:<12}  {of:<13}  {cases:>9} cases{more}");
        self.family_start = self.total;
    }
}

/// Document 01's "Turned down" for the slice pool. Order: 1; then 4, 7, 8, 9 for a free and 4, 10
/// for a claim. 0: granted.
mod document {
    use super::{Call, SLICE_SIZE};

    pub fn number(words: &[u32], call: Call) -> u32 {
        if words.len() != 2_048 {
            return 1;
        }
        match call {
            Call::Claim { slices: 0 } => 4,
            Call::Claim { slices } if slices > longest_run(words) => 10,
            Call::Claim { .. } => 0,
            Call::Free { size: 0, .. } => 4,
            Call::Free { base, size } if base % SLICE_SIZE != 0 || size % SLICE_SIZE != 0 => 7,
            Call::Free { base, .. } if base < SLICE_SIZE => 8,
            Call::Free { base, size } if base / SLICE_SIZE + size / SLICE_SIZE > 65_536 => 9,
            Call::Free { .. } => 0,
        }
    }

    /// The length of the longest run of free slices.
    pub fn longest_run(words: &[u32]) -> u64 {
        let mut longest = 0;
        let mut run = 0; // free slices that end where this word starts
        for word in words {
            longest = longest.max(run + word.trailing_ones());
            if *word == u32::MAX {
                run += 32;
            } else {
                run = word.leading_ones();
                longest = longest.max(longest_in(*word));
            }
        }
        longest.into()
    }

    /// Each step shortens every run of ones by one.
    fn longest_in(mut word: u32) -> u32 {
        let mut steps = 0;
        while word != 0 {
            word &= word << 1;
            steps += 1;
        }
        steps
    }
}

/// The original's static pool and one of ours, holding the same map.
struct Both {
    ours: SlicePool,
}

/// What both sides said: a refusal's number, or 0 and, for a claim, the address.
#[derive(Clone, Copy)]
struct Answer {
    number: u32,
    address: Option<u64>,
}

impl Both {
    fn holding(words: &Words) -> Both {
        oracle::set_pool_words(words);
        Both {
            ours: SlicePool::from_words(*words),
        }
    }

    /// Makes one call on both sides, which hold `before`; an error says what differs.
    fn call(&mut self, before: &Words, call: Call) -> Result<Answer, String> {
        let (rust, ours) = match call {
            Call::Claim { slices } => (
                oracle::alloc_run(slices as usize).map(|address| address as u64),
                self.ours.alloc_run(slices),
            ),
            Call::Free { base, size } => (
                oracle::free_range(base as usize, size as usize).then_some(0),
                self.ours.free_range(base, size).map(|()| 0),
            ),
        };
        let document = document::number(before, call);
        let number = ours.map_or_else(Refusal::number, |_| 0);
        let address = ours.ok();
        if rust != address {
            return Err(format!("Rust {rust:?}, ours {ours:?}"));
        }
        if number != document {
            return Err(format!("document {document}, ours {number}"));
        }
        let (rust, ours) = (oracle::pool_words(), self.ours.words());
        if let Some(w) = (0..WORDS).find(|w| rust[*w] != ours[*w]) {
            let (rust, ours) = (rust[w], ours[w]);
            return Err(format!("word {w}: Rust 0x{rust:08x}, ours 0x{ours:08x}"));
        }
        if number != 0 && ours != before {
            return Err("both refused it and changed the map".into());
        }
        Ok(Answer { number, address })
    }

    /// Tells a difference from a map with as few free slices as still show it.
    fn smallest(before: &Words, call: Call) -> String {
        let try_on = |words: &Words| Both::holding(words).call(words, call).err();
        let mut words = *before;
        // From the end, since the lowest run decides.
        for w in (0..WORDS).rev() {
            let bits = (0..32).rev().map(|bit| !(1 << bit));
            for mask in [0].into_iter().chain(bits) {
                let kept = words[w];
                words[w] &= mask;
                if words[w] != kept && try_on(&words).is_none() {
                    words[w] = kept;
                }
            }
        }
        let difference = try_on(&words).unwrap_or_default();
        let free: Vec<String> = (0..WORDS)
            .filter(|w| words[*w] != 0)
            .map(|w| format!("{w}: 0x{:08x}", words[w]))
            .collect();
        let more = if free.len() > 8 { ", ..." } else { "" };
        let free = free[..free.len().min(8)].join(", ");
        format!("{call:?} on words {{{free}{more}}}: {difference}")
    }
}

/// Row 1: the original has no such case, the document has.
fn wrong_lengths(tally: &mut Tally, rng: &mut Rng) {
    let numbers = [0, 1, 65_535, 65_536, 65_537, 131_072, 1 << 32, u64::MAX];
    let claims = numbers.map(|slices| Call::Claim { slices });
    let frees = numbers.map(|base| numbers.map(|size| Call::Free { base, size }));
    for len in [0, 1, 31, 32, WORDS - 1, WORDS + 1, 2 * WORDS, 65_536] {
        let mut words: Vec<u32> = (0..len).map(|_| rng.bits() as u32).collect();
        let before = words.clone();
        for call in claims.into_iter().chain(frees.into_iter().flatten()) {
            let answer = match call {
                Call::Claim { slices } => alloc_run_in(&mut words, slices).map(|_| ()),
                Call::Free { base, size } => free_range_in(&mut words, base, size),
            };
            let number = answer.map_or_else(Refusal::number, |()| 0);
            let document = document::number(&before, call);
            let kept = words == before;
            tally.case(number == document && kept, || {
                let kept = if kept { "kept" } else { "changed" };
                format!("{call:?} on {len} words: document {document}, ours {number}, words {kept}")
            });
        }
    }
    tally.family("slice pool", "wrong lengths", "");
}

/// All boundaries as runs, all their pairs as ranges.
fn pool_boundaries(tally: &mut Tally, rng: &mut Rng) {
    let numbers = boundaries(64);
    // Slice 0 is free in the second: there alone a run of all 65,536 slices is granted.
    let maps = [
        EMPTY,
        [u32::MAX; WORDS],
        FULL,
        fragmented(rng, 50),
        patterns(rng),
    ];
    for before in maps {
        let claims = numbers.iter().map(|slices| Call::Claim { slices: *slices });
        let frees = numbers.iter().flat_map(|base| {
            let free = |size: &u64| Call::Free {
                base: *base,
                size: *size,
            };
            numbers.iter().map(free)
        });
        let mut both = Both::holding(&before);
        for call in claims.chain(frees) {
            let answer = both.call(&before, call);
            tally.case(answer.is_ok(), || Both::smallest(&before, call));
            if !answer.is_ok_and(|answer| answer.number != 0) {
                both = Both::holding(&before);
            }
        }
    }
    tally.family("slice pool", "boundaries", "");
}

/// Long random sequences from states of all kinds.
fn pool_sequences(tally: &mut Tally, rng: &mut Rng, sequences: u64, calls: u64) {
    let mut claims = [0; 17];
    let mut frees = [0; 17];
    for sequence in 0..sequences {
        let (name, mut words) = state(rng, sequence);
        let mut both = Both::holding(&words);
        let mut caller = Caller::default();
        for n in 0..calls {
            let call = caller.next_call(rng);
            let answer = both.call(&words, call);
            tally.case(answer.is_ok(), || {
                let smallest = Both::smallest(&words, call);
                format!("sequence {sequence} ({name}), call {n}: {smallest}")
            });
            let Ok(Answer { number, address }) = answer else {
                break; // the two pools have parted
            };
            match call {
                Call::Claim { .. } => claims[number as usize] += 1,
                Call::Free { .. } => frees[number as usize] += 1,
            }
            caller.told(call, address);
            words = *both.ours.words();
        }
    }
    let ends = format!(
        "  (claims {}; frees {})",
        by_number(&claims),
        by_number(&frees)
    );
    tally.family("slice pool", "sequences", &ends);
}

#[cfg(test)]
mod tests {
    use super::*;

    #[test]
    fn longest_run_is_that_of_a_plain_walk() {
        let mut rng = Rng::new(1);
        for n in 0..24 {
            let (name, words) = state(&mut rng, n);
            let mut run = 0;
            let mut longest = 0;
            for slice in 0..65_536 {
                let free = words[slice / 32] >> (slice % 32) & 1 == 1;
                run = if free { run + 1 } else { 0 };
                longest = longest.max(run);
            }
            assert_eq!(document::longest_run(&words), longest, "{name}");
        }
    }

    #[test]
    fn orders_of_document_01() {
        let number = |base, size| document::number(&EMPTY, Call::Free { base, size });
        assert_eq!(document::number(&[], Call::free(0, 0)), 1);
        assert_eq!((number(1, 0), number(0, 1), number(0, 65_536)), (4, 7, 8));
        assert_eq!((number(1 << 32, 65_536), number(65_536, 65_536)), (9, 0));
        let claim = |slices| document::number(&FULL, Call::Claim { slices });
        assert_eq!((claim(0), claim(65_535), claim(65_536)), (4, 0, 10));
    }
}
