//! The slice pool's rows.

use crate::{Case, Side};
use compare_common::pool::{
    fragmented, mark, stretches, Call, Caller, Words, CHECKERBOARD, EMPTY, FULL,
};
use compare_common::rng::Rng;
use sirqobal::{SlicePool, SLICES, SLICE_SIZE};
use std::hint::black_box;
use std::time::{Duration, Instant};

struct Row {
    name: String,
    /// Slices in a run or range; none if they differ.
    slices: Option<u64>,
    start: Words,
    work: Work,
}

enum Work {
    /// An operation: claim a run and, if granted, free it, which leaves the map as it was.
    ClaimAndFree(u64),
    /// An operation: one of these calls. The map is set back, untimed, before they start again.
    Calls(Vec<Call>),
}

/// One of the two pools.
trait Pool {
    fn set(&mut self, words: &Words);
    fn words(&self) -> Words;
    fn claim(&mut self, slices: u64) -> Option<u64>;
    fn free(&mut self, base: u64, size: u64) -> bool;

    fn call(&mut self, call: Call) -> Option<u64> {
        match call {
            Call::Claim { slices } => self.claim(slices),
            Call::Free { base, size } => self.free(base, size).then_some(0),
        }
    }
}

struct Rust;

impl Pool for Rust {
    fn set(&mut self, words: &Words) {
        oracle::set_pool_words(words);
    }

    fn words(&self) -> Words {
        oracle::pool_words()
    }

    fn claim(&mut self, slices: u64) -> Option<u64> {
        oracle::alloc_run(slices as usize).map(|address| address as u64)
    }

    fn free(&mut self, base: u64, size: u64) -> bool {
        oracle::free_range(base as usize, size as usize)
    }
}

impl Pool for SlicePool {
    fn set(&mut self, words: &Words) {
        self.set_words(words);
    }

    fn words(&self) -> Words {
        *SlicePool::words(self)
    }

    fn claim(&mut self, slices: u64) -> Option<u64> {
        self.alloc_run(slices).ok()
    }

    fn free(&mut self, base: u64, size: u64) -> bool {
        self.free_range(base, size).is_ok()
    }
}

impl Case for Row {
    fn name(&self) -> String {
        self.name.clone()
    }

    fn detail(&self) -> [String; 2] {
        let slices = self.slices.map_or("any".into(), |n| n.to_string());
        [slices, self.answers(&mut Rust).swap_remove(0)]
    }

    fn check(&self) {
        let mut pool = SlicePool::new();
        let alike =
            self.answers(&mut Rust) == self.answers(&mut pool) && Rust.words() == *pool.words();
        assert!(alike, "{}: the sides differ", self.name);
    }

    fn run(&self, side: Side, times: usize) -> (Duration, usize) {
        match side {
            Side::Ours => self.run_on(&mut SlicePool::new(), times),
            Side::Rust => self.run_on(&mut Rust, times),
            Side::C | Side::Each => unreachable!("the reference has no slice pool"),
        }
    }
}

impl Row {
    /// What the calls answer, in words: nobody is timed at wrong work.
    fn answers(&self, side: &mut impl Pool) -> Vec<String> {
        side.set(&self.start);
        let text = |call, answer| match (call, answer) {
            (Call::Claim { .. }, Some(address)) => format!("slice {}", address / SLICE_SIZE),
            (Call::Free { .. }, Some(_)) => "freed".into(),
            (_, None) => "refused".to_string(),
        };
        match &self.work {
            Work::ClaimAndFree(slices) => {
                let claim = side.claim(*slices);
                if let Some(address) = claim {
                    side.free(address, slices * SLICE_SIZE);
                }
                assert!(side.words() == self.start, "{}: not restored", self.name);
                vec![text(Call::Claim { slices: *slices }, claim)]
            }
            Work::Calls(calls) => calls.iter().map(|c| text(*c, side.call(*c))).collect(),
        }
    }

    fn run_on(&self, side: &mut impl Pool, times: usize) -> (Duration, usize) {
        side.set(&self.start);
        match &self.work {
            Work::ClaimAndFree(slices) => (claim_and_free(side, *slices, times), times),
            Work::Calls(calls) => {
                let passes = times.div_ceil(calls.len());
                let mut spent = Duration::ZERO;
                for _ in 0..passes {
                    side.set(&self.start);
                    spent += make_calls(side, calls);
                }
                (spent, passes * calls.len())
            }
        }
    }
}

fn claim_and_free(side: &mut impl Pool, slices: u64, times: usize) -> Duration {
    let start = Instant::now();
    for _ in 0..times {
        if let Some(address) = side.claim(black_box(slices)) {
            black_box(side.free(black_box(address), slices * SLICE_SIZE));
        }
    }
    start.elapsed()
}

fn make_calls(side: &mut impl Pool, calls: &[Call]) -> Duration {
    let start = Instant::now();
    for call in calls {
        black_box(side.call(black_box(*call)));
    }
    start.elapsed()
}

pub fn cases(rng: &mut Rng) -> Vec<Box<dyn Case>> {
    let mut cases = Vec::new();
    let mut pairs = |name: &str, start: &Words, runs: &[u64]| {
        cases.extend(runs.iter().map(|n| Row {
            name: name.into(),
            slices: Some(*n),
            start: *start,
            work: Work::ClaimAndFree(*n),
        }));
    };

    pairs("nothing free: claim", &EMPTY, &[1, 8]);
    pairs(
        "all free: claim and free",
        &FULL,
        &[1, 8, 64, 512, 4_096, 32_768],
    );

    let mut end = EMPTY;
    mark(&mut end, 65_500, 16, true);
    pairs("65,500 .. 65,515 free: claim and free", &end, &[1, 8]);

    let densities = [25, 50, 75].map(|percent| (percent, fragmented(rng, percent)));
    for (percent, map) in &densities {
        pairs(
            &format!("{percent} % free: claim and free"),
            map,
            &[1, 2, 4, 8, 16],
        );
    }

    // The only run of 8 starts at slice 60,000.
    let mut checkerboard = CHECKERBOARD;
    mark(&mut checkerboard, 60_000, 8, true);
    mark(&mut checkerboard, 60_008, 1, false);
    pairs("checkerboard: claim and free", &checkerboard, &[8, 9]);

    // A stretch in every word that just does not do, and one run that does, across words.
    for (free, n) in [(30, 31), (31, 32), (31, 33)] {
        let mut map = [u32::MAX >> (32 - free); 2_048];
        mark(&mut map, 0, 1, false);
        mark(&mut map, 60_010, 80, false);
        mark(&mut map, 60_020, n as usize, true);
        pairs(
            &format!("{free} free in each word: claim and free"),
            &map,
            &[n],
        );
    }

    for (percent, map) in &densities {
        cases.extend([1, 2, 4].map(|slices| Row {
            name: format!("{percent} % free: 200 claims in a row"),
            slices: Some(slices),
            start: *map,
            work: Work::Calls(vec![Call::Claim { slices }; 200]),
        }));
    }
    cases.extend([1, 64, 4_096, 65_535].map(|n| {
        let starts = (1..SLICES as u64 - n + 1).step_by(n as usize);
        Row {
            name: "nothing free: free all, range by range".into(),
            slices: Some(n),
            start: EMPTY,
            work: Work::Calls(starts.map(|start| Call::free(start, n)).collect()),
        }
    }));
    let start = stretches(rng, 300);
    cases.push(Row {
        name: "stretches to 300: 2,000 random calls".into(),
        slices: None,
        start,
        work: Work::Calls(mixed(rng, &start)),
    });
    let boxed = cases
        .into_iter()
        .map(|case| Box::new(case) as Box<dyn Case>);
    boxed.collect()
}

/// A random sequence from this map, the frees among it chosen by the original's grants.
fn mixed(rng: &mut Rng, start: &Words) -> Vec<Call> {
    Rust.set(start);
    let mut caller = Caller::default();
    let mut calls = Vec::new();
    for _ in 0..2_000 {
        let call = caller.next_call(rng);
        caller.told(call, Rust.call(call));
        calls.push(call);
    }
    calls
}
