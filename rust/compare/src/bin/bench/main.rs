//! Times the sides in one run: the same calls from the same states, ours through the C ABI as users
//! call it, the original called directly, and for the layer the reference in plain C, called as ours
//! is. A number is the smallest of the means of several rounds; the rounds of the sides take turns.
//!
//! `--table T` prints only the slice pool's table (1), the layer's (2), the joins' (3), that of sweeps
//! with a negative delay (4), or that of lists of releases (5); the original has none of the last
//! three, but beside a list are as many single releases. With `--row R --side S --times N` it makes
//! only the operations of one row, N times, on the side of that column, and times nothing: for
//! counting instructions (rust/callgrind.sh).

mod joins;
mod layer;
mod lists;
mod pool;

use compare_common::rng::Rng;
use compare_common::{args, SEED};
use std::fs;
use std::time::Duration;

/// Many and short, so that some are not disturbed by what else the machine does.
const ROUNDS: usize = 75;

/// The least time that a round takes, so that reading the clock does not count.
const ROUND: Duration = Duration::from_micros(400);

#[derive(Clone, Copy, PartialEq, Eq)]
pub enum Side {
    Ours,
    /// Each by a single call of ours, where ours is one call for all.
    Each,
    Rust,
    /// The reference in plain C.
    C,
}

impl Side {
    fn name(self) -> &'static str {
        match self {
            Side::Ours => "ours",
            Side::Each => "each",
            Side::Rust => "Rust",
            Side::C => "C",
        }
    }
}

/// A row of the table.
pub trait Case {
    fn name(&self) -> String;
    /// Slices, chunks or arenas of an operation, and its first answer.
    fn detail(&self) -> [String; 2];
    /// What one operation is made of, and of how many: a line of its own has the time of each.
    fn parts(&self) -> Option<(&'static str, usize)> {
        None
    }
    /// Panics if the sides give other answers or leave other states: nobody is timed at wrong work.
    fn check(&self);
    /// Sets the state, untimed, and makes at least so many operations. The time and their number.
    fn run(&self, side: Side, times: usize) -> (Duration, usize);
}

struct Table {
    title: &'static str,
    /// Ours first: the others are what it is compared with.
    sides: &'static [Side],
    /// The rows, made from a seed.
    cases: fn(&mut Rng) -> Vec<Box<dyn Case>>,
}

const TABLES: [Table; 5] = [
    Table {
        title: "Slice pool",
        sides: &[Side::Ours, Side::Rust],
        cases: pool::cases,
    },
    Table {
        title: "Arena layer",
        sides: &[Side::Ours, Side::Rust, Side::C],
        cases: layer::cases,
    },
    Table {
        title: "Joins",
        sides: &[Side::Ours, Side::C],
        cases: joins::cases,
    },
    Table {
        title: "Sweeps with a negative delay",
        sides: &[Side::Ours, Side::C],
        cases: layer::never_cases,
    },
    Table {
        title: "Lists of releases; each: by as many single releases of ours",
        sides: &[Side::Ours, Side::Each, Side::Rust, Side::C],
        cases: lists::cases,
    },
];

fn main() {
    let [seed, table, row, side, times] = args::read(
        ["--seed", "--table", "--row", "--side", "--times"],
        [SEED, 0, 0, 0, 0],
    );
    if row != 0 {
        let named = TABLES.get((table as usize).wrapping_sub(1));
        return one(named.unwrap_or(&TABLES[1]), seed, row, side, times);
    }
    println!("{}, seed {seed}", cpu_model());
    for (number, shown) in (1..).zip(&TABLES) {
        if table == 0 || table == number {
            println!("\n{}\n", shown.title);
            head(shown.sides);
            for case in (shown.cases)(&mut Rng::new(seed)) {
                case.check();
                time(case.as_ref(), shown.sides);
            }
        }
    }
}

/// The operations of one row on one side, untimed; nothing if there is no such row or side.
fn one(table: &Table, seed: u64, row: u64, side: u64, times: u64) {
    let cases = (table.cases)(&mut Rng::new(seed));
    let case = cases.get(row as usize - 1);
    let side = table.sides.get((side as usize).wrapping_sub(1));
    if let (Some(case), Some(side)) = (case, side) {
        let (_, operations) = case.run(*side, times as usize);
        let [n, _] = case.detail();
        println!("{operations}|{}|{n}", case.name());
    }
}

fn time(case: &dyn Case, sides: &[Side]) {
    let times: Vec<usize> = sides.iter().map(|side| enough(case, *side)).collect();
    let mut best = vec![f64::MAX; sides.len()];
    for _ in 0..ROUNDS {
        for (best, (side, times)) in best.iter_mut().zip(sides.iter().zip(&times)) {
            let (spent, operations) = case.run(*side, *times);
            *best = best.min(spent.as_nanos() as f64 / operations as f64);
        }
    }
    let [n, answer] = case.detail();
    print_times(&case.name(), &n, &answer, &best);
    if let Some((name, parts)) = case.parts() {
        let each: Vec<f64> = best.iter().map(|time| time / parts as f64).collect();
        print_times(name, &n, "", &each);
    }
}

/// The times of the sides, then ours over each other one.
fn print_times(name: &str, n: &str, answer: &str, times: &[f64]) {
    let ratios = times[1..].iter().map(|other| times[0] / other);
    let numbers = times.iter().copied().chain(ratios);
    print(
        name,
        n,
        answer,
        numbers.map(|number| format!("{number:.2}")),
    );
}

/// So many operations that they take a round.
fn enough(case: &dyn Case, side: Side) -> usize {
    let mut times = 1;
    loop {
        let (spent, operations) = case.run(side, times);
        if spent >= ROUND {
            return operations;
        }
        times = operations * 2;
    }
}

/// The names of the columns: a time for each side, then ours over each other one.
fn head(sides: &[Side]) {
    let times = sides.iter().map(|side| format!("{} ns/op", side.name()));
    let ratios = sides[1..]
        .iter()
        .map(|side| format!("ours/{}", side.name()));
    print("case", "n", "first answer", times.chain(ratios));
    let numbers = vec![12; 2 * sides.len() - 1];
    let lines = [43, 8, 15].into_iter().chain(numbers).zip(0..);
    let line = |(width, column)| match column {
        0 => "-".repeat(width),
        _ => "-".repeat(width - 1) + ":",
    };
    println!("|{}|", lines.map(line).collect::<Vec<_>>().join("|"));
}

fn print(name: &str, n: &str, answer: &str, numbers: impl Iterator<Item = String>) {
    let numbers: String = numbers.map(|number| format!(" {number:>10} |")).collect();
    println!("| {name:<41} | {n:>6} | {answer:>13} |{numbers}");
}

fn cpu_model() -> String {
    let info = fs::read_to_string("/proc/cpuinfo").unwrap_or_default();
    let model = info.lines().find(|line| line.starts_with("model name"));
    let name = model.and_then(|line| line.split_once(':'));
    name.map_or("unknown CPU".into(), |(_, name)| name.trim().into())
}
