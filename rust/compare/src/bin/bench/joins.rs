//! The rows of joins, by the arenas that move. The reference moves and clears by `memcpy` and `memset`.

use crate::layer::table;
use crate::{Case, Side};
use compare_common::layer::plain::Table;
use compare_common::layer::{reference, Moment, CHUNK, QUIET};
use compare_common::rng::Rng;
use sirqobal::lent::JoinReply;
use std::hint::black_box;
use std::time::{Duration, Instant};

struct Row {
    name: &'static str,
    first: Table,
    second: Table,
}

/// Joins two tables.
type Make = fn(&mut Table, &mut Table, Moment) -> JoinReply;

const OURS: Make = Table::join;
const C: Make = reference::join;

impl Row {
    fn made(&self, make: Make) -> (JoinReply, Table, Table) {
        let (mut first, mut second) = (self.first.clone(), self.second.clone());
        (make(&mut first, &mut second, QUIET), first, second)
    }
}

impl Case for Row {
    fn name(&self) -> String {
        self.name.into()
    }

    fn detail(&self) -> [String; 2] {
        let (reply, ..) = self.made(OURS);
        let answer = match reply.number {
            0 => format!("rise {}", reply.rise),
            number => format!("refused {number}"),
        };
        [self.second.state.count.to_string(), answer]
    }

    fn check(&self) {
        assert!(self.made(OURS) == self.made(C), "{}", self.name);
    }

    /// A join leaves other tables than it was lent: they are set back before each, untimed.
    fn run(&self, side: Side, times: usize) -> (Duration, usize) {
        let make = match side {
            Side::Ours => OURS,
            Side::C => C,
            Side::Rust | Side::Each => unreachable!("nobody else has a join"),
        };
        let (mut first, mut second) = (self.first.clone(), self.second.clone());
        let mut spent = Duration::ZERO;
        for _ in 0..times {
            set(&mut first, &self.first);
            set(&mut second, &self.second);
            let (first, second) = (black_box(&mut first), black_box(&mut second));
            let start = Instant::now();
            black_box(make(first, second, QUIET));
            spent += start.elapsed();
        }
        (spent, times)
    }
}

/// In place, so that every join has the same memory.
fn set(table: &mut Table, to: &Table) {
    table.records.copy_from_slice(&to.records);
    table.stamps.copy_from_slice(&to.stamps);
    table.state = to.state;
}

/// So many arenas of 1,024 chunks, in ascending order, the first at this chunk; half of them used.
fn arenas(count: usize, start: u64) -> Table {
    let mut table = Table::of(&table(count, 1_024, |_, chunk| chunk % 2 == 0));
    for (id, arena) in (0..).zip(&mut table.records[..count]) {
        arena.base = CHUNK * (start + id * 2_048);
        arena.deadline = 5;
    }
    table.stamps.fill(5);
    table
}

pub fn cases(_: &mut Rng) -> Vec<Box<dyn Case>> {
    let (low, high, between) = (1 << 20, 1 << 30, (1 << 20) + 1_024);
    let mut rows = Vec::new();
    let mut row = |name, first: Table, second: Table| {
        let row = Row {
            name,
            first,
            second,
        };
        rows.push(Box::new(row) as Box<dyn Case>);
    };
    for moved in [0, 1, 4, 16, 31] {
        row("join, a first of 1", arenas(1, low), arenas(moved, high));
    }
    row("join, a first of 16", arenas(16, low), arenas(16, high));
    row(
        "join, a first of 16, neighbours by turns",
        arenas(16, low),
        arenas(16, between),
    );
    let mut meets = arenas(16, high);
    meets.records[15].base = arenas(16, low).records[15].base;
    row(
        "join, a first of 16, the last overlap",
        arenas(16, low),
        meets,
    );
    row(
        "join, a first of 16, 33 result",
        arenas(16, low),
        arenas(17, high),
    );
    rows
}
