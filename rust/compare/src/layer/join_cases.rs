//! Joins as a table of cases, the numbers read off document 02 by hand: each of row 1 and 2 on either
//! side, ranges that meet and do not, counts around 32, marks, and which refusal comes first. All
//! that a join leaves is compared too.

use super::joined;
use super::plain::Table;
use super::table::{example, questions, Cases, BASE, DAMAGES, SOUND};
use super::{Moment, CHUNK, PAGES, QUIET};
use sirqobal::lent::Arena;

/// Runs the whole table.
pub fn run() -> Cases {
    let mut cases = Cases::default();
    cases.lengths_of_either();
    cases.unsound_pages();
    cases.broken_tables();
    cases.open_questions();
    cases.sound_tables();
    cases.meeting_ranges();
    cases.counts();
    cases.marks();
    cases
}

/// Arenas of these first chunks and numbers of chunks, with something in every map, deadline and stamp.
fn arenas(ranges: &[(u64, usize)]) -> Table {
    let mut table = Table::empty();
    for (id, (start, chunks)) in ranges.iter().enumerate() {
        let number = *start as u32;
        let mut record = Arena {
            base: start * CHUNK,
            chunks: *chunks,
            exclusive: number % 3,
            owned: number % 2,
            node: -3 - number as i32,
            deadline: number,
            ..Arena::EMPTY
        };
        (record.used[0], record.dirty[0]) = (1, number % 2);
        (record.committed[0], record.pending[0]) = (1 - number % 2, number / 2 % 2);
        table.records[id] = record;
        let stamps = &mut table.stamps[1_024 * id..][..1_024];
        (0..)
            .zip(stamps)
            .for_each(|(chunk, stamp)| *stamp = number + chunk);
    }
    table.state.count = ranges.len();
    table
}

/// So many arenas of one chunk, from this chunk on, with a free one between any two.
fn many(count: usize, start: u64) -> Table {
    let ranges: Vec<(u64, usize)> = (0..count).map(|n| (start + 2 * n as u64, 1)).collect();
    arenas(&ranges)
}

/// The example's arena far away from the example.
fn away() -> Table {
    let mut table = example();
    table.records[0].base = 4_096 * BASE;
    table
}

impl Cases {
    /// A join that is to be granted (0) or refused with this number.
    fn join(&mut self, what: &str, first: &Table, second: &Table, moment: Moment, number: u32) {
        self.cases += 1;
        let wrong = match joined::make(first, second, moment) {
            Ok(said) if said.number() == number => return,
            Ok(said) => format!("model and ours {}", said.number()),
            Err(difference) => difference,
        };
        self.wrong
            .push(format!("join, {what}: document {number}, {wrong}"));
    }

    /// The same both ways round.
    fn either(&mut self, what: &str, one: &Table, other: &Table, number: u32) {
        self.join(what, one, other, QUIET, number);
        self.join(what, other, one, QUIET, number);
    }

    fn lengths_of_either(&mut self) {
        for records in [0, 1, 31, 33, 64] {
            let mut table = example();
            table.records.resize(records, Arena::EMPTY);
            self.beside_all("records", &table);
        }
        for stamps in [0, 1, 1_024, 32_767, 32_769, 65_536] {
            let mut table = example();
            table.stamps.resize(stamps, 0);
            self.beside_all("stamps", &table);
        }
    }

    /// A broken table beside a sound one, one of the same range, one that asks, an empty and a broken
    /// one: 1 comes before 2 and 17.
    fn beside_all(&mut self, what: &str, broken: &Table) {
        for other in [away(), example(), Table::empty(), broken.clone()] {
            self.either(what, broken, &other, 1);
        }
        for (_, asks) in questions() {
            self.either(what, broken, &asks, 1);
        }
    }

    fn unsound_pages(&mut self) {
        let bad = [0, 1, 2_048, 4_095, 4_097, 12_288, 65_535, 131_072, 1 << 63];
        for page in bad {
            let moment = Moment { page, ..QUIET };
            for (_, asks) in questions() {
                self.join("page", &asks, &away(), moment, 1);
                self.join("page", &away(), &asks, moment, 1);
            }
            self.join("page", &Table::empty(), &Table::empty(), moment, 1);
        }
        for page in PAGES {
            self.join("page", &example(), &away(), Moment { page, ..QUIET }, 0);
        }
    }

    fn broken_tables(&mut self) {
        for (what, damage) in DAMAGES {
            let mut table = example();
            damage(&mut table);
            self.beside_all(what, &table);
        }
    }

    /// 2 comes before 17 (the examples have one range) and 18.
    fn open_questions(&mut self) {
        for (kind, asks) in questions() {
            let what = format!("question {kind} open");
            for other in [away(), example(), Table::empty(), many(32, 5_000)] {
                self.either(&what, &asks, &other, 2);
            }
            for (_, other) in questions() {
                self.either(&what, &asks, &other, 2);
            }
        }
    }

    fn sound_tables(&mut self) {
        for (what, change) in SOUND {
            let mut table = example();
            change(&mut table);
            let number = if table.state.question == 0 { 0 } else { 2 };
            self.either(what, &table, &away(), number);
            self.either(what, &table, &Table::empty(), number);
        }
    }

    /// Ranges beside the one of chunks 100 to 103, alone and as the last of several.
    fn meeting_ranges(&mut self) {
        let ranges = [
            ((96, 4), 0),
            ((104, 1), 0),
            ((99, 1), 0),
            ((104, 1_024), 0),
            ((96, 5), 17),
            ((103, 1), 17),
            ((103, 9), 17),
            ((100, 4), 17),
            ((100, 1), 17),
            ((101, 2), 17),
            ((99, 6), 17),
            ((50, 1_024), 17),
        ];
        for (range, number) in ranges {
            let what = format!("{range:?} beside (100, 4)");
            self.either(&what, &arenas(&[(100, 4)]), &arenas(&[range]), number);
            let one = arenas(&[(5, 1), (2_000, 3), (100, 4)]);
            let other = arenas(&[(3_000, 1), (7, 1), (1_990, 10), range]);
            self.either(&what, &one, &other, number);
        }
        // By turns, neighbours of each other: no address is in both.
        let even: Vec<(u64, usize)> = (0..16).map(|n| (10 + 4 * n, 2)).collect();
        let odd: Vec<(u64, usize)> = (0..16).map(|n| (12 + 4 * n, 2)).collect();
        self.either("by turns", &arenas(&even), &arenas(&odd), 0);
    }

    /// 17 comes before 18.
    fn counts(&mut self) {
        let granted = [(0, 0), (0, 32), (1, 31), (16, 16), (31, 1)];
        let refused = [(1, 32), (16, 17), (31, 2), (32, 32)];
        let both = granted.map(|counts| (counts, 0));
        for ((first, second), number) in both.into_iter().chain(refused.map(|counts| (counts, 18)))
        {
            let what = format!("{first} and {second} arenas");
            let (one, mut other) = (many(first, 1_000), many(second, 2_000));
            self.either(&what, &one, &other, number);
            if first * second != 0 {
                other.records[second - 1].base = one.records[first - 1].base;
                self.either(&what, &one, &other, 17);
            }
        }
    }

    /// Also where a side is empty, and with something past the arenas of both.
    fn marks(&mut self) {
        for marks in [(0, 0), (0, 1), (1, 0), (1, 1)] {
            for (first, second) in [(0, 0), (0, 2), (2, 0), (2, 3)] {
                let (mut one, mut other) = (many(first, 1_000), many(second, 2_000));
                (one.state.mark, other.state.mark) = marks;
                let what = format!("marks {marks:?}, {first} and {second} arenas");
                self.join(&what, &one, &other, QUIET, 0);
                for table in [&mut one, &mut other] {
                    let count = table.state.count;
                    table.records[count..].fill(many(1, 77).records[0]);
                    table.stamps[1_024 * count..].fill(78);
                }
                self.join(&what, &one, &other, QUIET, 0);
            }
        }
    }
}
