//! Lists of releases as a table of cases, the numbers read off document 02 by hand: rows 1 and 2,
//! the three lengths around each other and around 32,768, which refusal comes first, and items of
//! each number. All that a list leaves is compared too.

use super::lists::{self, List};
use super::plain::Table;
use super::table::{example, questions, Cases, BASE, DAMAGES, SOUND};
use super::{Moment, CHUNK, PAGES, QUIET};
use sirqobal::lent::Arena;

/// Runs the whole table.
pub fn run() -> Cases {
    let mut cases = Cases::default();
    cases.broken_before_lengths();
    cases.questions_before_lengths();
    cases.three_lengths();
    cases.items_of_each_number();
    cases.sound_tables_listed();
    cases
}

/// So many addresses, counts and answers; the items are good ones, and go on behind them.
fn lent(lengths: [usize; 3]) -> List {
    let count = lengths.into_iter().max().unwrap_or(0) + 2;
    let items = (0..count as u64).map(|place| (BASE + place % 4 * CHUNK, 1));
    List {
        items: items.collect(),
        lengths,
        pending: true,
    }
}

/// Lengths that agree, and others.
const LENGTHS: [[usize; 3]; 6] = [
    [0, 0, 0],
    [1, 1, 1],
    [3, 3, 3],
    [3, 3, 2],
    [0, 1, 0],
    [32_769, 32_769, 32_769],
];

/// Items of two arenas of 4 chunks each, the first at the base, and their numbers.
const NUMBERED: [((u64, u32), u32); 19] = [
    ((BASE, 1), 0),
    ((BASE + 3 * CHUNK, 1), 0),
    ((BASE, 4), 0),
    ((BASE, 4), 0),
    ((BASE + 4 * CHUNK, 4), 0),
    ((BASE, 0), 4),
    ((5, 0), 4),
    ((BASE + 1, 0), 4),
    ((BASE - 1, 1), 8),
    ((BASE + 8 * CHUNK, 1), 8),
    ((BASE + 8 * CHUNK + 1, u32::MAX), 8),
    ((0, u32::MAX), 8),
    ((u64::MAX, 1), 8),
    ((BASE + 1, 1), 7),
    ((BASE + CHUNK - 1, u32::MAX), 7),
    ((BASE + 8 * CHUNK - 1, 9), 7),
    ((BASE, 5), 9),
    ((BASE + 3 * CHUNK, 2), 9),
    ((BASE + 7 * CHUNK, u32::MAX), 9),
];

impl Cases {
    /// A list that is to be granted (0) or refused with this number.
    fn list(&mut self, what: &str, table: &Table, moment: Moment, list: &List, number: u32) {
        self.cases += 1;
        let wrong = match lists::make_on_copy(lists::by_ours, table, moment, list) {
            Ok(said) if said.number() == number => return,
            Ok(said) => format!("model and ours {}", said.number()),
            Err(difference) => difference,
        };
        let lengths = list.lengths;
        self.wrong.push(format!(
            "list of {lengths:?}, {what}: document {number}, {wrong}"
        ));
    }

    /// 1 comes before 2 and 19.
    fn broken_before_lengths(&mut self) {
        let mut tables: Vec<(&str, Table)> = Vec::new();
        for (what, damage) in DAMAGES {
            let mut table = example();
            damage(&mut table);
            tables.push((what, table));
        }
        for records in [0, 31, 33] {
            let mut table = example();
            table.records.resize(records, Arena::EMPTY);
            tables.push(("records", table));
        }
        for stamps in [0, 32_767, 32_769] {
            let mut table = example();
            table.stamps.resize(stamps, 0);
            tables.push(("stamps", table));
        }
        for lengths in LENGTHS {
            for (what, table) in &tables {
                self.list(what, table, QUIET, &lent(lengths), 1);
            }
            for page in [0, 2_048, 4_095, 4_097, 12_288, 131_072] {
                let moment = Moment { page, ..QUIET };
                self.list("page", &example(), moment, &lent(lengths), 1);
                for (_, asks) in questions() {
                    self.list("page, question open", &asks, moment, &lent(lengths), 1);
                }
            }
        }
    }

    /// 2 comes before 19.
    fn questions_before_lengths(&mut self) {
        for lengths in LENGTHS {
            for (kind, asks) in questions() {
                let what = format!("question {kind} open");
                self.list(&what, &asks, QUIET, &lent(lengths), 2);
            }
        }
    }

    fn three_lengths(&mut self) {
        let all = [0, 1, 2, 3, 32_767, 32_768, 32_769];
        for addresses in all {
            for counts in all {
                for answers in all {
                    let lengths = [addresses, counts, answers];
                    let fits = lengths == [addresses; 3] && addresses <= 32_768;
                    let number = if fits { 0 } else { 19 };
                    self.list("lengths", &example(), QUIET, &lent(lengths), number);
                }
            }
        }
    }

    /// Items of two arenas beside each other, of which a run of one never reaches into the other.
    fn items_of_each_number(&mut self) {
        let mut table = example();
        table.records[1] = Arena {
            base: BASE + 4 * CHUNK,
            ..table.records[0]
        };
        for arena in &mut table.records[..2] {
            (arena.used[0], arena.committed[0], arena.pending[0]) = (0b1011, 0b0110, 0b0011);
        }
        table.state.count = 2;
        for turn in 0..NUMBERED.len() {
            let mut turned = NUMBERED;
            turned.rotate_left(turn);
            for (pending, delay) in [(false, 5), (true, 5), (true, 0), (true, -1)] {
                let list = List {
                    items: turned.map(|(item, _)| item).to_vec(),
                    lengths: [turned.len(); 3],
                    pending,
                };
                self.list("items", &table, Moment { delay, ..QUIET }, &list, 0);
                let numbers = turned.map(|(_, number)| number).to_vec();
                if lists::said(&table, QUIET.page, &list) != lists::Said::Answered(numbers) {
                    self.wrong.push(format!("list, the model: {list:?}"));
                }
            }
        }
    }

    fn sound_tables_listed(&mut self) {
        for (what, change) in SOUND {
            let mut table = example();
            change(&mut table);
            let number = if table.state.question == 0 { 0 } else { 2 };
            self.list(what, &table, QUIET, &lent([6; 3]), number);
        }
        for page in PAGES {
            let moment = Moment { page, ..QUIET };
            self.list("page", &example(), moment, &lent([6; 3]), 0);
        }
    }
}
