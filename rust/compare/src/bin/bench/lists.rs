//! The rows of lists of releases, by their items, beside as many single releases of ours and of the
//! original. A release of a chunk that is not held costs as much as of one that is, so a list is
//! made again and again on the same table: no claim comes between, and nothing is set back.

use crate::layer::{base, table};
use crate::{Case, Side};
use compare_common::layer::lists::{by_ours, List, MakeList, UNWRITTEN};
use compare_common::layer::pair::Pair;
use compare_common::layer::plain::Table;
use compare_common::layer::{reference, Moment, CHUNK, QUIET};
use compare_common::rng::Rng;
use oracle::layer as rust;
use sirqobal::lent::{Items, Reply};
use sirqobal::Layer;
use std::hint::black_box;
use std::ptr;
use std::time::{Duration, Instant};

struct Row {
    name: String,
    list: List,
    table: Layer,
}

/// Its pending chunks are due ten milliseconds later.
const MOMENT: Moment = Moment { delay: 10, ..QUIET };

impl Case for Row {
    fn name(&self) -> String {
        self.name.clone()
    }

    fn detail(&self) -> [String; 2] {
        let mut lent = Lent::holding(self);
        let reply = lent.list(by_ours);
        let refused = lent.answers.iter().filter(|number| **number != 0).count();
        let answer = match (reply.number, refused) {
            (0, 0) => "all granted".into(),
            (0, _) => format!("{refused} refused"),
            (number, _) => format!("refused {number}"),
        };
        [self.items().to_string(), answer]
    }

    fn parts(&self) -> Option<(&'static str, usize)> {
        (self.items() > 1).then_some(("the same, for each item", self.items()))
    }

    /// Ours and the original's single releases, and ours and the reference, and our single
    /// releases: answers and all state compared.
    fn check(&self) {
        let listed = Pair::holding(&self.table).list(MOMENT, &self.list);
        listed.expect(&self.name);
        let [mut ours, mut c, mut singles] = [(); 3].map(|()| Lent::holding(self));
        let reply = ours.list(by_ours);
        assert_eq!(reply, c.list(reference::list), "{}", self.name);
        singles.release_each();
        assert!(
            ours.answers == c.answers && ours.table == c.table,
            "{}",
            self.name
        );
        assert!(
            ours.answers == singles.answers && ours.table == singles.table,
            "{}",
            self.name
        );
    }

    fn run(&self, side: Side, times: usize) -> (Duration, usize) {
        let spent = match side {
            Side::Ours => self.time_list(by_ours, times),
            Side::C => self.time_list(reference::list, times),
            Side::Each => {
                let mut lent = Lent::holding(self);
                time(times, || lent.release_each())
            }
            Side::Rust => {
                drop(Pair::holding(&self.table));
                let delay = MOMENT.delay;
                let script = rust::Script {
                    delay,
                    ..rust::Script::NONE
                };
                rust::carry(script, 4_096);
                time(times, || self.rust())
            }
        };
        (spent, times)
    }
}

fn time(times: usize, mut operation: impl FnMut()) -> Duration {
    let start = Instant::now();
    for _ in 0..times {
        operation();
    }
    start.elapsed()
}

impl Row {
    fn items(&self) -> usize {
        self.list.items.len()
    }

    fn time_list(&self, make: MakeList, times: usize) -> Duration {
        let mut lent = Lent::holding(self);
        time(times, || {
            black_box(lent.list(make));
        })
    }

    /// The original's single releases.
    fn rust(&self) {
        let pending = black_box(self.list.pending);
        for (address, count) in &self.list.items {
            let at = ptr::without_provenance_mut(black_box(*address) as usize);
            let n = black_box(*count as usize);
            black_box(oracle::arena::chunk_release(at, n, None, pending));
        }
    }
}

/// A table and lists as a C program keeps them.
struct Lent<'a> {
    row: &'a Row,
    table: Table,
    addresses: Vec<u64>,
    counts: Vec<u32>,
    answers: Vec<u32>,
}

impl Lent<'_> {
    fn holding(row: &Row) -> Lent<'_> {
        let (addresses, counts) = row.list.items.iter().copied().unzip();
        Lent {
            row,
            table: Table::of(&row.table),
            addresses,
            counts,
            answers: vec![UNWRITTEN; row.items()],
        }
    }

    fn list(&mut self, make: MakeList) -> Reply {
        let items = Items {
            addresses: black_box(&self.addresses),
            counts: black_box(&self.counts),
            answers: black_box(&mut self.answers),
        };
        let reply = make(self.table.lend(), items, MOMENT, self.row.list.pending);
        self.table.state = reply.state;
        reply
    }

    /// As many single releases of ours, each answered at its place.
    fn release_each(&mut self) {
        for place in 0..self.addresses.len() {
            let item = (self.addresses[place], self.counts[place]);
            let call = self.row.list.release(black_box(item));
            let reply = self.table.call(MOMENT, call);
            self.table.state = reply.state;
            self.answers[place] = reply.number;
        }
    }
}

/// So many items of one chunk each, one in each arena and then in the next chunk of each.
fn spread(items: usize, arenas: usize, pending: bool) -> List {
    let item = |place: usize| {
        let chunk = (place / arenas % 1_024) as u64;
        (base(place % arenas) + chunk * CHUNK, 1)
    };
    List {
        items: (0..items).map(item).collect(),
        lengths: [items; 3],
        pending,
    }
}

pub fn cases(_: &mut Rng) -> Vec<Box<dyn Case>> {
    let mut rows: Vec<Box<dyn Case>> = Vec::new();
    for pending in [false, true] {
        for arenas in [1, 32] {
            for items in [1, 32, 512, 32_768] {
                let place = if arenas == 1 { "1 arena" } else { "32 arenas" };
                let how = if pending { ", pending" } else { "" };
                rows.push(Box::new(Row {
                    name: format!("list, {place}{how}"),
                    list: spread(items, arenas, pending),
                    table: table(arenas, 1_024, |_, _| true),
                }));
            }
        }
    }
    rows
}
