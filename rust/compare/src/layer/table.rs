//! Document 01's own example of each refusal, and refusals 1, 2, 3 and 6, which the original does not
//! have, as a table of cases with the document's numbers; and a record's flags, which the original
//! has as bits. A refusal changes no byte of what is lent.

use super::plain::Table;
use super::{Moment, CHUNK, QUIET};
use sirqobal::lent::{self, Arena, Call, Reply, State, RECORDS};

pub(super) const BASE: u64 = 1_073_741_824;

/// Document 01's example: arena 0, owned, not exclusive, 4 chunks, all free, uncommitted.
pub(super) fn example() -> Table {
    let mut table = Table::empty();
    table.records[0] = Arena {
        base: BASE,
        chunks: 4,
        owned: 1,
        node: -1,
        ..Arena::EMPTY
    };
    table.state.count = 1;
    table
}

/// Counts cases, and tells those that are answered otherwise than by the document.
#[derive(Default)]
pub struct Cases {
    pub cases: u64,
    pub wrong: Vec<String>,
}

/// Runs the whole table.
pub fn run() -> Cases {
    let mut cases = Cases::default();
    cases.examples();
    cases.example_answers();
    cases.lengths();
    cases.pages();
    cases.broken();
    cases.sound();
    cases.open();
    cases.kinds();
    cases.ranges();
    cases.bases();
    cases.flags();
    cases.never();
    cases
}

impl Cases {
    /// A call that is to be refused with this number and leaves all bytes; or answered (0), or
    /// that asks (255).
    fn case(&mut self, what: &str, table: &Table, moment: Moment, call: Call, number: u32) {
        self.cases += 1;
        let mut after = table.clone();
        let reply = after.call(moment, call);
        after.state = reply.state;
        let refusal = Reply {
            number,
            state: table.state,
            ..Reply::default()
        };
        let right = match number {
            0 | lent::QUESTION => reply.number == number,
            _ => reply == refusal && after == *table,
        };
        if !right {
            self.wrong.push(format!(
                "{what}: {call:?}: document {number}, ours {reply:?}"
            ));
        }
    }

    /// The column "Example" of the table "Turned down", but for rows that need more than one call.
    fn examples(&mut self) {
        let (moment, rows) = example_rows();
        let adopt = |block: u64| Call::AdoptOsBlock {
            address: block * BASE,
            size: CHUNK,
        };
        let claim = Call::ChunkAlloc { id: 0 };
        for (number, call) in rows {
            self.case("example", &example(), moment, call, number);
        }
        let mut short = example();
        short.stamps.truncate(32_767);
        self.case("example", &short, QUIET, claim, 1);
        for (_, purging) in questions().into_iter().filter(|(kind, _)| *kind == 2) {
            self.case("example", &purging, QUIET, claim, 2);
        }
        let mut full = example();
        for block in 2..=32 {
            full.state = full.call(QUIET, adopt(block)).state;
        }
        self.case("example", &full, QUIET, adopt(33), 13);
    }

    /// Rows 11 and 14: a call, then no. The table is then as it was before the call.
    fn example_answers(&mut self) {
        let reserve = Call::ReserveOsMemory {
            size: CHUNK,
            commit: false,
            allow_large: false,
            exclusive: false,
        };
        for (call, kind, number) in [(Call::ChunkAlloc { id: 0 }, 1, 11), (reserve, 3, 14)] {
            self.cases += 1;
            let mut table = example();
            table.state = table.call(QUIET, call).state;
            let reply = table.call(QUIET, answer(kind, false, 0));
            table.state = reply.state;
            if reply.number != number || table != example() {
                self.wrong.push(format!(
                    "{call:?}, then no: document {number}, ours {reply:?}"
                ));
            }
        }
    }

    /// Row 1: slices of a wrong length.
    fn lengths(&mut self) {
        for records in [0, 1, 31, 33, 64] {
            let mut table = example();
            table.records.resize(records, Arena::EMPTY);
            self.every_call("records", &table, QUIET, 1);
        }
        for stamps in [0, 1, 1_024, 32_767, 32_769, 65_536] {
            let mut table = example();
            table.stamps.resize(stamps, 0);
            self.every_call("stamps", &table, QUIET, 1);
        }
    }

    /// Row 1: the page size, also with a question open.
    fn pages(&mut self) {
        let bad = [
            0, 1, 2_048, 4_095, 4_097, 6_144, 12_288, 65_535, 65_537, 131_072,
        ];
        for page in bad.into_iter().chain([1 << 32, 1 << 63, u64::MAX]) {
            let moment = Moment { page, ..QUIET };
            self.every_call("page", &example(), moment, 1);
            for (_, table) in questions() {
                self.every_call("page, question open", &table, moment, 1);
            }
        }
        for page in super::PAGES {
            let moment = Moment { page, ..QUIET };
            self.case("page", &example(), moment, Call::Owns { address: 0 }, 0);
        }
    }

    /// Row 1: broken tables.
    fn broken(&mut self) {
        for (what, damage) in DAMAGES {
            let mut table = example();
            damage(&mut table);
            self.every_call(what, &table, QUIET, 1);
        }
    }

    /// Not in row 1: what a sound table may hold.
    fn sound(&mut self) {
        for (what, change) in SOUND {
            let mut table = example();
            change(&mut table);
            self.case(what, &table, QUIET, Call::Owns { address: 0 }, 0);
        }
    }

    /// Row 2: every call but answers and queries while a question is open.
    fn open(&mut self) {
        for (kind, table) in questions() {
            for call in calls() {
                match call {
                    Call::Answer { .. } => {}
                    Call::Owns { .. } | Call::ArenaArea { .. } => {
                        self.case("query, question open", &table, QUIET, call, 0);
                    }
                    _ => self.case(&format!("question {kind} open"), &table, QUIET, call, 2),
                }
            }
        }
    }

    /// Row 3: no question, another kind, no kind at all.
    fn kinds(&mut self) {
        let kinds = [0, 1, 2, 3, 4, 5, 255, u32::MAX];
        for (open, table) in questions().into_iter().chain([(0, example())]) {
            for kind in kinds.into_iter().filter(|kind| open == 0 || *kind != open) {
                for yes in [false, true] {
                    let call = answer(kind, yes, 8 * BASE);
                    self.case(&format!("question {open} open"), &table, QUIET, call, 3);
                }
            }
        }
    }

    /// Row 6: ranges of adopt and manage.
    fn ranges(&mut self) {
        let mut table = example();
        table.records[1] = Arena {
            base: BASE + 6 * CHUNK,
            chunks: 2,
            ..table.records[0]
        };
        table.state.count = 2;
        let last = u64::MAX - CHUNK + 1;
        let adopts = [
            (0, CHUNK, 6),
            (BASE, CHUNK, 6),
            (BASE + CHUNK, CHUNK, 6),
            (BASE + 3 * CHUNK, 2 * CHUNK, 6),
            (BASE - CHUNK, 2 * CHUNK, 6),
            (BASE - CHUNK, 30 * CHUNK, 6),
            // It would grow arena 0, but runs into arena 1.
            (BASE + 4 * CHUNK, 3 * CHUNK, 6),
            // It ends at 2^64, and past it.
            (last, CHUNK, 6),
            (last, 2 * CHUNK, 6),
            (last - CHUNK, 1_026 * CHUNK, 6),
            // 6 comes before 12, and 4 and 7 before 6.
            (BASE, 1_025 * CHUNK, 6),
            (0, 0, 4),
            (BASE, CHUNK + 1, 7),
            (BASE + 1, CHUNK, 7),
            (BASE + 4 * CHUNK, 1_025 * CHUNK, 6),
            (BASE + 8 * CHUNK, 1_025 * CHUNK, 12),
        ];
        for (address, size, number) in adopts {
            let call = Call::AdoptOsBlock { address, size };
            self.case("adopt", &table, QUIET, call, number);
        }
        let manages = [
            (BASE, CHUNK, true, 6),
            (BASE + 1, 2 * CHUNK, true, 6),
            (BASE - 5, 6 + CHUNK, true, 6),
            (BASE + 3 * CHUNK, 5 * CHUNK, true, 6),
            // 15 and 16 come before it, and it before 12.
            (BASE + 1, CHUNK, true, 15),
            (BASE, CHUNK, false, 16),
            (BASE, 1_025 * CHUNK, true, 6),
        ];
        for (start, size, reserved, number) in manages {
            let call = manage(start, size, reserved);
            self.case("manage", &table, QUIET, call, number);
        }
    }

    /// Row 6: bases of memory. The question stays open, whoever waits.
    fn bases(&mut self) {
        let last = u64::MAX - CHUNK + 1;
        let mut tables: Vec<Table> = questions()
            .into_iter()
            .filter_map(|(kind, table)| (kind == 3).then_some(table))
            .collect();
        let claim = State {
            waiting: 1,
            n: 2,
            commits: 1,
            ..tables[0].state
        };
        let mut waits = tables[0].clone();
        waits.state = claim;
        tables.push(waits);
        let answer = |base| answer(3, true, base);
        for table in &tables {
            for base in [
                0,
                BASE,
                BASE + 3 * CHUNK,
                BASE - CHUNK,
                BASE + 5,
                last,
                u64::MAX,
            ] {
                self.case("memory", table, QUIET, answer(base), 6);
            }
        }
        // The range of a reserve of 0 bytes is empty: only its start can be wrong.
        let mut empty = tables[0].clone();
        (empty.state.chunks, empty.state.bytes) = (0, 4_096);
        self.case("memory of 0 bytes", &empty, QUIET, answer(0), 6);
        for base in [BASE + CHUNK, 5, u64::MAX] {
            self.case(
                "memory of 0 bytes",
                &empty,
                QUIET,
                answer(base),
                lent::QUESTION,
            );
        }
    }

    /// Not in row 1: a flag of a record, which is on unless it is 0. A claim with a negative id passes
    /// an exclusive arena over; where 32 arenas stand, a block is adopted by the one that it
    /// continues, owned and not exclusive, or by none. The flag itself is left as it was lent.
    fn flags(&mut self) {
        let behind = Call::AdoptOsBlock {
            address: BASE + 4 * CHUNK,
            size: CHUNK,
        };
        let claim = |id| Call::ChunkAllocN { id, n: 1 };
        for flag in [0, 1, 2, 256, 1 << 31, u32::MAX] {
            let on = |number: u32, other: u32| if flag == 0 { other } else { number };
            let mut full = example();
            for id in 1..RECORDS {
                full.records[id] = full.records[0];
                full.records[id].base += id as u64 * BASE;
            }
            full.state.count = RECORDS;

            let mut exclusive = example();
            exclusive.records[0].exclusive = flag;
            let what = format!("exclusive {flag}");
            let asks = lent::QUESTION;
            self.case(&what, &exclusive, QUIET, claim(-1), on(10, asks));
            self.case(&what, &exclusive, QUIET, claim(0), asks);
            let mut full_exclusive = full.clone();
            full_exclusive.records[0].exclusive = flag;
            self.case(&what, &full_exclusive, QUIET, behind, on(13, 0));

            let mut owned = full.clone();
            owned.records[0].owned = flag;
            let what = format!("owned {flag}");
            self.case(&what, &owned, QUIET, behind, on(0, 13));
            let mut grown = owned.clone();
            grown.call(QUIET, behind);
            let was = owned.records[0];
            let left = Arena {
                chunks: on(5, 4) as usize,
                dirty: grown.records[0].dirty,
                committed: grown.records[0].committed,
                ..was
            };
            if grown.records[0] != left {
                self.wrong.push(format!("{what}: {:?}", grown.records[0]));
            }
        }
    }

    /// Rows 1 and 2 come before what a negative delay means.
    fn never(&mut self) {
        let release = Call::ChunkRelease {
            address: BASE,
            n: 1,
            told: 0,
            pending: true,
        };
        for call in [release, Call::PurgeDue { force: false }] {
            for delay in [-1, -2, i64::MIN] {
                let moment = Moment { delay, ..QUIET };
                for (what, damage) in DAMAGES {
                    let mut table = example();
                    damage(&mut table);
                    self.case(what, &table, moment, call, 1);
                }
                for (_, table) in questions() {
                    let page = Moment { page: 0, ..moment };
                    self.case("negative delay", &table, page, call, 1);
                    self.case("negative delay", &table, moment, call, 2);
                }
                self.case("negative delay", &example(), moment, call, 0);
            }
        }
    }

    fn every_call(&mut self, what: &str, table: &Table, moment: Moment, number: u32) {
        for call in calls() {
            self.case(what, table, moment, call, number);
        }
    }
}

/// The examples that are one call on the example's table, with arenas off.
fn example_rows() -> (Moment, [(u32, Call); 11]) {
    let claim = |id, n| Call::ChunkAllocN { id, n };
    let adopt = |address, size| Call::AdoptOsBlock { address, size };
    let release = |address, n| Call::ChunkRelease {
        address,
        n,
        told: -1,
        pending: false,
    };
    let moment = Moment { off: true, ..QUIET };
    let rows = [
        (3, answer(1, true, 0)),
        (4, claim(0, 0)),
        (5, claim(-1, 1)),
        (6, adopt(1_073_741_824, CHUNK)),
        (7, release(1_073_741_825, 1)),
        (8, release(1_207_959_552, 1)),
        (9, release(BASE, 5)),
        (10, claim(0, 5)),
        (12, adopt(68_719_476_736, 34_393_292_800)),
        (15, manage(1, CHUNK, true)),
        (16, manage(CHUNK, 2 * CHUNK, false)),
    ];
    (moment, rows)
}

fn answer(kind: u32, yes: bool, base: u64) -> Call {
    Call::Answer { kind, yes, base }
}

fn manage(start: u64, size: u64, reserved: bool) -> Call {
    Call::ManageOsMemory {
        start,
        size,
        flags: [true, false, false],
        node: -1,
        exclusive: true,
        mapped: false,
        reserved,
    }
}

/// A call of each kind that a sound idle table grants or asks about, and answers of each kind.
fn calls() -> Vec<Call> {
    let answer = |kind, yes| answer(kind, yes, 8 * BASE);
    let mut calls = vec![
        Call::ReserveOsMemory {
            size: CHUNK,
            commit: true,
            allow_large: false,
            exclusive: true,
        },
        manage(4 * BASE, CHUNK, true),
        Call::AdoptOsBlock {
            address: 4 * BASE,
            size: CHUNK,
        },
        Call::ChunkAlloc { id: 0 },
        Call::ChunkClaim { id: -1 },
        Call::ChunkAllocN { id: 0, n: 2 },
        Call::ChunkAllocN { id: 0, n: 0 },
        Call::ChunkRelease {
            address: BASE,
            n: 1,
            told: 1,
            pending: true,
        },
        Call::PurgeDue { force: true },
        Call::Owns { address: BASE },
        Call::ArenaArea { id: 0 },
    ];
    calls.extend((0..5).flat_map(|kind| [answer(kind, true), answer(kind, false)]));
    calls
}

/// The example with each question open.
pub(super) fn questions() -> Vec<(u32, Table)> {
    let with = |change: fn(&mut State)| {
        let mut table = example();
        table.records[0].used[0] = 0b1111;
        change(&mut table.state);
        (table.state.question, table)
    };
    vec![
        with(commit),
        with(purge),
        with(memory),
        with(|state| (state.question, state.cause) = (4, 13)),
    ]
}

fn commit(state: &mut State) {
    (state.question, state.start, state.n) = (1, 1, 3);
}

fn purge(state: &mut State) {
    (state.question, state.start, state.purged) = (2, 3, 3);
}

fn memory(state: &mut State) {
    (state.question, state.chunks, state.bytes) = (3, 2, 2 * CHUNK);
}

pub(super) type Change = (&'static str, fn(&mut Table));

/// Each of these breaks the example.
pub(super) const DAMAGES: &[Change] = &[
    ("33 arenas", |t| t.state.count = 33),
    ("2^64 - 1 arenas", |t| t.state.count = usize::MAX),
    ("an empty record stands", |t| t.state.count = 2),
    ("start 0", |t| t.records[0].base = 0),
    ("misaligned", |t| t.records[0].base += 1),
    ("misaligned by half", |t| t.records[0].base += CHUNK / 2),
    ("ends at 2^64", |t| {
        t.records[0].base = u64::MAX - 4 * CHUNK + 1
    }),
    ("ends past 2^64", |t| {
        t.records[0].base = u64::MAX - CHUNK + 1
    }),
    ("0 chunks", |t| t.records[0].chunks = 0),
    ("1,025 chunks", |t| t.records[0].chunks = 1_025),
    ("2^64 - 1 chunks", |t| t.records[0].chunks = usize::MAX),
    ("the same range twice", |t| {
        t.records[1] = t.records[0];
        t.state.count = 2;
    }),
    ("ranges overlap", |t| {
        t.records[31] = t.records[0];
        t.records[31].base += 3 * CHUNK;
        for id in 1..31 {
            t.records[id] = t.records[0];
            t.records[id].base += 100 * id as u64 * CHUNK;
        }
        t.state.count = 32;
    }),
    ("used bit past the end", |t| t.records[0].used[0] |= 1 << 4),
    ("dirty bit past the end", |t| {
        t.records[0].dirty[0] |= 1 << 31
    }),
    ("committed bit past the end", |t| {
        t.records[0].committed[1] |= 1
    }),
    ("pending bit past the end", |t| {
        t.records[0].pending[31] |= 1 << 31
    }),
    ("commit question, no such arena", |t| {
        t.records[0].used[0] = 15;
        commit(&mut t.state);
        t.state.id = 1;
    }),
    ("commit question, past the end", |t| {
        t.records[0].used[0] = 15;
        commit(&mut t.state);
        t.state.start = 2;
    }),
    ("commit question, sum past 2^64 - 1", |t| {
        t.records[0].used[0] = 15;
        commit(&mut t.state);
        t.state.n = usize::MAX;
    }),
    ("commit question, used bit clear", |t| {
        t.records[0].used[0] = 0b1011;
        commit(&mut t.state);
    }),
    ("purge question, no such arena", |t| {
        t.records[0].used[0] = 15;
        purge(&mut t.state);
        t.state.id = 32;
    }),
    ("purge question, past the end", |t| {
        t.records[0].used[0] = 15;
        purge(&mut t.state);
        t.state.start = 4;
    }),
    ("purge question, used bit clear", |t| {
        t.records[0].used[0] = 0b0111;
        purge(&mut t.state);
    }),
    ("purge question, counted too much", |t| {
        t.records[0].used[0] = 15;
        purge(&mut t.state);
        t.state.purged = 4;
    }),
    ("no such question", |t| t.state.question = 5),
    ("no such mark", |t| t.state.mark = 2),
    ("idle, with a run", |t| t.state.n = 1),
    ("idle, with a claim that waits", |t| t.state.waiting = 1),
    ("memory, no such flag", |t| {
        memory(&mut t.state);
        t.state.commit = 2;
    }),
    ("memory, no such waiting call", |t| {
        memory(&mut t.state);
        t.state.waiting = 2;
    }),
    ("give back, no such cause", |t| {
        (t.state.question, t.state.cause) = (4, 6);
    }),
    ("purge, no such flag", |t| {
        t.records[0].used[0] = 15;
        purge(&mut t.state);
        t.state.force = 2;
    }),
];

/// None of these does.
pub(super) const SOUND: &[Change] = &[
    ("as it is", |_| {}),
    ("no arena", |t| t.state.count = 0),
    ("anything past the arenas", |t| {
        t.records[1..].fill(Arena {
            base: 7,
            chunks: 9_999,
            used: [u32::MAX; 32],
            ..Arena::EMPTY
        });
        t.stamps.fill(77);
    }),
    ("all bits", |t| {
        let record = &mut t.records[0];
        (record.used[0], record.dirty[0]) = (15, 15);
        (record.committed[0], record.pending[0]) = (15, 15);
    }),
    ("1,024 chunks", |t| t.records[0].chunks = 1_024),
    ("ends at 2^64 - S", |t| {
        t.records[0].base = u64::MAX - 5 * CHUNK + 1
    }),
    ("neighbours", |t| {
        t.records[1] = t.records[0];
        t.records[1].base += 4 * CHUNK;
        t.state.count = 2;
    }),
    ("given up", |t| t.state.mark = 1),
    ("pending without a deadline", |t| {
        t.records[0].pending[0] = 15
    }),
    ("a deadline without pending", |t| t.records[0].deadline = 9),
    ("exclusive and not owned", |t| {
        (t.records[0].exclusive, t.records[0].owned) = (1, 0);
    }),
    ("flags of any number", |t| {
        (t.records[0].exclusive, t.records[0].owned) = (2, u32::MAX);
    }),
    ("empty commit question at the end", |t| {
        (t.state.question, t.state.start) = (1, 4);
    }),
    ("purge question, all before it counted", |t| {
        t.records[0].used[0] = 15;
        purge(&mut t.state);
    }),
];

#[cfg(test)]
mod tests {
    use super::super::document::{at_once, broken, has_run};
    use super::*;

    // The judge of the random sequences, against the document's own examples.
    #[test]
    fn judged_as_the_examples_say() {
        let layer = example().layer();
        let (moment, rows) = example_rows();
        for (number, call) in rows {
            let at_once = at_once(&layer, &moment, &call);
            assert_eq!(at_once, (number != 10).then_some(number), "{call:?}");
        }
        assert!(has_run(&layer, 0, 4) && !has_run(&layer, 0, 5));
    }

    #[test]
    fn broken_as_the_tables_say() {
        let is_broken = |(_, change): &Change| {
            let mut table = example();
            change(&mut table);
            broken(&table.records, &table.stamps, &table.state, 4_096)
        };
        assert!(DAMAGES.iter().all(is_broken));
        assert!(!SOUND.iter().any(is_broken));
        for (_, open) in questions() {
            assert!(!broken(&open.records, &open.stamps, &open.state, 4_096));
        }
    }
}
