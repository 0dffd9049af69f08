//! The arena layer's rows. All chunks are committed, so that only sweeps ask; the host says yes.

use crate::{Case, Side};
use compare_common::layer::document::arenas;
use compare_common::layer::pair::Pair;
use compare_common::layer::{inside, reference, Moment, CHUNK, QUIET};
use compare_common::rng::Rng;
use oracle::layer as rust;
use sirqobal::lent::{self, Arena, Call, Reply, Settings, State, QUESTION, RECORDS, STAMPS};
use sirqobal::Layer;
use std::hint::black_box;
use std::ptr;
use std::time::{Duration, Instant};

/// What an operation is. Each leaves the table as it was.
#[derive(Clone, Copy)]
enum Work {
    /// `chunk_alloc`, and the release of the chunk.
    One,
    /// `chunk_alloc_n`, and the release of the run.
    Run,
    /// `chunk_alloc_n`, and a pending release of the run.
    Pending,
    /// The release of a run alone: it need not be held.
    Release,
    /// A pending release of a run and a forced sweep that purges it.
    Sweep,
    /// The same, counted by its questions: one for each chunk.
    Questions,
    /// A sweep that is not due anywhere, or whose delay is negative.
    NotDue,
    /// `owns`.
    Find,
    /// `arena_area`: for ours, row 1 and hardly anything else.
    Look,
}

struct Row {
    name: String,
    work: Work,
    /// Chunks of the run, or that are pending.
    n: usize,
    /// An arena's id, or -1.
    id: i32,
    /// Where a release, a sweep or a search by address is.
    address: u64,
    /// The purge delay that its calls carry.
    delay: i64,
    table: Layer,
}

impl Case for Row {
    fn name(&self) -> String {
        self.name.clone()
    }

    fn detail(&self) -> [String; 2] {
        let reply = self.first_call(&mut self.table.clone());
        let answer = match (self.work, reply.number) {
            (Work::One | Work::Run | Work::Pending, 0) => {
                let chunk = |arena: &Arena| reply.address.wrapping_sub(arena.base) / CHUNK;
                let mut arenas = arenas(&self.table).iter().enumerate();
                let inside = arenas.find(|(_, arena)| chunk(arena) < arena.chunks as u64);
                let (id, arena) = inside.expect("it was granted in an arena");
                format!("{} in {id}", chunk(arena))
            }
            (Work::Find, 0) => reply.owns.to_string(),
            (_, 0) => "granted".into(),
            (_, QUESTION) => "asks".into(),
            (_, number) => format!("refused {number}"),
        };
        [self.n.to_string(), answer]
    }

    /// One operation on ours and the original, and one on ours and the reference: answers and all
    /// state compared.
    fn check(&self) {
        let mut pair = Pair::holding(&self.table);
        let mut yes = vec![YES; self.n].into_iter();
        let mut call = |call: Call| pair.call(self.moment(), call, &mut yes).expect(&self.name);
        let first = call(self.call());
        match self.work {
            Work::One | Work::Run | Work::Pending if first.reply.number == 0 => {
                let pending = matches!(self.work, Work::Pending);
                call(self.release(first.reply.address, pending));
            }
            Work::Sweep | Work::Questions => {
                let swept = call(Call::PurgeDue { force: true });
                assert_eq!(swept.reply.count, self.n);
            }
            _ => {}
        }
        let [mut ours, mut c] = [OURS, C].map(|make| Lent::holding(self, make));
        self.operate(|call| {
            let reply = ours.call(call);
            assert_eq!(reply, c.call(call), "{}: {call:?}", self.name);
            assert!(ours.is(&c), "{}: {call:?}: tables", self.name);
            reply
        });
    }

    fn run(&self, side: Side, times: usize) -> (Duration, usize) {
        let each = match self.work {
            Work::Questions => self.n,
            _ => 1,
        };
        let times = times.div_ceil(each);
        let spent = match side {
            Side::Ours => self.time_lent(OURS, times),
            Side::Rust => {
                drop(Pair::holding(&self.table));
                let delay = self.delay;
                rust::carry(
                    rust::Script {
                        delay,
                        ..rust::Script::NONE
                    },
                    4_096,
                );
                self.time(times, || self.rust())
            }
            Side::C => self.time_lent(C, times),
            Side::Each => unreachable!("these are single calls"),
        };
        (spent, times * each)
    }
}

const YES: compare_common::layer::Given = compare_common::layer::Given {
    before: Vec::new(),
    moment: QUIET,
    answer: Some(0),
};

impl Row {
    fn time(&self, times: usize, mut operation: impl FnMut()) -> Duration {
        let start = Instant::now();
        for _ in 0..times {
            operation();
        }
        start.elapsed()
    }

    fn time_lent(&self, make: Make, times: usize) -> Duration {
        let mut lent = Lent::holding(self, make);
        self.time(times, || self.operate(|call| lent.call(call)))
    }

    /// The first call of an operation.
    fn call(&self) -> Call {
        match self.work {
            Work::One => Call::ChunkAlloc { id: self.id },
            Work::Run | Work::Pending => Call::ChunkAllocN {
                id: self.id,
                n: self.n,
            },
            Work::Release => self.release(self.address, false),
            Work::Sweep | Work::Questions => self.release(self.address, true),
            Work::NotDue => Call::PurgeDue { force: false },
            Work::Find => Call::Owns {
                address: self.address,
            },
            Work::Look => Call::ArenaArea { id: self.id },
        }
    }

    fn first_call(&self, layer: &mut Layer) -> Reply {
        layer.call(self.moment(), self.call())
    }

    fn moment(&self) -> Moment {
        Moment {
            delay: self.delay,
            ..QUIET
        }
    }

    fn release(&self, address: u64, pending: bool) -> Call {
        Call::ChunkRelease {
            address,
            n: self.n,
            told: -1,
            pending,
        }
    }

    fn rust(&self) {
        use oracle::arena;
        let at = |address: u64| ptr::without_provenance_mut(black_box(address) as usize);
        let (id, n) = (black_box(self.id), black_box(self.n));
        match self.work {
            Work::One => {
                if let Some((chunk, _)) = arena::chunk_alloc(id) {
                    black_box(arena::chunk_free(black_box(chunk)));
                }
            }
            Work::Run => {
                if let Some((run, _)) = arena::chunk_alloc_n(id, n) {
                    black_box(arena::chunk_free_n(black_box(run), n));
                }
            }
            Work::Pending => {
                // It knows no negative delay: the same release is made not pending.
                let pending = black_box(self.delay) >= 0;
                if let Some((run, _)) = arena::chunk_alloc_n(id, n) {
                    black_box(arena::chunk_release(black_box(run), n, None, pending));
                }
            }
            Work::Release => {
                black_box(arena::chunk_free_n(at(self.address), n));
            }
            Work::Sweep | Work::Questions => {
                arena::chunk_release(at(self.address), n, None, true);
                black_box(rust::purge_due(&mut Yes, true));
            }
            Work::NotDue => {
                black_box(arena::purge_due(false));
            }
            Work::Find => {
                black_box(arena::owns(at(self.address)));
            }
            Work::Look => {
                black_box(arena::arena_area(id));
            }
        }
    }

    /// One operation over a lent table.
    fn operate(&self, mut make: impl FnMut(Call) -> Reply) {
        let reply = make(black_box(self.call()));
        match self.work {
            Work::One | Work::Run if reply.number == 0 => {
                make(self.release(black_box(reply.address), false));
            }
            Work::Pending if reply.number == 0 => {
                make(self.release(black_box(reply.address), true));
            }
            Work::Sweep | Work::Questions => {
                let mut reply = make(Call::PurgeDue { force: true });
                while reply.number == QUESTION {
                    reply = make(Call::Answer {
                        kind: reply.kind,
                        yes: true,
                        base: 0,
                    });
                }
            }
            _ => {}
        }
    }
}

struct Yes;

impl rust::Host for Yes {
    fn answer(&mut self, _question: rust::Question) -> Option<u64> {
        Some(0)
    }
}

/// Makes a call on a lent table.
type Make = fn(&mut [Arena], &mut [u32], State, u64, Settings, Call) -> Reply;

const OURS: Make = lent::call;
const C: Make = reference::call;

/// A table as a C program keeps it, and whose calls are made on it.
struct Lent {
    records: Vec<Arena>,
    stamps: Vec<u32>,
    state: State,
    settings: Settings,
    make: Make,
}

impl Lent {
    /// The table of a row, with the settings of its calls.
    fn holding(row: &Row, make: Make) -> Lent {
        Lent {
            records: row.table.records().to_vec(),
            stamps: row.table.stamps().to_vec(),
            state: row.table.state(),
            settings: row.moment().settings(),
            make,
        }
    }

    fn call(&mut self, call: Call) -> Reply {
        let (records, stamps) = (&mut self.records, &mut self.stamps);
        let reply = (self.make)(records, stamps, self.state, QUIET.ns, self.settings, call);
        self.state = reply.state;
        black_box(reply)
    }

    fn is(&self, other: &Lent) -> bool {
        self.records == other.records && self.stamps == other.stamps
    }
}

const BASE: u64 = 1 << 40;

/// The base of the arena with this id in the tables here.
pub fn base(id: usize) -> u64 {
    BASE + id as u64 * 2_048 * CHUNK
}

/// So many shared arenas, all committed and dirty, with these used bits.
pub fn table(count: usize, chunks: usize, used: impl Fn(usize, usize) -> bool) -> Layer {
    let mut records = [Arena::EMPTY; RECORDS];
    for (id, arena) in records.iter_mut().enumerate().take(count) {
        let all: [u32; 32] = std::array::from_fn(|word| inside(chunks, word));
        let map = std::array::from_fn(|word| {
            let bits = (0..32).filter(|bit| used(id, 32 * word + bit));
            bits.map(|bit| 1 << bit).sum::<u32>() & all[word]
        });
        *arena = Arena {
            base: base(id),
            chunks,
            owned: 1,
            node: -1,
            used: map,
            dirty: all,
            committed: all,
            ..Arena::EMPTY
        };
    }
    let state = State {
        count,
        ..State::EMPTY
    };
    Layer::from_table(&records, &[0; STAMPS], state)
}

/// The same arenas, their addresses in any order.
fn shuffled(layer: &Layer, rng: &mut Rng) -> Layer {
    let mut records = *layer.records();
    let count = layer.state().count;
    for id in (1..count).rev() {
        let other = rng.below(id as u64 + 1) as usize;
        let base = records[id].base;
        records[id].base = records[other].base;
        records[other].base = base;
    }
    Layer::from_table(&records, layer.stamps(), layer.state())
}

pub fn cases(rng: &mut Rng) -> Vec<Box<dyn Case>> {
    let half: Vec<bool> = (0..1_024).map(|_| rng.percent(50)).collect();
    let mut rows = Vec::new();
    let mut row = |name: &str, work: Work, n: usize, id: i32, address: u64, table: &Layer| {
        rows.push(Box::new(Row {
            name: name.into(),
            work,
            n,
            id,
            address,
            delay: 0,
            table: table.clone(),
        }) as Box<dyn Case>);
    };

    let empty = table(1, 1_024, |_, _| false);
    let small = table(1, 32, |_, _| false);
    let nearly = table(1, 1_024, |_, chunk| chunk < 1_016);
    let some = table(8, 1_024, |_, _| false);
    let many = table(32, 1_024, |_, _| false);
    let mixed = shuffled(&many, rng);
    let behind = table(32, 1_024, |id, _| id < 31);
    for (name, table) in [
        ("pair, 1 empty arena of 32", &small),
        ("pair, 1 empty arena of 1,024", &empty),
        ("pair, 1,016 of 1,024 used", &nearly),
        ("pair, 8 empty arenas", &some),
        ("pair, 32 empty arenas", &many),
        ("pair, 32 empty arenas in any order", &mixed),
        ("pair, behind 31 full arenas", &behind),
    ] {
        row(name, Work::One, 1, -1, 0, table);
    }
    row(
        "pair, arena 31 of 32, by its id",
        Work::One,
        1,
        31,
        0,
        &behind,
    );

    let board = table(1, 1_024, |_, chunk| chunk % 2 == 0 && chunk < 900);
    let random = table(1, 1_024, |_, chunk| chunk < 900 && half[chunk]);
    for n in [2, 8, 64] {
        let full = table(1, 1_024, move |_, chunk| chunk < 1_024 - n);
        for (name, table) in [
            ("run, empty arena of 1,024", &empty),
            ("run, checkerboard before it", &board),
            ("run, half used before it", &random),
            ("run, nearly full arena", &full),
            ("run, behind 31 full arenas", &behind),
        ] {
            row(name, Work::Run, n, -1, 0, table);
        }
    }
    row("run, empty arena of 1,024", Work::Run, 512, -1, 0, &empty);
    row("run, empty arena of 1,024", Work::Run, 1_024, -1, 0, &empty);
    let board32 = table(32, 1_024, |_, chunk| chunk % 2 == 0);
    row(
        "run, 32 checkerboards: refused",
        Work::Run,
        2,
        -1,
        0,
        &board32,
    );

    for n in [1, 64, 512, 1_024] {
        row("release alone, 1 arena", Work::Release, n, 0, BASE, &empty);
    }
    row(
        "release alone, last of 32 arenas",
        Work::Release,
        1,
        0,
        base(31),
        &many,
    );
    for n in [1, 32, 256, 1_024] {
        row(
            "release and forced sweep, all yes",
            Work::Sweep,
            n,
            0,
            BASE,
            &empty,
        );
    }
    row(
        "the same, for each question",
        Work::Questions,
        1_024,
        0,
        BASE,
        &empty,
    );
    row(
        "release and sweep, last of 32 arenas",
        Work::Sweep,
        32,
        0,
        base(31),
        &many,
    );
    for count in [1, 32] {
        let name = format!("sweep, nothing armed, {count} arenas");
        row(
            &name,
            Work::NotDue,
            0,
            0,
            0,
            &table(count, 1_024, |_, _| false),
        );
    }
    for count in [1, 8, 32] {
        let all = table(count, 1_024, |_, _| false);
        let name = format!("find an address, {count} arenas, in the last");
        row(&name, Work::Find, 1, 0, base(count - 1) + 5, &all);
    }
    row(
        "find an address, 32 arenas, in none",
        Work::Find,
        1,
        0,
        5,
        &many,
    );
    row(
        "find an address, 32 arenas in any order",
        Work::Find,
        1,
        0,
        mixed.records()[31].base + 5,
        &mixed,
    );
    for (count, chunks) in [
        (0, 1),
        (1, 1),
        (1, 1_024),
        (8, 1_024),
        (16, 1_024),
        (32, 1),
        (32, 1_024),
    ] {
        let name = format!("area: row 1 alone, {count} arenas of {chunks}");
        row(
            &name,
            Work::Look,
            1,
            0,
            0,
            &table(count, chunks, |_, _| false),
        );
    }
    row(
        "area: row 1 alone, 32 arenas in any order",
        Work::Look,
        1,
        0,
        0,
        &mixed,
    );
    rows.extend(pending_cases());
    rows.extend(armed_cases(&[0]));
    rows
}

/// Pending releases: with a negative delay they stamp, mark and arm nothing.
fn pending_cases() -> Vec<Box<dyn Case>> {
    let mut rows: Vec<Box<dyn Case>> = Vec::new();
    for n in [1, 64, 1_024] {
        for delay in [10, -1] {
            rows.push(Box::new(Row {
                name: format!("run, released pending, delay {delay}"),
                work: Work::Pending,
                n,
                id: -1,
                address: 0,
                delay,
                table: waiting_table(n),
            }));
        }
    }
    rows
}

/// An empty arena whose first run of n was released pending with delay 10: the same again leaves it as it is,
/// and so does a release with a negative delay.
fn waiting_table(n: usize) -> Layer {
    let mut layer = table(1, 1_024, |_, _| false);
    let release = Call::ChunkRelease {
        address: BASE,
        n,
        told: -1,
        pending: true,
    };
    layer.call(Moment { delay: 10, ..QUIET }, release);
    layer
}

/// Unforced sweeps with a negative delay where all is due, and with 0 where nothing is: neither asks. The
/// original has no such sweep with a negative delay.
pub fn never_cases(_: &mut Rng) -> Vec<Box<dyn Case>> {
    armed_cases(&[-1, 0])
}

/// Sweeps with these delays over arenas with pending chunks: with -1 they are due, with 0 not.
fn armed_cases(delays: &[i64]) -> Vec<Box<dyn Case>> {
    let mut rows: Vec<Box<dyn Case>> = Vec::new();
    for (count, pending) in [(1, 1), (1, 1_024), (32, 1_024)] {
        for delay in delays {
            let (due, deadline) = match delay {
                ..0 => ("all", 1),
                _ => ("nothing", 11),
            };
            rows.push(Box::new(Row {
                name: format!("sweep, delay {delay}, {count} arenas, {due} due"),
                work: Work::NotDue,
                n: count * pending,
                id: 0,
                address: 0,
                delay: *delay,
                table: armed(count, pending, deadline),
            }));
        }
    }
    rows
}

/// Arenas of which so many chunks are pending, all with this deadline.
fn armed(count: usize, pending: usize, deadline: u32) -> Layer {
    let plain = table(count, 1_024, |_, _| false);
    let mut records = *plain.records();
    for arena in &mut records[..count] {
        arena.pending = std::array::from_fn(|word| inside(pending, word));
        arena.deadline = deadline;
    }
    Layer::from_table(&records, plain.stamps(), plain.state())
}
