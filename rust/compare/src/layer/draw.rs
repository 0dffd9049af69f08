//! Random sequences of layer calls: tables to start from, calls, and the host's answers. Addresses
//! and ids are mostly chosen by what stands in the table, so that calls meet.

use super::document::arenas;
use super::pair::{Agreed, Pair, Source};
use super::plain::Table;
use super::{inside, Given, Meanwhile, Moment, Other, Step, CHUNK, PAGES};
use crate::rng::Rng;
use sirqobal::lent::{Arena, Call, State, RECORDS, STAMPS};
use sirqobal::{Ask, Layer};

/// What a sequence is mostly about.
#[derive(Clone, Copy)]
struct Theme {
    /// Weights of the calls: reserve, manage, adopt, claim, release, sweep, answer, query.
    weights: [u64; 8],
    /// Chunks of a block are mostly below this.
    block: u64,
    /// Default reserves that calls carry.
    reserves: &'static [u64],
    /// Of a hundred questions, so many are answered no.
    no: u64,
}

const THEMES: [Theme; 6] = [
    // Some of everything, in small arenas.
    Theme {
        weights: [6, 5, 8, 35, 25, 8, 1, 6],
        block: 40,
        reserves: &[0, CHUNK - 1, 4 * CHUNK],
        no: 15,
    },
    // Long runs in large arenas.
    Theme {
        weights: [3, 3, 6, 50, 30, 4, 1, 3],
        block: 1_024,
        reserves: &[0, 0, 500 * CHUNK],
        no: 10,
    },
    // Sweeps.
    Theme {
        weights: [3, 3, 5, 18, 45, 25, 1, 2],
        block: 70,
        reserves: &[0],
        no: 30,
    },
    // Default reserves.
    Theme {
        weights: [2, 2, 3, 75, 8, 3, 1, 2],
        block: 6,
        reserves: &[CHUNK, 2 * CHUNK, 5 * CHUNK, 33 * CHUNK],
        no: 10,
    },
    // Default reserves that fail.
    Theme {
        weights: [4, 4, 8, 60, 10, 4, 1, 4],
        block: 8,
        reserves: &[CHUNK, 1_025 * CHUNK, u64::MAX - CHUNK, u64::MAX],
        no: 30,
    },
    // As many arenas as there can be.
    Theme {
        weights: [18, 18, 18, 20, 15, 6, 1, 4],
        block: 4,
        reserves: &[0, CHUNK],
        no: 5,
    },
];

/// Draws one sequence.
pub struct Player {
    theme: Theme,
    moment: Moment,
    /// Where the arenas of other layers stand: from, up to. Mostly they are kept clear of.
    elsewhere: Vec<(u64, u64)>,
}

impl Player {
    pub fn new(rng: &mut Rng) -> Player {
        let theme = rng.pick(&THEMES);
        let mut player = Player {
            theme,
            moment: super::QUIET,
            elsewhere: Vec::new(),
        };
        // Often just before the milliseconds wrap.
        let wrap = (1_000_000 << 32) * rng.below(4_000);
        player.moment.ns = match rng.below(3) {
            0 => rng.bits(),
            1 => rng.below(1 << 40),
            _ => wrap.wrapping_sub(1_000_000 * rng.below(2_000)),
        };
        player.draw_settings(rng);
        player
    }

    /// The clock of the last call.
    pub fn clock(&self) -> u64 {
        self.moment.ns
    }

    /// Goes on at the clock of the last call on any layer, beside these others.
    pub fn go_on(&mut self, ns: u64, others: &[&Layer]) {
        self.moment.ns = ns;
        self.elsewhere.clear();
        let arenas = others.iter().flat_map(|layer| arenas(layer));
        self.elsewhere
            .extend(arenas.map(|arena| (arena.base, end(arena))));
    }

    /// The empty table, or a sound one with anything in it.
    pub fn table(&self, rng: &mut Rng) -> Layer {
        match rng.below(4) {
            0 => self.any_table(rng),
            _ => Layer::new(),
        }
    }

    /// The next call, with what it carries.
    pub fn call(&mut self, rng: &mut Rng, layer: &Layer) -> (Moment, Call) {
        (self.next_moment(rng), self.any_call(rng, layer))
    }

    /// What the next call carries.
    pub fn next_moment(&mut self, rng: &mut Rng) -> Moment {
        self.moment.ns = self.later(rng);
        if rng.percent(10) {
            self.draw_settings(rng);
        }
        let mut moment = self.moment;
        if rng.percent(1) {
            moment.page = rng.pick(&[0, 1, 2_048, 4_095, 12_288, 131_072, 1 << 63]);
        }
        moment
    }

    /// The host's answer.
    pub fn given(&mut self, rng: &mut Rng, layer: &Layer, ask: Ask) -> Given {
        let mut before = Vec::new();
        if rng.percent(5) {
            let calls = rng.between(1, 3);
            before.extend((0..calls).map(|_| {
                let (moment, call) = self.disturbing(rng, layer, ask);
                Meanwhile::Call(moment, call)
            }));
        }
        let answer = match ask {
            // A no to memory ends default reserves for good: it comes less often.
            Ask::Memory { .. } if rng.percent(self.theme.no / 3) => None,
            Ask::Memory { bytes, .. } => Some(self.base(rng, layer, bytes)),
            _ if rng.percent(self.theme.no) => None,
            _ => Some(rng.bits()),
        };
        let moment = self.any_moment(rng);
        Given {
            before,
            moment,
            answer,
        }
    }

    /// A call while a question is open, but no answer that would close it.
    fn disturbing(&mut self, rng: &mut Rng, layer: &Layer, ask: Ask) -> (Moment, Call) {
        let moment = self.any_moment(rng);
        let answer = |kind, base| Call::Answer {
            kind,
            yes: true,
            base,
        };
        let other = rng.below(6) as u32;
        let wrong = if other == ask.kind() { 300 } else { other };
        let call = match (rng.below(4), ask) {
            (0, _) => answer(wrong, rng.bits()),
            (1, Ask::Memory { bytes, .. }) => answer(3, no_base(rng, layer, bytes)),
            (2, _) => self.query(rng, layer),
            _ => match self.any_call(rng, layer) {
                Call::Answer { .. } => answer(wrong, 0),
                call => call,
            },
        };
        (moment, call)
    }

    fn later(&self, rng: &mut Rng) -> u64 {
        let ms = match rng.below(40) {
            0 => rng.pick(&[1 << 31, (1 << 31) - 1, 1 << 32, 1 << 30]),
            1 => rng.below(1 << 32),
            2..=9 => 0,
            10..=14 => rng.between(5, 15),
            _ => rng.below(4),
        };
        let ns = ms * 1_000_000 + rng.below(900_000);
        match rng.below(60) {
            0 | 1 => self.moment.ns.wrapping_sub(ns), // the clock goes back
            2 => self.delay_before_wrap(),
            _ => self.moment.ns.wrapping_add(ns),
        }
    }

    /// So long before the milliseconds wrap as the delay is: what is released now is due at 0.
    fn delay_before_wrap(&self) -> u64 {
        let turn = (self.moment.ns / 1_000_000) >> 32;
        let delay = u64::from(sirqobal::delay_ms(self.moment.delay));
        let ms = ((turn + 1) << 32).wrapping_sub(delay);
        ms.wrapping_mul(1_000_000)
    }

    fn draw_settings(&mut self, rng: &mut Rng) {
        self.moment = Moment {
            ns: self.moment.ns,
            ..self.any_moment(rng)
        };
    }

    /// Any clock with sound settings.
    pub fn any_moment(&self, rng: &mut Rng) -> Moment {
        Moment {
            ns: rng.bits(),
            delay: any_delay(rng),
            decommits: rng.percent(50),
            off: rng.percent(4),
            reserve: rng.pick(self.theme.reserves),
            page: rng.pick(&PAGES),
        }
    }

    /// Any call of the theme.
    pub fn any_call(&self, rng: &mut Rng, layer: &Layer) -> Call {
        let weights = self.theme.weights;
        let mut drawn = rng.below(weights.iter().sum());
        let kind = weights.iter().position(|weight| {
            let here = drawn < *weight;
            drawn = drawn.wrapping_sub(*weight);
            here
        });
        match kind.expect("below their sum") {
            0 => self.reserve(rng),
            1 => self.manage(rng, layer),
            2 => self.adopt(rng, layer),
            3 => self.claim(rng, layer),
            4 => self.release(rng, layer),
            5 => Call::PurgeDue {
                force: rng.percent(25),
            },
            6 => Call::Answer {
                kind: rng.below(6) as u32,
                yes: rng.percent(50),
                base: rng.bits(),
            },
            _ => self.query(rng, layer),
        }
    }

    fn reserve(&self, rng: &mut Rng) -> Call {
        let size = match rng.below(20) {
            0 => 0,
            1 => rng.pick(&[1_023, 1_024, 1_025, 5_000]) * CHUNK,
            2 => {
                let last = u64::MAX - 2 * CHUNK + 1;
                rng.near(last)
            }
            3 => rng.bits(),
            4..=8 => self.chunks(rng) * CHUNK - rng.below(CHUNK),
            _ => self.chunks(rng) * CHUNK,
        };
        Call::ReserveOsMemory {
            size,
            commit: rng.percent(40),
            allow_large: rng.percent(50),
            exclusive: rng.percent(40),
        }
    }

    fn manage(&self, rng: &mut Rng, layer: &Layer) -> Call {
        let chunks = self.chunks(rng);
        let base = self.place(rng, layer, chunks * CHUNK);
        let ragged = rng.below(CHUNK);
        let (start, size) = match rng.below(20) {
            0 => (0, chunks * CHUNK),
            1 => (rng.number(), rng.number()),
            2 => (u64::MAX - ragged, ragged),
            3 => (base + 1, CHUNK),
            4 => (base, 1_025 * CHUNK),
            5 => (some_address(rng, layer), chunks * CHUNK),
            6..=11 => (base.wrapping_sub(ragged), chunks * CHUNK + 2 * ragged),
            _ => (base, chunks * CHUNK),
        };
        Call::ManageOsMemory {
            start,
            size,
            flags: [(); 3].map(|()| rng.percent(50)),
            node: rng.bits() as i32,
            exclusive: rng.percent(40),
            mapped: rng.percent(5),
            reserved: rng.percent(95),
        }
    }

    fn adopt(&self, rng: &mut Rng, layer: &Layer) -> Call {
        let chunks = self.chunks(rng);
        let away = self.place(rng, layer, chunks * CHUNK);
        let behind = some_arena(rng, layer).map_or(away, end);
        let off = rng.between(1, CHUNK - 1);
        let (address, size) = match rng.below(20) {
            0 => (away, 0),
            1 => (away + off, chunks * CHUNK),
            2 => (away, chunks * CHUNK + off),
            3 => (some_address(rng, layer), chunks * CHUNK),
            4 => (away, rng.pick(&[1_024, 1_025]) * CHUNK),
            5 => (rng.pick(&[0, u64::MAX - CHUNK + 1]), CHUNK),
            6 => (rng.number(), rng.number()),
            7..=13 => (behind, chunks * CHUNK),
            _ => (away, chunks * CHUNK),
        };
        Call::AdoptOsBlock { address, size }
    }

    fn claim(&self, rng: &mut Rng, layer: &Layer) -> Call {
        let count = layer.state().count as u64;
        let id = match rng.below(20) {
            0 => rng.pick(&[31, 32, i32::MAX]),
            1 => rng.bits() as i32,
            2 => count as i32,
            3..=9 => rng.below(count.max(1)) as i32,
            10 => i32::MIN,
            _ => -1,
        };
        match rng.below(4) {
            0 => Call::ChunkAlloc { id },
            1 => Call::ChunkClaim { id },
            _ => Call::ChunkAllocN {
                id,
                n: self.length(rng) as usize,
            },
        }
    }

    pub(super) fn release(&self, rng: &mut Rng, layer: &Layer) -> Call {
        let address = some_address(rng, layer);
        let n = match rng.below(20) {
            0 => 0,
            1 => rng.number(),
            2 => self.length(rng),
            3..=5 => room(layer, address),
            6 => room(layer, address) + 1,
            _ => rng.between(1, 6).min(room(layer, address).max(1)),
        };
        let address = match rng.below(20) {
            0 => address.wrapping_add(rng.below(CHUNK)),
            1 => rng.number(),
            _ => address,
        };
        Call::ChunkRelease {
            address,
            n: n as usize,
            told: rng.pick(&[-1, -1, -1, 0, 1, i32::MIN, i32::MAX]),
            pending: rng.percent(60),
        }
    }

    fn query(&self, rng: &mut Rng, layer: &Layer) -> Call {
        match rng.below(2) {
            0 => {
                let address = some_address(rng, layer);
                Call::Owns {
                    address: rng.near(address),
                }
            }
            _ => Call::ArenaArea {
                id: match rng.below(3) {
                    0 => rng.bits() as i32,
                    _ => rng.below(34) as i32 - 1,
                },
            },
        }
    }

    /// Chunks of a block.
    fn chunks(&self, rng: &mut Rng) -> u64 {
        match rng.below(12) {
            0 => rng.pick(&[31, 32, 33, 63, 64, 65]),
            _ => rng.between(1, self.theme.block),
        }
    }

    /// Chunks of a run.
    fn length(&self, rng: &mut Rng) -> u64 {
        match rng.below(24) {
            0 => 0,
            1 => rng.pick(&[1_024, 1_025, 1 << 32, u64::MAX]),
            2..=4 => rng.pick(&[31, 32, 33, 63, 64, 65, 96]),
            5..=7 => rng.between(1, self.theme.block),
            8..=12 => 1,
            _ => rng.between(2, 9),
        }
    }

    /// The base of memory: mostly one that can be registered, else one that is given back.
    fn base(&self, rng: &mut Rng, layer: &Layer, bytes: u64) -> u64 {
        let base = self.place(rng, layer, bytes);
        match rng.below(12) {
            0 => base + rng.between(1, CHUNK - 1),
            _ => base,
        }
    }

    /// Whole chunks for so many bytes where no arena stands; beside one if there is room.
    fn place(&self, rng: &mut Rng, layer: &Layer, bytes: u64) -> u64 {
        let free = |base: u64, stands: &[(u64, u64)]| {
            let stop = base.checked_add(bytes.max(1));
            let apart = |&(from, to): &(u64, u64)| stop.is_some_and(|s| s <= from) || to <= base;
            base != 0 && stop.is_some() && stands.iter().all(apart)
        };
        let here: Vec<(u64, u64)> = arenas(layer).iter().map(|a| (a.base, end(a))).collect();
        let clear = |base: u64| free(base, &here) && free(base, &self.elsewhere);
        let behind = some_arena(rng, layer).map(end);
        if let Some(behind) = behind.filter(|behind| rng.percent(40) && clear(*behind)) {
            return behind;
        }
        if let Some(met) = self.met(rng, bytes).filter(|base| free(*base, &here)) {
            return met;
        }
        let far = |rng: &mut Rng| match rng.below(10) {
            0 => (u64::MAX - bytes.min(u64::MAX - CHUNK)) / CHUNK * CHUNK,
            1..=4 => CHUNK * rng.between(1, 5_000),
            _ => CHUNK * rng.between(1, 1 << 38),
        };
        let tries = (0..20).map(|_| far(rng)).find(|base| clear(*base));
        tries.unwrap_or(CHUNK * 77)
    }

    /// Now and then beside an arena of another layer, and seldom in it.
    fn met(&self, rng: &mut Rng, bytes: u64) -> Option<u64> {
        if self.elsewhere.is_empty() || rng.percent(85) {
            return None;
        }
        let (from, to) = rng.pick(&self.elsewhere);
        match rng.below(40) {
            0 => Some(to - CHUNK),
            1..20 => from.checked_sub(bytes.checked_next_multiple_of(CHUNK)?),
            _ => Some(to),
        }
    }

    /// Arenas beside each other or apart, with any bits, deadlines and stamps, and what is left
    /// over past them.
    pub fn any_table(&self, rng: &mut Rng) -> Layer {
        let now = sirqobal::now_ms(self.moment.ns);
        let near = |rng: &mut Rng| match rng.below(4) {
            0 => rng.bits() as u32,
            1 => now.wrapping_add(1 << 31).wrapping_add(rng.below(9) as u32),
            _ => now.wrapping_sub(20).wrapping_add(rng.below(40) as u32),
        };
        let mut stamps = vec![0; STAMPS];
        stamps.fill_with(|| near(rng));
        let count = rng.pick(&[1, 2, 3, 6, 31, 32]);
        let mut base = CHUNK * rng.between(1, 1 << 20);
        let records: [Arena; RECORDS] = std::array::from_fn(|id| {
            let chunks = self.chunks(rng);
            let deadline = if rng.percent(30) { 0 } else { near(rng) };
            let arena = any_arena(rng, base, chunks, deadline, id < count);
            base += chunks * CHUNK + CHUNK * rng.pick(&[0, 0, 1, 50]);
            arena
        });
        let state = State {
            count,
            mark: rng.percent(20).into(),
            ..State::EMPTY
        };
        let stamps = stamps.try_into().expect("so many stamps");
        Layer::from_table(&records, &stamps, state)
    }
}

/// What is tried while a call asks, beside other calls.
#[derive(Clone, Copy, Default)]
pub struct Tried<'a> {
    /// Joins with these.
    pub joins: &'a [&'a Layer],
    /// Lists of releases.
    pub lists: bool,
}

/// Draws one call and makes it on both sides, with drawn answers to what it asks.
pub fn turn(
    player: &mut Player,
    rng: &mut Rng,
    pair: &mut Pair,
    tried: Tried<'_>,
) -> (Step, Result<Agreed, String>) {
    let (moment, call) = player.call(rng, &pair.ours);
    let mut drawn = Drawn {
        player,
        rng,
        tried,
        given: Vec::new(),
    };
    let agreed = pair.call(moment, call, &mut drawn);
    let step = Step {
        moment,
        call,
        given: drawn.given,
    };
    (step, agreed)
}

/// Answers by chance, and keeps what was answered.
struct Drawn<'a> {
    player: &'a mut Player,
    rng: &'a mut Rng,
    tried: Tried<'a>,
    given: Vec<Given>,
}

impl Drawn<'_> {
    /// Whether a join or a list comes here. Purges are asked most often by far.
    fn comes(&mut self, ask: Ask) -> bool {
        let one_of = match ask {
            Ask::Purge { .. } => 1_000,
            _ => 100,
        };
        self.rng.below(one_of) == 0
    }

    /// A join with another layer, which asks nothing.
    fn join(&mut self, ask: Ask) -> Option<Meanwhile> {
        if self.tried.joins.is_empty() || !self.comes(ask) {
            return None;
        }
        let other = Other {
            table: Table::of(self.rng.pick(self.tried.joins)),
            is_first: self.rng.percent(50),
        };
        let moment = self.moment();
        Some(Meanwhile::Join(moment, Box::new(other)))
    }

    fn list(&mut self, layer: &Layer, ask: Ask) -> Option<Meanwhile> {
        if !self.tried.lists || !self.comes(ask) {
            return None;
        }
        let moment = self.moment();
        Some(Meanwhile::List(moment, self.player.list(self.rng, layer)))
    }

    fn moment(&mut self) -> Moment {
        let mut moment = self.player.any_moment(self.rng);
        if self.rng.percent(10) {
            moment.page = 4_095;
        }
        moment
    }
}

impl Source for Drawn<'_> {
    fn give(&mut self, layer: &Layer, ask: Ask) -> Given {
        let mut given = self.player.given(self.rng, layer, ask);
        given.before.extend(self.join(ask));
        given.before.extend(self.list(layer, ask));
        self.given.push(given.clone());
        given
    }
}

/// A purge delay. One of six is negative, and of these a half -1.
pub fn any_delay(rng: &mut Rng) -> i64 {
    match rng.below(12) {
        0 => -1,
        1 => match rng.below(4) {
            0 => -2,
            1 => i64::MIN,
            2 => -3 - rng.below(2_000) as i64,
            _ => !(rng.bits() >> 1) as i64,
        },
        2 => rng.pick(&[1_073_741_823, 1_073_741_824, i64::MAX]),
        3 => (rng.bits() >> rng.between(1, 63)) as i64,
        4..=5 => 0,
        _ => rng.pick(&[1, 5, 10, 10, 100]),
    }
}

/// A flag of a record, on so many times in a hundred: 1 as registering writes it, or any other number.
pub fn any_flag(rng: &mut Rng, percent: u64) -> u32 {
    match (rng.percent(percent), rng.below(4)) {
        (false, _) => 0,
        (true, 0) => rng.between(1, u32::MAX.into()) as u32,
        (true, _) => rng.pick(&[1, 2, u32::MAX]),
    }
}

/// A record with any bits; one that stands has none past its end.
pub fn any_arena(rng: &mut Rng, base: u64, chunks: u64, deadline: u32, stands: bool) -> Arena {
    let mut map = || {
        let dense = rng.below(4);
        std::array::from_fn(|word| {
            let bits = match dense {
                0 => 0,
                1 => rng.bits() & rng.bits() & rng.bits(),
                2 => rng.bits() | rng.bits(),
                _ => rng.bits(),
            };
            let mask = if stands {
                inside(chunks as usize, word)
            } else {
                u32::MAX
            };
            bits as u32 & mask
        })
    };
    let maps = [map(), map(), map(), map()];
    Arena {
        base,
        chunks: chunks as usize,
        exclusive: any_flag(rng, 30),
        owned: any_flag(rng, 70),
        node: rng.bits() as i32,
        deadline,
        used: maps[0],
        dirty: maps[1],
        committed: maps[2],
        pending: maps[3],
    }
}

/// A base that is no base: it starts at 0, ends too late or overlaps. The range of a reserve of 0
/// bytes, which asks for less than a chunk, is empty.
fn no_base(rng: &mut Rng, layer: &Layer, bytes: u64) -> u64 {
    match rng.below(3) {
        _ if bytes < CHUNK => 0,
        0 => u64::MAX - rng.below(bytes),
        1 => some_arena(rng, layer).map_or(0, |arena| arena.base),
        _ => 0,
    }
}

fn some_arena<'a>(rng: &mut Rng, layer: &'a Layer) -> Option<&'a Arena> {
    let arenas = arenas(layer);
    arenas.get(rng.below(arenas.len().max(1) as u64) as usize)
}

/// A chunk of some arena, more often one that is used.
pub(super) fn some_address(rng: &mut Rng, layer: &Layer) -> u64 {
    let Some(arena) = some_arena(rng, layer) else {
        return CHUNK * rng.below(100);
    };
    let mut chunk = 0;
    for _ in 0..4 {
        chunk = rng.below(arena.chunks as u64);
        if arena.used[chunk as usize / 32] >> (chunk % 32) & 1 == 1 {
            break;
        }
    }
    arena.base + chunk * CHUNK
}

/// Chunks from here to the end of the arena.
fn room(layer: &Layer, address: u64) -> u64 {
    let inside = |arena: &&Arena| arena.base <= address && address < end(arena);
    let arena = arenas(layer).iter().find(inside);
    arena.map_or(0, |arena| (end(arena) - address) / CHUNK)
}

fn end(arena: &Arena) -> u64 {
    arena.base + arena.chunks as u64 * CHUNK
}
