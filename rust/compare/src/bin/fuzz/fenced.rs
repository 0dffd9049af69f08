//! Lent tables between fences, and their damage.

use compare_common::layer::document::broken;
use compare_common::layer::draw::{any_flag, Player};
use compare_common::layer::plain;
use compare_common::rng::Rng;
use sirqobal::lent::{self, Arena, State, RECORDS, STAMPS};
use sirqobal::Layer;

/// Numbers on both sides of a lent slice, which stay.
pub const FENCE: usize = 2;

const FENCE_RECORD: Arena = Arena {
    base: 0x7777,
    used: [0x5555; 32],
    ..Arena::EMPTY
};

const FENCE_STAMP: u32 = 0x7777;

/// A lent table between fences.
#[derive(Clone, PartialEq)]
pub struct Table {
    records: Vec<Arena>,
    stamps: Vec<u32>,
    pub state: State,
}

impl Table {
    /// Sound, empty or of wrong lengths.
    pub fn any(rng: &mut Rng, player: &Player) -> Table {
        let layer = match rng.below(4) {
            0 => Layer::new(),
            _ => player.any_table(rng),
        };
        let mut table = plain::Table::of(&layer);
        if rng.percent(8) {
            table.records.resize(rng.below(40) as usize, FENCE_RECORD);
        }
        if rng.percent(8) {
            table.stamps.resize(rng.below(40_000) as usize, 0);
        }
        Table::of(&table)
    }

    /// This table, between fences.
    pub fn of(table: &plain::Table) -> Table {
        let records = [
            &[FENCE_RECORD; FENCE],
            &table.records[..],
            &[FENCE_RECORD; FENCE],
        ];
        let stamps = [
            &[FENCE_STAMP; FENCE],
            &table.stamps[..],
            &[FENCE_STAMP; FENCE],
        ];
        Table {
            records: records.concat(),
            stamps: stamps.concat(),
            state: table.state,
        }
    }

    /// What is lent, without its fences.
    pub fn plain(&self) -> plain::Table {
        let (records, stamps) = (self.records.len() - FENCE, self.stamps.len() - FENCE);
        plain::Table {
            records: self.records[FENCE..records].to_vec(),
            stamps: self.stamps[FENCE..stamps].to_vec(),
            state: self.state,
        }
    }

    pub fn for_call(&mut self) -> lent::Table<'_> {
        let state = self.state;
        let (records, stamps) = self.lent();
        lent::Table {
            records,
            stamps,
            state,
        }
    }

    pub fn lent(&mut self) -> (&mut [Arena], &mut [u32]) {
        let (records, stamps) = (self.records.len() - FENCE, self.stamps.len() - FENCE);
        (
            &mut self.records[FENCE..records],
            &mut self.stamps[FENCE..stamps],
        )
    }

    /// The records of the arenas that stand, in a table that row 1 lets pass.
    pub fn arenas(&self) -> &[Arena] {
        &self.records[FENCE..FENCE + self.state.count]
    }

    pub fn is_broken(&self, page: u64) -> bool {
        let (records, stamps) = (self.records.len() - FENCE, self.stamps.len() - FENCE);
        let lent = (&self.records[FENCE..records], &self.stamps[FENCE..stamps]);
        broken(lent.0, lent.1, &self.state, page)
    }

    pub fn fences(&self) -> [(&[Arena], &[u32]); 2] {
        let (records, stamps) = (self.records.len() - FENCE, self.stamps.len() - FENCE);
        [
            (&self.records[..FENCE], &self.stamps[..FENCE]),
            (&self.records[records..], &self.stamps[stamps..]),
        ]
    }

    /// The table as a layer, to draw calls for it; the empty one if it is broken.
    pub fn layer(&mut self) -> Layer {
        let state = self.state;
        if self.is_broken(4_096) {
            return Layer::new();
        }
        let (records, stamps) = self.lent();
        let records: &[Arena; RECORDS] = (&*records).try_into().expect("as many as are sound");
        let stamps: &[u32; STAMPS] = (&*stamps).try_into().expect("as many as are sound");
        Layer::from_table(records, stamps, state)
    }

    /// Changes one number, or some.
    pub fn damage(&mut self, rng: &mut Rng) {
        for _ in 0..rng.pick(&[1, 1, 1, 2, 5]) {
            let small = rng.below(40) as usize;
            let wild = if rng.percent(50) {
                small
            } else {
                rng.number() as usize
            };
            let state = &mut self.state;
            match rng.below(26) {
                0 => state.count = wild,
                1 => state.mark = wild as u32,
                2 => *state = question(rng, state),
                3 => state.question = wild as u32,
                4 => state.id = wild,
                5 => state.start = wild,
                6 => state.n = wild,
                7 => state.chunks = wild as u64,
                8 => state.bytes = wild as u64,
                9 => state.commit = wild as u32,
                10 => state.exclusive = wild as u32,
                11 => state.waiting = wild as u32,
                12 => state.commits = wild as u32,
                13 => state.cause = wild as u32,
                14 => state.force = wild as u32,
                15 => state.decommit = wild as u32,
                16 => state.purged = wild,
                17 => self.stamps[FENCE..]
                    .iter_mut()
                    .take(9)
                    .for_each(|s| *s = wild as u32),
                _ => self.damage_record(rng, wild),
            }
        }
    }

    fn damage_record(&mut self, rng: &mut Rng, wild: usize) {
        let (records, _) = self.lent();
        let count = records.len().clamp(1, 4) as u64;
        let Some(arena) = records.get_mut(rng.below(count) as usize) else {
            return;
        };
        let word = rng.below(32) as usize;
        let flip = 1 << rng.below(32);
        match rng.below(9) {
            0 => arena.base = wild as u64,
            1 => arena.base ^= 1 << rng.below(64),
            2 => arena.chunks = wild,
            3 => (arena.exclusive, arena.owned) = (any_flag(rng, 60), any_flag(rng, 60)),
            4 => arena.deadline = wild as u32,
            5 => arena.used[word] ^= flip,
            6 => arena.dirty[word] ^= flip,
            7 => arena.committed[word] ^= flip,
            _ => arena.pending[word] ^= flip,
        }
    }
}

/// A question of some kind, most often as a call would leave it.
fn question(rng: &mut Rng, state: &State) -> State {
    let bare = State {
        count: state.count,
        mark: state.mark,
        question: rng.below(5) as u32,
        ..State::EMPTY
    };
    let chunk = rng.below(6) as usize;
    let waits = match rng.below(2) {
        0 => bare,
        _ => State {
            waiting: 1,
            n: chunk,
            commits: rng.below(2) as u32,
            ..bare
        },
    };
    match bare.question {
        1 => State {
            id: rng.below(3) as usize,
            start: chunk,
            n: rng.below(4) as usize,
            ..bare
        },
        2 => State {
            id: rng.below(3) as usize,
            start: chunk,
            force: rng.below(2) as u32,
            now: rng.bits() as u32,
            delay: rng.number() as u32,
            decommit: rng.below(2) as u32,
            purged: rng.below(4) as usize,
            ..bare
        },
        3 => State {
            chunks: rng.number(),
            bytes: rng.number(),
            commit: rng.below(2) as u32,
            exclusive: rng.below(2) as u32,
            ..waits
        },
        4 => State {
            cause: rng.pick(&[7, 12, 13]),
            ..waits
        },
        _ => bare,
    }
}
