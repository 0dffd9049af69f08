//! Writes a sample of layer calls with the original's answers to the standard output, for a program
//! that has no Rust at hand to replay. Every call was made on both sides and compared (as by
//! `sequences`); the numbers of refusals are document 01's. The same seed gives the same sample.
//!
//! A negative delay (kind 1, its first bit set) is document 02's, which the original does not have: what a pending
//! release (kind a) and an unforced sweep (kind b) answer and leave then was compared with the runner's model of
//! that paper, and the original was given the release as not pending, and no sweep. All other lines are the
//! original's answers, whatever the delay.
//!
//! A line has 53 bytes, as in the sample of `record`: the kind as one hex digit, then two numbers
//! and the answer as 16 hex digits each, with a space between and a newline behind. A signed number
//! is its two's complement in 64 bits; flags are added up.
//!
//! | kind | numbers | answer |
//! |---|---|---|
//! | 0 | the layer is emptied: 0, 0 | 1 |
//! | 1 | the next calls carry: clock in ns, delay | 1 |
//! | 2 | the next calls carry: decommits 1, off 2, page × 256 modulo 2^64; default reserve | 1 |
//! | 3 | two more numbers of the next call | 1 |
//! | 4 | reserve_os_memory_ex: size; commit 1, allow_large 2, exclusive 4 | number |
//! | 5 | manage_os_memory_ex: start, size; more: node; is_committed 1, is_large 2, is_zero 4, exclusive 8, mapped 16, reserved 32 | number |
//! | 6 | adopt_os_block: address, size | number |
//! | 7 | chunk_alloc: id, 0 | number |
//! | 8 | chunk_claim: id, 0 | number |
//! | 9 | chunk_alloc_n: id, n | number |
//! | a | chunk_release: address, n; more: told (−1, 0, 1), pending | number |
//! | b | purge_due: force, 0 | number |
//! | c | answer: kind, yes 256; base | number |
//! | d | owns: 0, address; arena_area: 1, id | number |
//! | e | what the last call said: address, bytes | kind; fresh 2^8, committed 2^9, owns 2^10, decommit 2^11, commit 2^12, large 2^13; id × 2^16; count × 2^32 |
//! | f | hash of the state after the last call, 0 | 1 |
//!
//! A number is 0 (granted), 255 (a question) or a refusal. The hash starts at 2,166,136,261; each word w
//! makes it (h xor w) × 16,777,619 modulo 2^32. The words: number of arenas, give-up mark, kind of
//! the open question; for each arena the low and the high half of its base, chunks, exclusive 1 and
//! owned 2, node, deadline, the used, dirty, committed and pending words, its 1,024 stamps.

use compare_common::layer::draw::{turn, Player, Tried};
use compare_common::layer::pair::Pair;
use compare_common::layer::{Given, Moment, CHUNK, QUIET};
use compare_common::rng::Rng;
use compare_common::{args, SEED};
use sirqobal::lent::{Call, Reply};
use sirqobal::Layer;
use std::io::{self, Write};

fn main() -> io::Result<()> {
    let [seed, sequences, calls] = args::read(["--seed", "--sequences", "--calls"], [SEED, 40, 30]);
    let mut sample = Sample::default();
    sample.sequence(&full_table());
    sample.sequence(&never_purged());
    for n in 0..sequences {
        let made = agreed(&mut Rng::new(seed.wrapping_add(n)), calls);
        sample.sequence(&made);
    }
    io::stdout().lock().write_all(sample.text.as_bytes())
}

/// 32 arenas, and what is refused then; growth still goes on.
fn full_table() -> Vec<(Moment, Call)> {
    let adopt = |place: u64, size: u64| Call::AdoptOsBlock {
        address: place * CHUNK,
        size: size * CHUNK,
    };
    let mut calls: Vec<Call> = (1..=33).map(|n| adopt(3 * n, 1)).collect();
    calls.extend([
        adopt(4, 1),
        Call::ManageOsMemory {
            start: 1_000 * CHUNK,
            size: CHUNK,
            flags: [true; 3],
            node: -1,
            exclusive: false,
            mapped: false,
            reserved: true,
        },
        Call::ReserveOsMemory {
            size: 1,
            commit: true,
            allow_large: false,
            exclusive: true,
        },
        Call::ChunkAllocN { id: -1, n: 3 },
        Call::ChunkAllocN { id: -1, n: 2 },
    ]);
    let moment = Moment {
        reserve: CHUNK,
        ..QUIET
    };
    let calls: Vec<(Moment, Call)> = calls.into_iter().map(|call| (moment, call)).collect();
    compared(&calls, |_| QUIET)
}

/// Negative delays: a chunk that is pending already, others that do not become so, and sweeps at a deadline that
/// has come.
fn never_purged() -> Vec<(Moment, Call)> {
    let at = |ms: u64, delay: i64| Moment {
        ns: ms * 1_000_000,
        delay,
        ..QUIET
    };
    let release = |chunk: u64, n: usize, told: i32| Call::ChunkRelease {
        address: chunk * CHUNK,
        n,
        told,
        pending: true,
    };
    let sweep = |force: bool| Call::PurgeDue { force };
    let block = Call::AdoptOsBlock {
        address: 10 * CHUNK,
        size: 5 * CHUNK,
    };
    let calls = [
        (at(1, 5), block),
        (at(1, 5), Call::ChunkAllocN { id: 0, n: 5 }),
        (at(10, 5), release(10, 1, -1)),
        (at(11, -1), release(11, 1, -1)),
        (at(11, -2), release(12, 1, 0)),
        (at(11, i64::MIN), release(10, 3, 1)),
        (at(12, -1), release(13, 0, -1)),
        (at(12, -1), release(9, 1, -1)),
        (at(12, -1), release(13, 3, -1)),
        (at(30, -1), sweep(false)),
        (at(30, -2), sweep(false)),
        (at(30, i64::MIN), sweep(false)),
        (at(30, -1), sweep(true)),
        (at(31, 5), release(13, 1, -1)),
        (at(40, -1), sweep(false)),
        (at(40, 0), sweep(false)),
        (at(41, 0), release(14, 1, -1)),
        (at(41, 0), sweep(false)),
    ];
    // Answers carry a delay of the other kind, which decides nothing.
    compared(&calls, |moment| match moment.delay {
        ..0 => at(50, 5),
        _ => at(50, -1),
    })
}

/// These calls from the empty layer, on which both sides agree. Questions are answered yes, with what `answers`
/// says for the call.
fn compared(calls: &[(Moment, Call)], answers: impl Fn(&Moment) -> Moment) -> Vec<(Moment, Call)> {
    let mut pair = Pair::holding(&Layer::new());
    let mut made = Vec::new();
    for (moment, call) in calls {
        let yes = Given {
            before: Vec::new(),
            moment: answers(moment),
            answer: Some(2_000 * CHUNK),
        };
        let mut source = vec![yes; 2].into_iter();
        let agreed = pair.call(*moment, *call, &mut source);
        made.extend(agreed.expect("no difference").made);
    }
    made
}

/// A random sequence from the empty layer, on which both sides agree.
fn agreed(rng: &mut Rng, calls: u64) -> Vec<(Moment, Call)> {
    let mut player = Player::new(rng);
    let mut pair = Pair::holding(&Layer::new());
    let mut made = Vec::new();
    for _ in 0..calls {
        let (_, agreed) = turn(&mut player, rng, &mut pair, Tried::default());
        made.extend(agreed.expect("no difference").made);
    }
    made
}

#[derive(Default)]
struct Sample {
    text: String,
    carried: Option<Moment>,
}

impl Sample {
    fn line(&mut self, kind: u8, a: u64, b: u64, answer: u64) {
        self.text += &format!("{kind:x} {a:016x} {b:016x} {answer:016x}\n");
    }

    /// Makes the calls on an empty layer and writes down what comes of them.
    fn sequence(&mut self, made: &[(Moment, Call)]) {
        let mut layer = Layer::new();
        self.line(0, 0, 0, 1);
        for (moment, call) in made {
            self.carry(*moment);
            let reply = layer.call(*moment, *call);
            self.call(*call, reply.number.into());
            self.said(&reply);
            self.line(0xf, hash(&layer).into(), 0, 1);
        }
    }

    fn carry(&mut self, moment: Moment) {
        let last = self.carried.replace(moment);
        if last.is_none_or(|last| (last.ns, last.delay) != (moment.ns, moment.delay)) {
            self.line(1, moment.ns, moment.delay as u64, 1);
        }
        let settings = |m: Moment| {
            let flags = u64::from(m.decommits) + 2 * u64::from(m.off);
            (flags.wrapping_add(m.page << 8), m.reserve)
        };
        if last.is_none_or(|last| settings(last) != settings(moment)) {
            let (flags, reserve) = settings(moment);
            self.line(2, flags, reserve, 1);
        }
    }

    fn call(&mut self, call: Call, number: u64) {
        let wide = |id: i32| i64::from(id) as u64;
        let (kind, a, b) = match call {
            Call::ReserveOsMemory {
                size,
                commit,
                allow_large,
                exclusive,
            } => (4, size, flags(&[commit, allow_large, exclusive])),
            Call::ManageOsMemory {
                start,
                size,
                flags: [is_committed, is_large, is_zero],
                node,
                exclusive,
                mapped,
                reserved,
            } => {
                let all = [is_committed, is_large, is_zero, exclusive, mapped, reserved];
                self.line(3, wide(node), flags(&all), 1);
                (5, start, size)
            }
            Call::AdoptOsBlock { address, size } => (6, address, size),
            Call::ChunkAlloc { id } => (7, wide(id), 0),
            Call::ChunkClaim { id } => (8, wide(id), 0),
            Call::ChunkAllocN { id, n } => (9, wide(id), n as u64),
            Call::ChunkRelease {
                address,
                n,
                told,
                pending,
            } => {
                self.line(3, wide(told.signum()), pending.into(), 1);
                (0xa, address, n as u64)
            }
            Call::PurgeDue { force } => (0xb, force.into(), 0),
            Call::Answer { kind, yes, base } => (0xc, u64::from(kind) + 256 * u64::from(yes), base),
            Call::Owns { address } => (0xd, 0, address),
            Call::ArenaArea { id } => (0xd, 1, wide(id)),
        };
        self.line(kind, a, b, number);
    }

    fn said(&mut self, reply: &Reply) {
        let bits = [
            reply.fresh,
            reply.committed,
            reply.owns,
            reply.decommit,
            reply.commit,
            reply.large,
        ];
        let numbers = (reply.id as u64) << 16 | (reply.count as u64) << 32;
        let said = u64::from(reply.kind) | flags(&bits) << 8 | numbers;
        self.line(0xe, reply.address, reply.bytes, said);
    }
}

fn flags(bits: &[bool]) -> u64 {
    let places = bits.iter().enumerate();
    places.map(|(place, bit)| u64::from(*bit) << place).sum()
}

fn hash(layer: &Layer) -> u32 {
    let state = layer.state();
    let mut words = vec![state.count as u32, state.mark, state.question];
    let stamps = layer.stamps().chunks(1_024);
    for (arena, stamps) in layer.records().iter().zip(stamps).take(state.count) {
        words.extend([arena.base as u32, (arena.base >> 32) as u32]);
        let owner = flags(&[arena.is_exclusive(), arena.is_owned()]) as u32;
        words.extend([
            arena.chunks as u32,
            owner,
            arena.node as u32,
            arena.deadline,
        ]);
        let maps = [&arena.used, &arena.dirty, &arena.committed, &arena.pending];
        words.extend(maps.into_iter().flatten());
        words.extend(stamps);
    }
    let step = |h: u32, w: &u32| (h ^ w).wrapping_mul(16_777_619);
    words.iter().fold(2_166_136_261, step)
}
