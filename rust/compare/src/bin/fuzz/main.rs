//! Lends random and damaged tables, states and numbers to every exported function. Nothing may
//! crash; what lies around the lent slices stays; refusal 1 comes exactly where document 01 says
//! and leaves every byte; other refusals leave what they should; sound tables stay sound; a
//! record's flag, which may be any number, is on unless it is 0. A join, a list, and a call with a
//! negative delay, does what document 02 says, whatever the tables are; the lists' slices end, or
//! begin, where no memory is.
//!
//! Run it under valgrind by
//! `cargo build --release --bin fuzz && valgrind --error-exitcode=1 target/release/fuzz --calls 3000`.

mod fenced;
mod join;
mod list;
mod never;
mod pages;
mod wild;

use compare_common::functions::FUNCTIONS;
use compare_common::layer::draw::Player;
use compare_common::layer::pair::claims;
use compare_common::layer::plain;
use compare_common::layer::CHUNK;
use compare_common::rng::Rng;
use compare_common::{args, by_number, NUMBERS, SEED};
use fenced::{Table, FENCE};
use sirqobal::lent::{self, Arena, Call, Reply, QUESTION};
use sirqobal::{alloc_run_in, free_range_in, Refusal, WORDS};
use std::hint::black_box;
use std::process::ExitCode;
use wild::{wild_call, wild_settings};

fn main() -> ExitCode {
    let [seed, calls] = args::read(["--seed", "--calls"], [SEED, 200_000]);
    println!("seed {seed}");
    let mut rng = Rng::new(seed);
    let mut join_rng = Rng::new(seed);
    let mut list_rng = Rng::new(seed);
    let mut fuzz = Fuzz::default();
    for n in 0..calls {
        fuzz.layer(&mut rng);
        if n % 8 == 0 {
            fuzz.pool(&mut rng);
            fuzz.join(&mut join_rng);
            fuzz.list(&mut list_rng);
        }
        fuzz.numbers(&mut rng);
    }
    println!("layer calls by number: {}", by_number(&fuzz.numbers));
    println!("layer calls that asked: {}", fuzz.asked);
    println!("layer calls with a flag above 1: {}", fuzz.above_one);
    fuzz.never.print();
    println!("joins by number: {}", by_number(&fuzz.joins));
    fuzz.lists.print();
    println!(
        "fuzzed: {} layer calls, {} joins, {} lists, {} pool calls, {} calls on numbers, {} faults",
        fuzz.asked + fuzz.numbers.iter().sum::<u64>(),
        fuzz.joins.iter().sum::<u64>(),
        fuzz.lists.made(),
        fuzz.pool_calls,
        fuzz.number_calls,
        fuzz.faults
    );
    ExitCode::from(u8::from(fuzz.faults != 0))
}

#[derive(Default)]
struct Fuzz {
    table: Option<Table>,
    numbers: [u64; 17],
    asked: u64,
    /// Calls that row 1 let pass, on tables in which an arena that stands has such a flag.
    above_one: u64,
    never: never::Counts,
    /// Two sound tables without a question, for the next join.
    both: Option<[plain::Table; 2]>,
    joins: [u64; NUMBERS],
    lists: list::Slices,
    pool_calls: u64,
    number_calls: u64,
    faults: u64,
}

impl Fuzz {
    fn fault(&mut self, tell: String) {
        self.faults += 1;
        if self.faults <= 10 {
            println!("FAULT {tell}");
        }
    }

    /// One layer call, on the table of the last one or on another.
    fn layer(&mut self, rng: &mut Rng) {
        let player = Player::new(rng);
        let mut table = match self.table.take() {
            Some(table) if rng.percent(90) => table,
            _ => Table::any(rng, &player),
        };
        if rng.percent(20) {
            table.damage(rng);
        }
        let call = match rng.below(3) {
            0 => wild_call(rng),
            1 if table.state.question != 0 => Call::Answer {
                kind: table.state.question,
                yes: rng.percent(50),
                base: rng.number() << rng.below(40),
            },
            _ => player.any_call(rng, &table.layer()),
        };
        let (ns, settings) = wild_settings(rng, &player);
        let before = table.clone();
        let (records, stamps) = table.lent();
        let reply = lent::call(records, stamps, before.state, ns, settings, call);
        table.state = reply.state;
        if let Err(what) = judge(&before, &table, settings.page, call, &reply) {
            self.fault(format!("{what}: {call:?} on {:?}: {reply:?}", before.state));
        }
        self.never([&before, &table], &settings, call, &reply);
        let above = |arena: &Arena| arena.exclusive > 1 || arena.owned > 1;
        let sound = reply.number != 1;
        self.above_one += u64::from(sound && before.arenas().iter().any(above));
        match reply.number {
            QUESTION => self.asked += 1,
            number => self.numbers[(number as usize).min(16)] += 1,
        }
        // A broken table is good for one call.
        self.table = (reply.number != 1).then_some(table);
    }

    fn pool(&mut self, rng: &mut Rng) {
        let len = match rng.below(4) {
            0 => rng.below(5_000) as usize,
            _ => WORDS,
        };
        let mut words: Vec<u32> = (0..len + 2 * FENCE).map(|_| rng.bits() as u32).collect();
        let before = words.clone();
        let lent = &mut words[FENCE..FENCE + len];
        let answer = match rng.below(2) {
            0 => alloc_run_in(lent, rng.number()).map(|_| ()),
            _ => free_range_in(lent, rng.number() << 16, rng.number() << rng.below(32)),
        };
        self.pool_calls += 1;
        let fences = [0..FENCE, FENCE + len..len + 2 * FENCE];
        let kept = |range: &std::ops::Range<usize>| words[range.clone()] == before[range.clone()];
        if !fences.iter().all(kept) {
            self.fault("the pool wrote beside its words".into());
        }
        if answer.is_err() && words != before {
            self.fault(format!("the pool refused with {answer:?} and wrote"));
        }
        if (answer == Err(Refusal::Broken)) != (len != WORDS) {
            self.fault(format!("{len} words: {answer:?}"));
        }
    }

    fn numbers(&mut self, rng: &mut Rng) {
        for function in &FUNCTIONS {
            black_box((function.ours)(rng.number(), rng.number()));
            self.number_calls += 1;
        }
    }
}

/// What document 01 promises of every call on every table.
fn judge(
    before: &Table,
    after: &Table,
    page: u64,
    call: Call,
    reply: &Reply,
) -> Result<(), &'static str> {
    let number = reply.number;
    let bare = Reply {
        number,
        state: reply.state,
        ..Reply::default()
    };
    let answered = matches!(call, Call::Answer { .. });
    let kept = before == after;
    let mut marked = before.clone();
    marked.state.mark = 1;
    if number > 16 && number != QUESTION {
        return Err("no such number");
    }
    if (number == 1) != before.is_broken(page) {
        return Err("row 1");
    }
    if number != 1 && after.is_broken(page) {
        return Err("a sound table was broken");
    }
    if before.fences() != after.fences() {
        return Err("written beside the slices");
    }
    flags(before, after, call, reply)?;
    match number {
        0 | QUESTION => return Ok(()),
        _ if *reply != bare => return Err("a refusal says more than its number"),
        1..=3 | 6 if !kept => return Err("1, 2, 3 or 6 changed something"),
        10 if !answered && !kept && *after != marked => {
            return Err("10 changed more than the mark")
        }
        10 | 11 => return Ok(()),
        _ if !answered && !kept => return Err("a refusal changed something"),
        _ => {}
    }
    Ok(())
}

/// A record's flag is on unless it is 0: no claim with a negative id gets a run of an exclusive arena,
/// and what grows is owned and not exclusive. Registering writes 0 or 1, and nothing else a flag.
fn flags(before: &Table, after: &Table, call: Call, reply: &Reply) -> Result<(), &'static str> {
    if reply.number == 1 {
        return Ok(());
    }
    let (was, is) = (before.arenas(), after.arenas());
    let kept = |(id, arena): (usize, &Arena)| match was.get(id) {
        Some(old) => (arena.exclusive, arena.owned) == (old.exclusive, old.owned),
        None => arena.exclusive <= 1 && arena.owned <= 1,
    };
    if !is.iter().enumerate().all(kept) {
        return Err("a flag was written, or is not 0 or 1");
    }
    let inside = |arena: &&Arena| {
        let from = reply.address.wrapping_sub(arena.base);
        from / CHUNK < arena.chunks as u64
    };
    let shared_claim = matches!(claims(&call), Some((..=-1, _)));
    let granted = reply.number == 0 || reply.number == QUESTION && reply.kind == 1;
    if shared_claim && granted && is.iter().find(inside).is_none_or(Arena::is_exclusive) {
        return Err("a claim with a negative id got a run of an exclusive arena");
    }
    let adopts = matches!(call, Call::AdoptOsBlock { .. });
    if adopts && reply.number == 0 && was.len() == is.len() {
        let grown = &is[reply.id];
        if grown.is_exclusive() || !grown.is_owned() {
            return Err("an arena grew that is exclusive or not owned");
        }
    }
    Ok(())
}
