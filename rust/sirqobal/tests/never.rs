//! A negative purge delay means never: what a pending release and a sweep then do, and leave, on a
//! layer and over real memory.

use sirqobal::lent::{Arena, Call, State, QUESTION};
use sirqobal::{delay_ms, Layer, Moment, NotDone, Outcome, Question, CHUNK, NEVER};

const BASE: u64 = 1 << 30;

const NEGATIVE: [i64; 4] = [NEVER, -2, -1_073_741_824, i64::MIN];

/// This many milliseconds on the clock, with this delay.
fn at(ms: u64, delay: i64) -> Moment {
    Moment {
        ns: ms * 1_000_000,
        delay,
        ..Moment::default()
    }
}

fn same(a: &Layer, b: &Layer) -> bool {
    a.records() == b.records()
        && a.stamps() == b.stamps()
        && a.state() == b.state()
        && a.asked() == b.asked()
}

/// What a sweep of `pending_and_due` asks about.
const ASKED: [u64; 4] = [
    BASE + CHUNK,
    BASE + 2 * CHUNK,
    4 * BASE + CHUNK,
    4 * BASE + 2 * CHUNK,
];

/// Two arenas of 4 chunks, both due at 11: the first chunk is pending and held again, two are
/// pending, the last is held.
fn pending_and_due() -> Layer {
    let mut layer = Layer::new();
    for (id, base) in [(0, BASE), (1, 4 * BASE)] {
        layer.adopt_os_block(at(1, 10), base, 4 * CHUNK).unwrap();
        layer.chunk_alloc_n(at(1, 10), id, 4).done().unwrap();
        layer.chunk_release(at(1, 10), base, 3, None, true).unwrap();
        layer.chunk_alloc(at(1, 10), id).done().unwrap();
        let arena = &layer.records()[id as usize];
        assert_eq!(
            (arena.used[0], arena.pending[0], arena.deadline),
            (0b1001, 0b0111, 11)
        );
    }
    layer
}

/// The questions of a sweep, each answered yes with this moment, and its count.
fn swept(layer: &mut Layer, moment: Moment, answers: Moment) -> (Vec<(u64, State)>, usize) {
    let mut asked = Vec::new();
    let mut reply = layer.call(moment, Call::PurgeDue { force: true });
    while reply.number == QUESTION {
        asked.push((reply.address, reply.state));
        let (kind, yes, base) = (reply.kind, true, 0);
        reply = layer.call(answers, Call::Answer { kind, yes, base });
    }
    assert_eq!(reply.number, 0);
    (asked, reply.count)
}

#[test]
fn it_counts_as_0_milliseconds() {
    assert!(NEGATIVE.iter().all(|delay| delay_ms(*delay) == 0));
}

/// What is left of an arena by a release that is not pending, of n chunks from this one on.
fn after_release(arena: &Arena, first: usize, n: usize, told: Option<bool>) -> Arena {
    let run = ((1 << n) - 1) << first;
    let mut after = *arena;
    after.used[0] &= !run;
    match told {
        None => {}
        Some(false) => after.committed[0] &= !run,
        Some(true) => after.committed[0] |= run,
    }
    after
}

/// Releases n chunks of the second arena from this one on, pending and not: both leave the same.
fn release_twice(now: Moment, first: usize, n: usize, told: Option<bool>) {
    let before = pending_and_due();
    let (mut pending, mut not) = (before.clone(), before.clone());
    let address = 4 * BASE + first as u64 * CHUNK;
    assert_eq!(pending.chunk_release(now, address, n, told, true), Ok(()));
    assert_eq!(not.chunk_release(now, address, n, told, false), Ok(()));
    assert!(same(&pending, &not), "{now:?} {first} {n} {told:?}");
    let after = after_release(&before.records()[1], first, n, told);
    assert_eq!(pending.records()[1], after);
    assert_eq!(pending.records()[0], before.records()[0]);
    assert_eq!(pending.stamps(), before.stamps());
}

/// Of what is held or not, pending before or not, whatever is told of commitment.
#[test]
fn a_pending_release_is_one_that_is_not() {
    for now in NEGATIVE.map(|delay| at(100, delay)) {
        for told in [None, Some(false), Some(true)] {
            for (first, n) in [(0, 1), (1, 2), (3, 1), (0, 4)] {
                release_twice(now, first, n, told);
            }
        }
    }
}

#[test]
fn nothing_is_armed_from_nothing() {
    for delay in NEGATIVE {
        let mut layer = Layer::new();
        let now = at(7, delay);
        layer.adopt_os_block(now, BASE, 4 * CHUNK).unwrap();
        let before = layer.clone();
        assert_eq!(layer.chunk_release(now, BASE, 4, None, true), Ok(()));
        assert_eq!(layer.purge_due(now, false).done(), Ok(0));
        assert_eq!(layer.purge_due(now, true).done(), Ok(0));
        assert!(same(&layer, &before));
    }
}

/// Before the deadline, at it, after it and a quarter of the clock's round later.
#[test]
fn a_sweep_changes_nothing() {
    for delay in NEGATIVE {
        for ms in [1, 11, 12, 1_073_741_834] {
            let mut layer = pending_and_due();
            let before = layer.clone();
            assert_eq!(layer.purge_due(at(ms, delay), false).done(), Ok(0));
            assert!(same(&layer, &before), "{delay} at {ms}");
        }
    }
    // With a delay again, what was pending is purged.
    let mut layer = pending_and_due();
    layer.purge_due(at(100, NEVER), false).done().unwrap();
    let asks = layer.purge_due(at(100, 10), false).done();
    assert!(matches!(asks, Err(NotDone::Asks(_))));
}

#[test]
fn a_forced_sweep_is_one_with_delay_0() {
    for delay in NEGATIVE {
        for ms in [1, 11, 100] {
            let (mut never, mut at_once) = (pending_and_due(), pending_and_due());
            let questions = swept(&mut never, at(ms, delay), at(ms, delay));
            assert_eq!(questions, swept(&mut at_once, at(ms, 0), at(ms, 0)));
            assert!(same(&never, &at_once));
            let (asked, purged) = questions;
            let addresses: Vec<_> = asked.iter().map(|(address, _)| *address).collect();
            assert_eq!(addresses, ASKED);
            assert!(asked.iter().all(|(_, state)| state.delay == 0));
            assert_eq!(purged, 4);
        }
    }
}

/// The call that begins a sweep decides, not its answers.
#[test]
fn answers_bring_no_delay() {
    let mut expected = pending_and_due();
    let questions = swept(&mut expected, at(5, NEVER), at(5, NEVER));
    for delay in [0, 10, i64::MAX] {
        let mut layer = pending_and_due();
        let ended = swept(&mut layer, at(5, NEVER), at(6, delay));
        assert_eq!(ended, questions);
        assert!(same(&layer, &expected));
    }
}

#[test]
fn a_sweep_goes_on_though_the_delay_has_become_negative() {
    for delay in NEGATIVE {
        let mut layer = pending_and_due();
        let mut outcome = layer.purge_due(at(11, 10), false);
        for expected in ASKED {
            let Outcome::Asks(Question::Purge(purge)) = outcome else {
                panic!("it asks about {expected:#x}");
            };
            assert_eq!(purge.address(), expected);
            outcome = purge.answer(at(12, delay), true).unwrap();
        }
        assert_eq!(outcome.done(), Ok(4));
    }
}

fn pending_release(address: u64, n: usize) -> Call {
    Call::ChunkRelease {
        address,
        n,
        told: 0,
        pending: true,
    }
}

/// The call is refused with this number, and leaves all.
#[track_caller]
fn refused(layer: &mut Layer, moment: Moment, call: Call, number: u32) {
    let before = layer.clone();
    assert_eq!(layer.call(moment, call).number, number);
    assert!(same(layer, &before), "{call:?}");
}

#[test]
fn refusals_come_first() {
    let sweeps = [false, true].map(|force| Call::PurgeDue { force });
    for delay in NEGATIVE {
        let now = at(100, delay);
        let no_page = Moment { page: 5_000, ..now };
        let mut layer = pending_and_due();
        for call in [sweeps[0], sweeps[1], pending_release(BASE, 0)] {
            refused(&mut layer, no_page, call, 1);
        }
        refused(&mut layer, now, pending_release(BASE - 1, 0), 4);
        refused(&mut layer, now, pending_release(BASE - 1, 9), 8);
        refused(&mut layer, now, pending_release(BASE + 1, 9), 7);
        refused(&mut layer, now, pending_release(BASE + CHUNK, 4), 9);
        drop(layer.purge_due(now, true));
        for call in [sweeps[0], sweeps[1], pending_release(BASE, 0)] {
            refused(&mut layer, no_page, call, 1);
            refused(&mut layer, now, call, 2);
        }
    }
}

/// 0 is no never: what is released is due at once.
#[test]
fn a_delay_of_0_purges_at_once() {
    let mut layer = Layer::new();
    layer.adopt_os_block(at(7, 0), BASE, CHUNK).unwrap();
    layer.chunk_release(at(7, 0), BASE, 1, None, true).unwrap();
    let outcome = layer.purge_due(at(7, 0), false);
    let Outcome::Asks(Question::Purge(purge)) = outcome else {
        panic!("it asks");
    };
    assert_eq!(purge.address(), BASE);
    assert_eq!(purge.answer(at(7, 0), true).unwrap().done(), Ok(1));
}

#[cfg(all(feature = "linux", target_os = "linux"))]
mod real_memory {
    use super::NEGATIVE;
    use sirqobal::linux::{Error, Memory};
    use sirqobal::{CHUNK, NEVER};
    use std::fs;

    /// Whether this address may be read and written, as the system says.
    fn is_open(address: u64) -> bool {
        let maps = fs::read_to_string("/proc/self/maps").unwrap();
        maps.lines().any(|line| {
            let (range, rest) = line.split_once(' ').unwrap();
            let (start, end) = range.split_once('-').unwrap();
            let [start, end] = [start, end].map(|number| u64::from_str_radix(number, 16).unwrap());
            (start..end).contains(&address) && rest.starts_with("rw")
        })
    }

    #[test]
    fn what_is_released_stays() -> Result<(), Error> {
        for delay in NEGATIVE {
            let mut memory = Memory::new();
            memory.options_mut().delay = delay;
            let id = memory.reserve(3 * CHUNK, true)?;
            let mut ring = memory.claim(id, 2)?;
            let address = ring.address();
            ring.fill(7);
            memory.release(ring)?;
            assert_eq!((memory.sweep(false)?, memory.sweep(true)?), (0, 0));
            assert!(is_open(address) && is_open(address + 2 * CHUNK - 1));
            assert!(!is_open(address + 2 * CHUNK)); // never claimed, never committed
            let ring = memory.claim(id, 2)?;
            assert_eq!(ring.address(), address);
            assert!(!ring.is_fresh() && ring.iter().all(|byte| *byte == 7));
        }
        Ok(())
    }

    #[test]
    fn what_was_released_before_goes_by_force_alone() -> Result<(), Error> {
        let mut memory = Memory::new();
        memory.options_mut().delay = 0;
        let id = memory.reserve(2 * CHUNK, true)?;
        let (mut older, mut newer) = (memory.claim(id, 1)?, memory.claim(id, 1)?);
        let (first, second) = (older.address(), newer.address());
        older.fill(1);
        newer.fill(2);
        memory.release(older)?;
        memory.options_mut().delay = NEVER;
        memory.release(newer)?;
        assert_eq!(memory.sweep(false)?, 0);
        assert!(is_open(first) && is_open(second));
        assert_eq!(memory.sweep(true)?, 1);
        assert!(!is_open(first) && is_open(second));
        let both = memory.claim(id, 2)?;
        let half = CHUNK as usize;
        assert!(both[..half].iter().all(|byte| *byte == 0));
        assert!(both[half..].iter().all(|byte| *byte == 2));
        Ok(())
    }

    /// A chunk that was pending and is claimed again is never purged while it is held; released
    /// with a negative delay it is as pending as it was.
    #[test]
    fn an_older_mark_stays() -> Result<(), Error> {
        let mut memory = Memory::new();
        let id = memory.reserve(CHUNK, true)?;
        let ring = memory.claim(id, 1)?;
        memory.release(ring)?;
        memory.options_mut().delay = NEVER;
        let mut ring = memory.claim(id, 1)?;
        ring.fill(3);
        let record = memory.layer().records()[0];
        assert!(record.pending[0] == 1 && record.deadline != 0);
        memory.release(ring)?;
        let after = memory.layer().records()[0];
        assert_eq!((after.pending[0], after.deadline), (1, record.deadline));
        assert_eq!((memory.sweep(false)?, memory.sweep(true)?), (0, 1));
        assert!(memory.claim(id, 1)?.iter().all(|byte| *byte == 0));
        Ok(())
    }
}
