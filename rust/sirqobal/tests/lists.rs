//! A list of releases: it leaves what its items leave one by one, and has their answers in their
//! order; what turns it down as a whole leaves everything. Over lent lists, on a layer and over
//! real memory.

use sirqobal::lent::{chunk_release_list, Arena, Items, Settings, State, Table, LIST};
use sirqobal::{arm, Layer, Moment, Open, Outcome, Question, Refusal, Span, CHUNK, NEVER};

const BASE: u64 = 1 << 30;

/// The base of an arena of 1,024 chunks that ends a chunk before the last address.
const TOP: u64 = 0u64.wrapping_sub(1_025 * CHUNK);

const DELAYS: [i64; 5] = [10, 0, i64::MAX, NEVER, i64::MIN];

/// This many milliseconds on the clock, with this delay.
fn at(ms: u64, delay: i64) -> Moment {
    Moment {
        ns: ms * 1_000_000,
        delay,
        ..Moment::default()
    }
}

fn span(address: u64, n: u32) -> Span {
    Span { address, n }
}

fn same(a: &Layer, b: &Layer) -> bool {
    a.records() == b.records()
        && a.stamps() == b.stamps()
        && a.state() == b.state()
        && a.asked() == b.asked()
}

/// Arenas of 40, 4 and 1,024 chunks. All of the first two is held but the second chunk, which is
/// pending since 1.
fn busy() -> Layer {
    let mut layer = Layer::new();
    for (id, base, chunks) in [(0, BASE, 40), (1, 8 * BASE, 4), (2, TOP, 1_024)] {
        let adopted = layer.adopt_os_block(at(1, 10), base, chunks * CHUNK);
        assert_eq!(adopted, Ok(id));
    }
    layer.chunk_alloc_n(at(1, 10), 0, 40).done().unwrap();
    layer.chunk_alloc_n(at(1, 10), 1, 4).done().unwrap();
    layer
        .chunk_release(at(1, 10), BASE + CHUNK, 1, None, true)
        .unwrap();
    layer
}

/// The same as single releases, which tell nothing of commitment.
fn one_by_one(
    layer: &mut Layer,
    moment: Moment,
    spans: &[Span],
    pending: bool,
) -> Vec<Result<(), Refusal>> {
    let single = |span: &Span| {
        let n = span.n as usize;
        layer.chunk_release(moment, span.address, n, None, pending)
    };
    spans.iter().map(single).collect()
}

/// Releases the spans by one list, and answers as each was answered; it is as if one by one.
#[track_caller]
fn by_list(
    layer: &mut Layer,
    moment: Moment,
    spans: &[Span],
    pending: bool,
) -> Vec<Result<(), Refusal>> {
    let mut single = layer.clone();
    let answers = layer.chunk_release_list(moment, spans, pending).unwrap();
    assert_eq!(answers, one_by_one(&mut single, moment, spans, pending));
    assert!(same(layer, &single), "{moment:?} {spans:?} {pending}");
    answers
}

/// Numbers below a bound, each drawn from the one before.
struct Random(u64);

impl Random {
    fn below(&mut self, bound: u64) -> u64 {
        self.0 = self
            .0
            .wrapping_mul(6_364_136_223_846_793_005)
            .wrapping_add(1_442_695_040_888_963_407);
        (self.0 >> 33) % bound
    }

    /// At, about and past the ends of the arenas; zeros, ones and anything.
    fn span(&mut self) -> Span {
        let chunk = match self.below(3) {
            0 => BASE + self.below(41) * CHUNK,
            1 => 8 * BASE + self.below(5) * CHUNK,
            _ => TOP + self.below(1_025) * CHUNK,
        };
        let address = match self.below(10) {
            0 => [0, 1, BASE - 1, BASE - CHUNK, u64::MAX][self.below(5) as usize],
            1 => chunk + self.below(CHUNK),
            2 => self.below(1 << 31) << self.below(34),
            _ => chunk,
        };
        let n = match self.below(5) {
            0 => [0, 31, 32, 33, 1_024, 1_025, u32::MAX][self.below(7) as usize],
            _ => 1 + self.below(6) as u32,
        };
        span(address, n)
    }
}

#[test]
fn a_list_is_its_items_one_by_one() {
    let mut random = Random(20_261_117);
    let mut seen = [0; 20];
    for round in 0..400 {
        let mut layer = busy();
        for step in 0..4 {
            let moment = at(5 + round + 20 * step, DELAYS[random.below(5) as usize]);
            let spans: Vec<_> = (0..random.below(50)).map(|_| random.span()).collect();
            let pending = random.below(3) != 0;
            for answer in by_list(&mut layer, moment, &spans, pending) {
                seen[answer.map_or_else(|refusal| refusal.number() as usize, |()| 0)] += 1;
            }
            // The next list finds other chunks held; the claim may find no run.
            let _ = layer.chunk_alloc_n(moment, 2, 100).done();
            let _ = layer.chunk_alloc_n(moment, 0, 7).done();
        }
    }
    assert!([0, 4, 7, 8, 9].iter().all(|number| seen[*number] > 1_000));
    assert_eq!(seen.iter().filter(|count| **count > 0).count(), 5);
}

/// Repeated and overlapping items, of several arenas; a refused one does not stop the others.
#[test]
fn each_item_finds_what_the_earlier_ones_left() {
    let spans = [
        span(BASE, 2),
        span(BASE, 2),
        span(BASE + 40 * CHUNK, 1),
        span(BASE + CHUNK, 3),
        span(8 * BASE + CHUNK, 4),
        span(8 * BASE + 1, 1),
        span(8 * BASE, 0),
        span(8 * BASE + 3 * CHUNK, 1),
    ];
    let mut layer = busy();
    let before = layer.clone();
    let answers = by_list(&mut layer, at(7, 10), &spans, true);
    assert_eq!(
        answers,
        [
            Ok(()),
            Ok(()),
            Err(Refusal::NotInside),
            Ok(()),
            Err(Refusal::PastEnd),
            Err(Refusal::NotWhole),
            Err(Refusal::Zero),
            Ok(()),
        ]
    );
    let mut records = *before.records();
    (records[0].used[0], records[0].pending[0]) = (!0b1111, 0b1111);
    (records[1].used[0], records[1].pending[0]) = (0b0111, 0b1000);
    records[0].deadline = arm(11, 17); // three times
    records[1].deadline = 17;
    assert_eq!(layer.records(), &records);
    let mut stamps = *before.stamps();
    stamps[..4].fill(7);
    stamps[1_024 + 3] = 7;
    assert_eq!(layer.stamps(), &stamps);
}

/// Committed chunks stay so, and chunks that are not.
#[test]
fn nothing_is_told_of_commitment() {
    let (mut records, stamps) = (*busy().records(), *busy().stamps());
    records[0].committed[0] = 0x5555_5555;
    for pending in [false, true] {
        let mut layer = Layer::from_table(&records, &stamps, busy().state());
        let spans = [span(BASE, 16), span(BASE + 8 * CHUNK, 32)];
        assert_eq!(by_list(&mut layer, at(7, 10), &spans, pending), [Ok(()); 2]);
        assert_eq!(layer.records()[0].committed, records[0].committed);
        assert_eq!(layer.records()[0].used, [0; 32]);
    }
}

#[test]
fn a_pending_list_with_a_negative_delay_is_one_that_is_not() {
    let spans = [span(BASE, 3), span(TOP, 9), span(BASE + CHUNK, 4)];
    for delay in [NEVER, -2, i64::MIN] {
        let (mut pending, mut not) = (busy(), busy());
        by_list(&mut pending, at(7, delay), &spans, true);
        by_list(&mut not, at(7, delay), &spans, false);
        assert!(same(&pending, &not));
        assert_eq!(pending.records()[0].pending[0], 0b0010);
        assert_eq!(pending.stamps(), busy().stamps());
    }
}

#[test]
fn an_empty_list_changes_nothing() {
    for delay in DELAYS {
        for pending in [false, true] {
            let mut layer = busy();
            assert_eq!(by_list(&mut layer, at(100, delay), &[], pending), []);
            assert!(same(&layer, &busy()));
        }
    }
}

/// The call with lists of these lengths: its number, and whether the answers are as they were lent.
fn lengths(layer: &mut Layer, moment: Moment, [a, c, n]: [usize; 3]) -> (u32, bool) {
    let (addresses, counts, mut answers) = (vec![BASE; a], vec![1; c], vec![99; n]);
    let items = Items {
        addresses: &addresses,
        counts: &counts,
        answers: &mut answers,
    };
    let reply = layer.call_list(moment, items, true);
    (reply.number, answers.iter().all(|answer| *answer == 99))
}

/// Every way to be refused with 19, then with what comes before it.
#[test]
fn a_list_refused_as_a_whole_leaves_everything() {
    let now = at(7, 10);
    let no_page = Moment { page: 5_000, ..now };
    let mut asking = busy();
    drop(asking.purge_due(now, true));
    let wrong = [
        [0, 0, 1],
        [0, 1, 0],
        [1, 0, 0],
        [2, 2, 1],
        [2, 1, 2],
        [1, 2, 2],
        [LIST, LIST, LIST - 1],
        [LIST, LIST + 1, LIST],
        [LIST + 1, LIST, LIST],
        [LIST + 1; 3],
    ];
    for (layer, moment, number) in [
        (busy(), now, 19),
        (busy(), no_page, 1),
        (asking.clone(), now, 2),
        (asking.clone(), no_page, 1),
        (broken(), now, 1),
    ] {
        let fitting: &[[usize; 3]] = if number == 19 { &[] } else { &[[0; 3], [1; 3]] };
        for case in wrong.iter().chain(fitting) {
            let mut left = layer.clone();
            assert_eq!(
                lengths(&mut left, moment, *case),
                (number, true),
                "{case:?}"
            );
            assert!(same(&left, &layer));
        }
    }
}

/// A table of other lengths is refused with 1, whatever the lists are.
#[test]
fn the_table_comes_before_the_lists() {
    let layer = busy();
    for (records, stamps) in [
        (31, 32_768),
        (33, 32_768),
        (32, 32_767),
        (32, 32_769),
        (0, 0),
    ] {
        for answers in [0, 1, LIST + 1] {
            let mut lent = (layer.records().to_vec(), layer.stamps().to_vec());
            lent.0.resize(records, Arena::EMPTY);
            lent.1.resize(stamps, 5);
            let (before, mut answers) = (lent.clone(), vec![99; answers]);
            let table = Table {
                records: &mut lent.0,
                stamps: &mut lent.1,
                state: layer.state(),
            };
            let items = Items {
                addresses: &[BASE],
                counts: &[1],
                answers: &mut answers,
            };
            let settings = Settings::default();
            let reply = chunk_release_list(table, items, 1, settings, true);
            assert_eq!((reply.number, reply.state), (1, layer.state()));
            assert!(lent == before && answers.iter().all(|answer| *answer == 99));
        }
    }
}

/// A layer whose one arena is none.
fn broken() -> Layer {
    let state = State {
        count: 1,
        ..State::EMPTY
    };
    Layer::from_table(&[Arena::EMPTY; 32], &[0; 32_768], state)
}

#[test]
fn lists_of_32_768_items_and_no_more() {
    let chunks = (0u64..40).cycle();
    let spans: Vec<_> = chunks
        .map(|i| span(BASE + i * CHUNK, 1))
        .take(3 * LIST)
        .collect();
    for too_long in [LIST + 1, 2 * LIST, 3 * LIST] {
        let mut layer = busy();
        let refused = layer.chunk_release_list(at(7, 10), &spans[..too_long], true);
        assert_eq!(refused, Err(Refusal::ListLength));
        assert!(same(&layer, &busy()));
    }
    let mut layer = busy();
    let answers = by_list(&mut layer, at(7, 10), &spans[..LIST], true);
    assert!(answers.len() == LIST && answers.iter().all(Result::is_ok));
    assert_eq!(layer.records()[0].used, [0; 32]);
}

/// A question that turned a list down is answered, and then there is nothing in the way.
#[test]
fn a_question_outlives_the_refusal() {
    let (now, ring) = (at(7, 10), [span(BASE, 1)]);
    let mut layer = busy();
    drop(layer.purge_due(now, true));
    let refused = layer.chunk_release_list(now, &ring, true);
    assert_eq!(refused, Err(Refusal::QuestionOpen));
    let Some(Open::Sweep(Question::Purge(purge))) = layer.open() else {
        panic!("{layer:?}");
    };
    assert_eq!(purge.address(), BASE + CHUNK);
    let Outcome::Done(1) = purge.answer(now, true).unwrap() else {
        panic!("the sweep ends");
    };
    assert_eq!(layer.chunk_release_list(now, &ring, true), Ok(vec![Ok(())]));
}

#[cfg(all(feature = "linux", target_os = "linux"))]
mod real_memory {
    use super::LIST;
    use sirqobal::linux::{Chunks, Error, Memory, Unreleased};
    use sirqobal::{Refusal, CHUNK, NEVER};
    use std::iter;
    use std::panic::{catch_unwind, AssertUnwindSafe};

    /// Claims a run and writes its mark at both ends of each chunk.
    fn marked(memory: &mut Memory, id: i32, n: usize, mark: u8) -> Result<Chunks, Error> {
        let mut chunks = memory.claim(id, n)?;
        ends(n).for_each(|place| chunks[place] = mark);
        Ok(chunks)
    }

    fn has_mark(chunks: &Chunks, mark: u8) -> bool {
        ends(chunks.count()).all(|place| chunks[place] == mark)
    }

    fn ends(n: usize) -> impl Iterator<Item = usize> {
        let chunk = CHUNK as usize;
        (0..n).flat_map(move |i| [i * chunk, (i + 1) * chunk - 1])
    }

    fn is_free(memory: &Memory) -> bool {
        let records = memory.layer().records();
        records.iter().all(|arena| arena.used == [0; 32])
    }

    /// The chunks that came back, all of them as another memory's.
    fn foreign(refused: Vec<Unreleased>) -> Vec<Chunks> {
        let back = |unreleased: Unreleased| {
            assert_eq!(unreleased.error, Refusal::NotInside);
            unreleased.chunks
        };
        refused.into_iter().map(back).collect()
    }

    #[test]
    fn runs_of_several_arenas_go_by_one_call() -> Result<(), Error> {
        for (delay, purged) in [(10, 12), (0, 12), (NEVER, 0)] {
            let mut memory = Memory::new();
            memory.options_mut().delay = delay;
            let mut ring = Vec::new();
            for id in 0..3 {
                assert_eq!(memory.reserve(4 * CHUNK, true)?, id);
            }
            for (mark, n) in [(1, 1), (2, 2), (3, 1)] {
                for id in [2, 0, 1] {
                    ring.push(marked(&mut memory, id, n, mark)?);
                }
            }
            assert!(memory.release_list(ring).is_empty());
            assert!(is_free(&memory));
            assert_eq!(memory.sweep(true)?, purged);
            let again = memory.claim(1, 4)?;
            let marks = ends(4).map(|place| again[place]);
            let kept = [1, 1, 2, 2, 2, 2, 3, 3].map(|mark| if purged == 0 { mark } else { 0 });
            assert!(!again.is_fresh() && marks.eq(kept));
        }
        Ok(())
    }

    #[test]
    fn runs_of_another_memory_come_back_in_their_order() -> Result<(), Error> {
        let (mut own, mut other) = (Memory::new(), Memory::new());
        let (id, same_id) = (
            own.reserve(8 * CHUNK, true)?,
            other.reserve(8 * CHUNK, true)?,
        );
        assert_eq!(id, same_id);
        let mut list = Vec::new();
        for mark in 0..8 {
            let memory = if mark % 3 == 1 { &mut other } else { &mut own };
            list.push(marked(memory, id, 1, mark)?);
        }
        let before = other.layer().clone();
        let back = foreign(own.release_list(list));
        assert!(is_free(&own));
        assert!(other.layer().records() == before.records());
        assert_eq!(own.sweep(true)?, 5);
        assert!(
            back.len() == 3
                && back
                    .iter()
                    .zip([1, 4, 7])
                    .all(|(c, mark)| has_mark(c, mark))
        );
        assert!(other.release_list(back).is_empty() && is_free(&other));
        Ok(())
    }

    /// Refused by a memory that has nothing, they outlive the one that they are of.
    #[test]
    fn nothing_is_lost() -> Result<(), Error> {
        let mut memory = Memory::new();
        let id = memory.reserve(2 * CHUNK, true)?;
        let ring = vec![
            marked(&mut memory, id, 1, 1)?,
            marked(&mut memory, id, 1, 2)?,
        ];
        drop(memory);
        let back = foreign(Memory::new().release_list(ring));
        assert!(has_mark(&back[0], 1) && has_mark(&back[1], 2));
        let mut empty = Memory::new();
        assert!(empty.release_list([]).is_empty());
        assert!(empty.release_list(iter::empty()).is_empty());
        Ok(())
    }

    #[test]
    fn after_a_join_the_runs_of_both_go_by_one_call() -> Result<(), Error> {
        let (mut first, mut second) = (Memory::new(), Memory::new());
        let (one, two) = (
            first.reserve(3 * CHUNK, true)?,
            second.reserve(3 * CHUNK, true)?,
        );
        let mut ring = vec![
            marked(&mut first, one, 2, 1)?,
            marked(&mut second, two, 1, 2)?,
        ];
        let rise = first.join(&mut second)?;
        ring.push(marked(&mut first, rise.id(two).unwrap(), 2, 3)?);
        let anew = second.reserve(CHUNK, true)?;
        ring.push(marked(&mut second, anew, 1, 4)?);

        // The second has the last alone, the first all others.
        let rest = foreign(second.release_list(ring));
        assert!(is_free(&second) && rest.len() == 3);
        assert!(rest
            .iter()
            .zip([1, 2, 3])
            .all(|(c, mark)| has_mark(c, mark)));
        assert!(first.release_list(rest).is_empty() && is_free(&first));
        assert_eq!((first.sweep(true)?, second.sweep(true)?), (5, 1));
        Ok(())
    }

    /// Rings of many runs are opened and closed beside one that stays.
    #[test]
    fn rings_are_closed_again_and_again() -> Result<(), Error> {
        let mut memory = Memory::new();
        let id = memory.reserve(64 * CHUNK, true)?;
        let held = marked(&mut memory, id, 3, 200)?;
        let mut ring = Vec::new();
        let mut purged = 0;
        for round in 0..24 {
            memory.options_mut().delay = [0, NEVER, 3_600_000][round % 3];
            memory.options_mut().decommits = round % 2 == 0;
            for i in 0..25 {
                ring.push(marked(&mut memory, id, 1 + (i + round) % 3, i as u8)?);
            }
            let marks = ring.iter().zip(0..).all(|(run, mark)| has_mark(run, mark));
            assert!(marks && has_mark(&held, 200));
            // What is left of the ring is closed later.
            let rest = ring.split_off(25 - round % 4);
            assert!(memory.release_list(ring.drain(..)).is_empty());
            purged += memory.sweep(round % 5 == 0)?;
            assert!(memory.release_list(rest).is_empty());
            let used: u32 = memory.layer().records()[0]
                .used
                .iter()
                .map(|w| w.count_ones())
                .sum();
            assert_eq!(used, 3);
        }
        assert!(purged > 100, "{purged}");
        assert!(has_mark(&held, 200));
        memory.release(held)?;
        assert!(is_free(&memory));
        Ok(())
    }

    /// All 32,768 chunks that a memory may have are claimed one by one, and go by one call; one of
    /// another memory makes a list that would be too long.
    #[test]
    fn a_full_memory_goes_by_one_call() -> Result<(), Error> {
        let (mut memory, mut other) = (Memory::new(), Memory::new());
        memory.options_mut().delay = NEVER;
        let theirs = other.reserve(CHUNK, true)?;
        let mut list = vec![other.claim(theirs, 1)?];
        for id in 0..32 {
            assert_eq!(memory.reserve(1_024 * CHUNK, true)?, id);
            for _ in 0..1_024 {
                list.push(memory.claim(id, 1)?);
            }
        }
        assert_eq!(list.len(), LIST + 1);
        let back = foreign(memory.release_list(list));
        assert!(back.len() == 1 && is_free(&memory));
        assert!(other.release_list(back).is_empty() && is_free(&other));
        Ok(())
    }

    /// What it had given already is dropped unreleased: claimed still, and nothing worse.
    #[test]
    fn an_iterator_that_panics_leaks() -> Result<(), Error> {
        let mut memory = Memory::new();
        let id = memory.reserve(2 * CHUNK, true)?;
        let mut given = vec![marked(&mut memory, id, 1, 1)?];
        let held = marked(&mut memory, id, 1, 2)?;
        let list = iter::from_fn(|| Some(given.pop().expect("there are no more")));
        let panicked = catch_unwind(AssertUnwindSafe(|| memory.release_list(list)));
        assert!(panicked.is_err());
        assert_eq!(memory.claim(id, 1).unwrap_err(), Refusal::NoRun);
        assert!(has_mark(&held, 2));
        assert!(memory.release_list([held]).is_empty());
        assert_eq!(memory.claim(id, 1)?.address() % CHUNK, 0);
        Ok(())
    }
}
