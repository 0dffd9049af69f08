//! Two layers made one: what a join moves and leaves, what turns it down and in which order, and
//! that each program goes on in its exclusive arena as it would have unjoined.

use sirqobal::lent::{Arena, State};
use sirqobal::{Host, Layer, Managed, Moment, Open, Question, Refusal, Run, ANY, CHUNK};

const BASE: u64 = 1 << 30;

/// Says yes to everything; memory stands at this address.
struct Yes(u64);

impl Host for Yes {
    fn commit(&mut self, _: u64, _: u64) -> bool {
        true
    }
    fn purge(&mut self, _: u64, _: u64, _: bool) -> bool {
        true
    }
    fn memory(&mut self, _: u64, _: u64, _: bool, _: bool) -> Option<u64> {
        Some(self.0)
    }
    fn give_back(&mut self, _: u64, _: u64) {}
}

fn at(ms: u64) -> Moment {
    Moment {
        ns: ms * 1_000_000,
        ..Moment::default()
    }
}

/// Reserves an exclusive arena at this address.
fn reserve(layer: &mut Layer, base: u64, chunks: u64) -> i32 {
    let outcome = layer.reserve_os_memory(at(1), chunks * CHUNK, false, false, true);
    outcome.settle(at(1), &mut Yes(base)).unwrap()
}

/// A layer with so many arenas of one chunk, apart from each other.
fn arenas(base: u64, count: u64) -> Layer {
    let mut layer = Layer::new();
    for i in 0..count {
        let id = layer.adopt_os_block(at(1), base + 2 * i * CHUNK, CHUNK);
        assert_eq!(id, Ok(i as i32));
    }
    layer
}

fn given_up(layer: &Layer) -> Layer {
    let state = State {
        mark: 1,
        ..layer.state()
    };
    Layer::from_table(layer.records(), layer.stamps(), state)
}

fn same(a: &Layer, b: &Layer) -> bool {
    a.records() == b.records()
        && a.stamps() == b.stamps()
        && a.state() == b.state()
        && a.asked() == b.asked()
}

/// The join is turned down by this, and leaves both.
#[track_caller]
fn refused(first: &mut Layer, second: &mut Layer, moment: Moment, refusal: Refusal) {
    let before = (first.clone(), second.clone());
    assert_eq!(first.join_tables(moment, second), Err(refusal));
    assert!(same(first, &before.0) && same(second, &before.1));
}

/// Two arenas with something in every map, a deadline and stamps; anything stands past them.
fn busy(base: u64) -> Layer {
    let mut layer = Layer::new();
    let alone = reserve(&mut layer, base, 40);
    layer
        .adopt_os_block(at(1), base + 64 * CHUNK, 3 * CHUNK)
        .unwrap();
    let outcome = layer.chunk_alloc_n(at(1), alone, 35);
    assert_eq!(outcome.settle(at(1), &mut Yes(0)).unwrap().address, base);
    layer.chunk_alloc_n(at(1), ANY, 2).done().unwrap();
    layer
        .chunk_release(at(7), base + 33 * CHUNK, 2, None, true)
        .unwrap();
    let shared = base + 65 * CHUNK;
    layer
        .chunk_release(at(9), shared, 1, Some(false), true)
        .unwrap();
    let (mut records, mut stamps) = (*layer.records(), *layer.stamps());
    records[2..].fill(Arena {
        base: base + 7,
        used: [5; 32],
        ..Arena::EMPTY
    });
    stamps[2 * 1_024..].fill(11);
    Layer::from_table(&records, &stamps, layer.state())
}

#[test]
fn a_join_moves_arenas_and_nothing_else() {
    // Ids go by the table, not by the addresses.
    for bases in [[1, 9], [9, 1]] {
        let [mut first, mut second] = bases.map(|base| busy(base * BASE));
        let (one, two) = (first.clone(), second.clone());
        let rise = first.join_tables(at(100), &mut second).unwrap();
        assert_eq!(rise.ids(), 2..4);
        let ids = [0, 1, 2, i32::MAX, ANY, i32::MIN].map(|id| rise.id(id));
        let raised = [Some(2), Some(3), None, None, Some(ANY), Some(i32::MIN)];
        assert_eq!(ids, raised);

        let parts = [one.records(), two.records(), one.records()];
        let records = [&parts[0][..2], &parts[1][..2], &parts[2][4..]].concat();
        assert_eq!(first.records()[..], records);
        let parts = [one.stamps(), two.stamps(), one.stamps()];
        let stamps = [&parts[0][..2_048], &parts[1][..2_048], &parts[2][4_096..]].concat();
        assert_eq!(first.stamps()[..], stamps);
        let state = State {
            count: 4,
            ..State::EMPTY
        };
        assert_eq!(first.state(), state);
        assert!(same(&second, &Layer::new()));

        // What was to be purged is, once it is due.
        let mut purged = |ms| first.purge_due(at(ms), false).settle(at(ms), &mut Yes(0));
        assert_eq!([16, 17, 19].map(&mut purged), [Ok(0), Ok(4), Ok(2)]);
    }
}

/// A layer whose one arena is none.
fn broken() -> Layer {
    let state = State {
        count: 1,
        ..State::EMPTY
    };
    Layer::from_table(&[Arena::EMPTY; 32], &[0; 32_768], state)
}

/// A layer with 32 arenas and an open question.
fn asking(base: u64) -> Layer {
    let mut layer = arenas(base, 32);
    drop(layer.reserve_os_memory(at(1), CHUNK, true, true, true));
    layer
}

#[test]
fn refusals_come_in_their_order_and_leave_both() {
    let (near, far) = (BASE, 9 * BASE);
    for (mut first, mut second, refusal) in [
        (broken(), asking(near), Refusal::Broken),
        (asking(near), broken(), Refusal::Broken),
        (asking(near), arenas(near, 1), Refusal::QuestionOpen),
        (arenas(near, 1), asking(near), Refusal::QuestionOpen),
        (arenas(near, 32), arenas(near, 32), Refusal::TablesOverlap),
        (arenas(near, 32), arenas(far, 1), Refusal::TooManyArenas),
        (arenas(near, 1), arenas(far, 32), Refusal::TooManyArenas),
    ] {
        refused(&mut first, &mut second, at(1), refusal);
    }
    let unsound = Moment { page: 1, ..at(1) };
    let (mut first, mut second) = (arenas(near, 1), arenas(far, 1));
    refused(&mut first, &mut second, unsound, Refusal::Broken);
}

#[test]
fn neighbours_and_32_arenas_are_joined() {
    let mut first = arenas(BASE, 16);
    // Each stands in a gap of the first's.
    let mut second = arenas(BASE + CHUNK, 16);
    let rise = first.join_tables(at(1), &mut second).unwrap();
    assert_eq!((rise.ids(), first.state().count), (16..32, 32));
    assert_eq!(
        first.adopt_os_block(at(1), BASE + CHUNK, CHUNK),
        Err(Refusal::Range)
    );
    let rise = first.join_tables(at(1), &mut second).unwrap();
    assert_eq!((rise.ids(), rise.id(0)), (32..32, None));

    // By one chunk at either end, and as a whole.
    let wide = |base, chunks| {
        let mut layer = Layer::new();
        layer.adopt_os_block(at(1), base, chunks * CHUNK).unwrap();
        layer
    };
    for (base, chunks) in [
        (BASE - 3 * CHUNK, 4),
        (BASE + 3 * CHUNK, 1),
        (BASE - CHUNK, 9),
    ] {
        let (mut first, mut second) = (wide(BASE, 4), wide(base, chunks));
        refused(&mut first, &mut second, at(1), Refusal::TablesOverlap);
        refused(&mut second, &mut first, at(1), Refusal::TablesOverlap);
    }
}

#[test]
fn the_mark_stands_if_it_stood_in_both() {
    for (one, two) in [(false, false), (false, true), (true, false), (true, true)] {
        for count in [0, 1] {
            let side = |base, mark| match mark {
                false => arenas(base, count),
                true => given_up(&arenas(base, count)),
            };
            let (mut first, mut second) = (side(BASE, one), side(9 * BASE, two));
            let _ = first.join_tables(at(1), &mut second).unwrap();
            assert_eq!(first.has_given_up(), one && two);
            assert!(same(&second, &Layer::new()));
        }
    }
}

/// A question that turned a join down is answered, and then there is nothing in the way.
#[test]
fn a_question_outlives_the_refusal() {
    let (mut first, mut second) = (arenas(BASE, 1), Layer::new());
    let alone = reserve(&mut second, 9 * BASE, 2);
    drop(second.chunk_alloc(at(1), alone));
    refused(&mut first, &mut second, at(1), Refusal::QuestionOpen);
    let Some(Open::Claim(Question::Commit(commit))) = second.open() else {
        panic!("{second:?}");
    };
    let run = commit.answer(at(1), true).unwrap().done().unwrap();
    let rise = first.join_tables(at(1), &mut second).unwrap();
    let next = first.chunk_claim(at(1), rise.id(alone).unwrap()).done();
    assert_eq!(next.unwrap().address, run.address + CHUNK);
}

/// Joins repeat and nest: an id rises with each of them.
#[test]
fn an_id_goes_through_many_joins() {
    let (mut first, mut second, mut third) = (arenas(BASE, 3), arenas(5 * BASE, 2), Layer::new());
    let alone = reserve(&mut third, 9 * BASE, 4);
    let inner = second.join_tables(at(1), &mut third).unwrap();
    let outer = first.join_tables(at(1), &mut second).unwrap();
    let id = inner.id(alone).and_then(|id| outer.id(id)).unwrap();
    assert_eq!(id, 5);
    assert_eq!(first.arena_area(at(1), id), Ok((9 * BASE, 4 * CHUNK)));
    // The emptied ones begin anew, and are joined again.
    for (layer, base) in [(&mut second, 20), (&mut third, 30)] {
        assert_eq!(reserve(layer, base * BASE, 1), 0);
        let rise = first.join_tables(at(1), layer).unwrap();
        let area = first.arena_area(at(1), rise.id(0).unwrap());
        assert_eq!(area, Ok((base * BASE, CHUNK)));
    }
    assert_eq!(first.state().count, 8);
}

/// A program that is alone in an exclusive arena, wherever that is now.
#[derive(Clone)]
struct Program {
    id: i32,
    held: Vec<(u64, usize)>,
    told: Vec<Result<Run, Refusal>>,
}

impl Program {
    fn new(id: i32) -> Program {
        Program {
            id,
            held: Vec::new(),
            told: Vec::new(),
        }
    }

    fn act(&mut self, layer: &mut Layer, moment: Moment, choice: usize, n: usize) {
        if choice < 3 || self.held.is_empty() {
            let outcome = layer.chunk_alloc_n(moment, self.id, n);
            let told = outcome.settle(moment, &mut Yes(0));
            self.held.extend(told.map(|run| (run.address, n)));
            self.told.push(told);
        } else {
            let (address, n) = self.held.swap_remove(choice % self.held.len());
            let pending = choice % 2 == 1;
            layer
                .chunk_release(moment, address, n, None, pending)
                .unwrap();
        }
    }
}

/// Two layers, each with a program in an exclusive arena, and a shared arena in the first.
#[derive(Clone)]
struct Drive {
    layers: [Layer; 2],
    programs: [Program; 2],
    is_joined: bool,
}

impl Drive {
    fn new() -> Drive {
        let mut layers = [Layer::new(), Layer::new()];
        let shared = layers[0].adopt_os_block(at(1), 2 * BASE, 3 * CHUNK);
        assert_eq!(shared, Ok(0));
        let ids = [
            reserve(&mut layers[0], BASE, 12),
            reserve(&mut layers[1], 9 * BASE, 9),
        ];
        Drive {
            layers,
            programs: ids.map(Program::new),
            is_joined: false,
        }
    }

    fn join(&mut self, moment: Moment) {
        let [first, second] = &mut self.layers;
        let rise = first.join_tables(moment, second).unwrap();
        self.programs[1].id = rise.id(self.programs[1].id).unwrap();
        self.is_joined = true;
    }

    fn act(&mut self, moment: Moment, side: usize, choice: usize, n: usize) {
        let place = if self.is_joined { 0 } else { side };
        match choice {
            0..=49 => self.programs[side].act(&mut self.layers[place], moment, choice % 6, n),
            50..=54 => self.layers.iter_mut().for_each(|layer| {
                let swept = layer.purge_due(moment, choice == 50);
                swept.settle(moment, &mut Yes(0)).unwrap();
            }),
            _ => drop(self.layers[0].chunk_alloc(moment, ANY).done()),
        }
    }
}

/// The same calls, once with the layers joined after so many rounds, once with each alone: the two
/// programs are told the same.
fn told_alike(joined_after: u64, mut random: u64) -> Vec<Result<Run, Refusal>> {
    let mut joined = Drive::new();
    let mut unjoined = joined.clone();
    for round in 0..300 {
        random = random
            .wrapping_mul(6_364_136_223_846_793_005)
            .wrapping_add(round);
        let [side, choice, n] = [33, 40, 50].map(|shift| (random >> shift) as usize % 60);
        let moment = at(10 + round);
        if round == joined_after {
            joined.join(moment);
        }
        for drive in [&mut joined, &mut unjoined] {
            drive.act(moment, side % 2, choice, 1 + n % 4);
        }
    }
    let [told, alike] = [joined, unjoined].map(|drive| drive.programs.map(|program| program.told));
    assert_eq!(told, alike);
    told.concat()
}

#[test]
fn each_goes_on_as_if_unjoined() {
    let told: Vec<_> = (0..40)
        .flat_map(|seed| told_alike(seed * 7, seed))
        .collect();
    let count = |what: fn(&&Result<Run, Refusal>) -> bool| told.iter().filter(what).count();
    let fresh = count(|told| told.is_ok_and(|run| run.fresh));
    let again = count(|told| told.is_ok_and(|run| !run.fresh));
    let refused = count(|told| **told == Err(Refusal::NoRun));
    assert_eq!(fresh + again + refused, told.len());
    assert!(
        fresh > 200 && again > 1_000 && refused > 400,
        "{fresh} {again} {refused}"
    );
}

/// A managed range too, and of a record's flags every number.
#[test]
fn what_stands_in_a_record_is_not_read() {
    let managed = Managed {
        start: 9 * BASE,
        size: 2 * CHUNK,
        node: 3,
        exclusive: true,
        mapped: false,
        reserved: true,
    };
    let mut second = Layer::new();
    second.manage_os_memory(at(1), managed).unwrap();
    let mut records = *second.records();
    records[0].exclusive = 77;
    records[0].owned = u32::MAX;
    records[0].deadline = 4_000_000_000;
    let mut second = Layer::from_table(&records, second.stamps(), second.state());
    let mut first = arenas(BASE, 1);
    let rise = first.join_tables(at(1), &mut second).unwrap();
    assert_eq!(first.records()[rise.ids().start as usize], records[0]);
}
