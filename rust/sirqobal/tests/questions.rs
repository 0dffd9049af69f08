//! Every kind of question, in a table that was taken over while it was open: found, answered by its
//! type, and ended as in the layer that asked.

use sirqobal::lent::{Call, State, RECORDS};
use sirqobal::{
    Ask, Host, Kept, Layer, Moment, NotDone, Open, Outcome, Question, Refusal, ANY, CHUNK,
};

const BASE: u64 = 1 << 30;

/// An arena of so many chunks, not committed.
fn reserved(chunks: u64) -> Layer {
    let mut layer = Layer::new();
    let asks = layer.reserve_os_memory(Moment::default(), chunks * CHUNK, false, false, false);
    let Outcome::Asks(Question::GetMemory(memory)) = asks else {
        panic!("it asks");
    };
    let id = memory.answer(Moment::default(), Some(BASE)).unwrap().done();
    assert_eq!(id, Ok(0));
    layer
}

/// Another layer over the same table.
fn taken_over(layer: &Layer) -> Layer {
    let taken = Layer::from_table(layer.records(), layer.stamps(), layer.state());
    assert_eq!(taken.asked().map(Ask::kind), layer.asked().map(Ask::kind));
    taken
}

fn same(a: &Layer, b: &Layer) -> bool {
    a.records() == b.records() && a.stamps() == b.stamps() && a.state() == b.state()
}

#[test]
fn a_commit() {
    let now = Moment::default();
    let mut asking = reserved(4);
    let asks = asking.chunk_alloc_n(now, 0, 3).done();
    let mut taken = taken_over(&asking);
    let Some(Open::Claim(Question::Commit(commit))) = taken.open() else {
        panic!("{taken:?}");
    };
    let (address, bytes) = (commit.address(), commit.bytes());
    assert_eq!(asks, Err(NotDone::Asks(Ask::Commit { address, bytes })));
    assert_eq!((address, bytes), (BASE, 3 * CHUNK));
    let run = commit.answer(now, true).unwrap().done().unwrap();
    assert!(run.fresh && run.committed && run.address == BASE);
    // The asking one, answered through its own open question, ends alike.
    let Some(Open::Claim(question)) = asking.open() else {
        panic!("it is open");
    };
    assert_eq!(question.answered_by(now, &mut Yes).unwrap().done(), Ok(run));
    assert!(same(&asking, &taken));
}

#[test]
fn a_purge() {
    let now = Moment::default();
    let mut asking = Layer::new();
    asking.adopt_os_block(now, BASE, 3 * CHUNK).unwrap();
    asking.chunk_release(now, BASE, 3, None, true).unwrap();
    for decommits in [true, false] {
        let mut asking = asking.clone();
        let moment = Moment { decommits, ..now };
        let asks = asking.purge_due(moment, true).done();
        let mut taken = taken_over(&asking);
        assert_eq!(asks, Err(NotDone::Asks(taken.asked().unwrap())));
        let Some(Open::Sweep(Question::Purge(purge))) = taken.open() else {
            panic!("{taken:?}");
        };
        assert_eq!(purge.decommits(), decommits);
        assert_eq!((purge.address(), purge.bytes()), (BASE, CHUNK));
        // No to the first, yes to the others.
        let next = purge.answer(now, false).unwrap();
        assert_eq!(next.settle(now, &mut Yes), Ok(2));
    }
}

#[test]
fn memory_for_a_reserve_and_for_a_claim() {
    let now = Moment::default();
    let mut asking = Layer::new();
    let _ = asking.reserve_os_memory(now, 2 * CHUNK, true, true, true);
    let mut taken = taken_over(&asking);
    let Some(Open::Reserve(Question::GetMemory(memory))) = taken.open() else {
        panic!("{taken:?}");
    };
    assert_eq!((memory.bytes(), memory.align()), (2 * CHUNK, CHUNK));
    assert!(memory.commits() && !memory.may_be_large());
    assert_eq!(memory.answer(now, Some(BASE)).unwrap().done(), Ok(0));

    let mut asking = Layer::new();
    let moment = Moment {
        reserve: 3 * CHUNK,
        ..now
    };
    let _ = asking.chunk_alloc_n(moment, ANY, 2);
    let mut taken = taken_over(&asking);
    assert_eq!(taken.asked(), asking.asked());
    let Some(Open::Claim(question)) = taken.open() else {
        panic!("{taken:?}");
    };
    let outcome = question.answered_by(moment, &mut Yes).unwrap();
    let run = outcome.settle(moment, &mut Yes).unwrap();
    assert_eq!(run.address, BASE);
}

#[test]
fn a_give_back() {
    let now = Moment::default();
    let mut asking = Layer::new();
    let asks = asking.reserve_os_memory(now, CHUNK, false, false, true);
    let Outcome::Asks(Question::GetMemory(memory)) = asks else {
        panic!("it asks");
    };
    let _ = memory.answer(now, Some(BASE + 4_096)).unwrap();
    let give_back = Ask::GiveBack {
        address: BASE + 4_096,
        bytes: CHUNK,
    };
    assert_eq!(asking.asked(), Some(give_back));
    let mut taken = taken_over(&asking);
    let Some(Open::Reserve(Question::GiveBack(question))) = taken.open() else {
        panic!("{taken:?}");
    };
    assert_eq!(question.range(), None); // the state does not keep it
    let refused = question.answer(now).unwrap().done();
    assert_eq!(refused, Err(NotDone::Refused(Refusal::NotWhole)));
}

#[test]
fn an_answer_that_is_turned_down_keeps_the_question() {
    let now = Moment::default();
    let unsound = Moment { page: 1, ..now };
    let mut layer = reserved(2);
    let Outcome::Asks(Question::Commit(commit)) = layer.chunk_alloc(now, 0) else {
        panic!("it asks");
    };
    let kept = commit.answer(unsound, true).unwrap_err();
    assert_eq!(kept.refusal, Refusal::Broken);
    assert!(kept.to_string().ends_with("the question stays open"));
    let Kept { question, .. } = kept;
    assert!(question.answer(now, true).unwrap().done().is_ok());
}

/// Memory that the layer does not take goes back to the host, whatever the reason.
#[test]
fn memory_that_is_not_taken_goes_back() {
    let now = Moment::default();
    let mut layer = reserved(2);
    let mut host = Overlaps {
        given_back: Vec::new(),
    };
    let outcome = layer.reserve_os_memory(now, 2 * CHUNK, false, false, true);
    assert_eq!(outcome.settle(now, &mut host), Err(Refusal::MemoryRefused));
    assert_eq!(host.given_back, [(BASE, 2 * CHUNK)]);

    let outcome = layer.reserve_os_memory(now, 2 * CHUNK, false, false, true);
    let unsound = Moment { page: 1, ..now };
    assert_eq!(outcome.settle(unsound, &mut host), Err(Refusal::Broken));
    assert_eq!(host.given_back.len(), 2);
    assert!(layer.open().is_some());
}

/// Whatever the numbers of a state are, nothing panics.
#[test]
fn any_state_is_taken_over() {
    let numbers = [0, 1, 2, 31, 32, 1_024, usize::MAX];
    let records = *reserved(4).records();
    for question in 0..6 {
        for id in numbers {
            for start in numbers {
                let state = State {
                    count: 1,
                    question,
                    id,
                    start,
                    n: start,
                    ..State::EMPTY
                };
                let mut layer = Layer::from_table(&records, &[0; 1_024 * RECORDS], state);
                let asked = layer.asked();
                assert_eq!(layer.open().is_some(), asked.is_some());
                assert!(format!("{layer} {layer:?} {asked:?}").contains("arena 0"));
                let call = Call::Answer {
                    kind: question,
                    yes: true,
                    base: 0,
                };
                let _ = layer.call(Moment::default(), call);
            }
        }
    }
}

struct Yes;

impl Host for Yes {
    fn commit(&mut self, _: u64, _: u64) -> bool {
        true
    }
    fn purge(&mut self, _: u64, _: u64, _: bool) -> bool {
        true
    }
    fn memory(&mut self, _: u64, _: u64, _: bool, _: bool) -> Option<u64> {
        Some(BASE)
    }
    fn give_back(&mut self, _: u64, _: u64) {}
}

/// Gives memory that an arena has already.
struct Overlaps {
    given_back: Vec<(u64, u64)>,
}

impl Host for Overlaps {
    fn commit(&mut self, _: u64, _: u64) -> bool {
        true
    }
    fn purge(&mut self, _: u64, _: u64, _: bool) -> bool {
        true
    }
    fn memory(&mut self, _: u64, _: u64, _: bool, _: bool) -> Option<u64> {
        Some(BASE)
    }
    fn give_back(&mut self, address: u64, bytes: u64) {
        self.given_back.push((address, bytes));
    }
}
