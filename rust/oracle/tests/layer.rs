//! The layer of the original over listed answers. One test: it is one for the whole process.

use oracle::layer::*;

const BASE: u64 = 1 << 30;

/// Answers from a list, and keeps what it was asked.
#[derive(Default)]
struct Listed {
    answers: Vec<Option<u64>>,
    asked: Vec<Question>,
}

impl Listed {
    fn new(answers: &[Option<u64>]) -> Listed {
        let answers = answers.iter().rev().copied().collect();
        Listed {
            answers,
            asked: Vec::new(),
        }
    }
}

impl Host for Listed {
    fn answer(&mut self, question: Question) -> Option<u64> {
        self.asked.push(question);
        self.answers.pop().expect("an answer for each question")
    }
}

fn empty(reserve: usize) {
    reset();
    let script = Script {
        reserve,
        delay: 10,
        ns: 5_000_000,
        ..Script::NONE
    };
    carry(script, 4_096);
}

fn grown_and_claimed() {
    empty(0);
    assert_eq!(print(), "arenas: none\n");
    let mut host = Listed::new(&[Some(BASE)]);
    assert_eq!(
        reserve_os_memory_ex(&mut host, 4 * CHUNK - 5, false, true, false),
        Some(0)
    );
    let memory = Question::Memory {
        bytes: 4 * CHUNK,
        align: CHUNK,
        commit: false,
        large: true,
    };
    assert_eq!(host.asked, [memory]);
    assert_eq!(adopt_os_block(BASE + 4 * CHUNK, CHUNK), Some(0));
    let record = record(0);
    assert_eq!((record.chunks, record.owned, record.node), (5, true, -1));
    assert_eq!((record.dirty[0], record.committed[0]), (16, 16));

    let mut host = Listed::new(&[None, Some(0)]);
    assert_eq!(chunk_alloc_n(&mut host, 0, 5), None);
    let run = chunk_alloc_n(&mut host, 0, 5).unwrap();
    assert_eq!((run.address, run.fresh), (BASE, false));
    let commit = Question::Commit {
        address: BASE,
        bytes: 5 * CHUNK,
    };
    assert_eq!(host.asked, [commit, commit]);
    assert!(owns(BASE + 5 * CHUNK - 1) && !owns(BASE + 5 * CHUNK));
    assert_eq!(arena_area(0), (BASE, 5 * CHUNK));
    assert!(print().starts_with("arena 0: base 0x40000000 size 160 MiB, 5/5 chunks used"));
}

fn given_up() {
    empty(CHUNK as usize);
    let mut host = Listed::new(&[Some(BASE + 1), None]);
    assert_eq!(chunk_claim(&mut host, -1), None);
    assert!(mark());
    assert_eq!(chunk_claim(&mut Deny, -1), None);
    let back = Question::GiveBack {
        address: BASE + 1,
        bytes: CHUNK,
    };
    assert_eq!(host.asked[1], back);
    empty(CHUNK as usize);
    assert!(!mark() && count() == 0);
}

fn swept() {
    empty(0);
    assert_eq!(adopt_os_block(BASE, 40 * CHUNK), Some(0));
    assert!(chunk_release(BASE + 30 * CHUNK, 3, None, true));
    assert_eq!((record(0).deadline, record(0).pending[0]), (15, 3 << 30));
    assert_eq!(stamps(0)[29..34], [0, 5, 5, 5, 0]);
    assert_eq!(purge_due(&mut Deny, false), 0);
    let mut host = Listed::new(&[Some(0), None, Some(0)]);
    assert_eq!(purge_due(&mut host, true), 2);
    assert_eq!(record(0).pending, [0; 32]);

    let copy = record(0);
    let all = stamps(0);
    load(true, &[copy], &all);
    assert!(mark() && count() == 1 && record(0) == copy);
    assert_eq!(stamps(0), all);
}

/// Two layers of one adopted arena each; of the second a chunk is claimed and one pending.
fn put_aside_and_joined() {
    empty(0);
    assert_eq!(adopt_os_block(9 * BASE, 2 * CHUNK), Some(0));
    assert_eq!(
        chunk_claim(&mut Deny, 0).map(|run| run.address),
        Some(9 * BASE)
    );
    assert!(chunk_release(9 * BASE + CHUNK, 1, None, true));
    let (moved, moved_stamps) = (record(0), stamps(0));
    let second = put_aside();
    assert_eq!((count(), mark()), (0, false));

    load(true, &[], &[]);
    assert_eq!(adopt_os_block(BASE, CHUNK), Some(0));
    let first = put_aside();
    assert_eq!((count(), mark()), (0, false));
    take_back(first);
    assert_eq!((count(), mark(), record(0).base), (1, true, BASE));

    join(second);
    assert_eq!((count(), mark(), record(0).base), (2, false, BASE));
    assert!(record(1) == moved && stamps(1) == moved_stamps);
    assert_eq!(adopt_os_block(9 * BASE + 2 * CHUNK, CHUNK), Some(1));
    let run = chunk_claim(&mut Deny, 1).expect("two chunks are free");
    assert_eq!((run.address, run.fresh), (9 * BASE + CHUNK, false));
}

#[test]
fn layer() {
    grown_and_claimed();
    given_up();
    swept();
    put_aside_and_joined();
}
