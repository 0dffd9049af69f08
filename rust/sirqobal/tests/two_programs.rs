//! Two programs on one layer over real memory: one in an exclusive arena, one in shared ones. Each
//! writes its mark into every page that it is granted; through all claims, releases, sweeps and
//! joins no mark is overwritten.
#![cfg(all(feature = "linux", target_os = "linux"))]

use sirqobal::linux::{page_size, Chunks, Memory};
use sirqobal::{Refusal, ANY, CHUNK, NEVER};

struct Program {
    name: u64,
    arena: i32,
    held: Vec<(u64, Chunks)>,
    claims: u64,
}

/// The offsets at which a mark stands: each page's first bytes, and the last bytes of all.
fn places(chunks: &Chunks) -> impl Iterator<Item = usize> {
    let last = chunks.len() - 8;
    (0..chunks.len())
        .step_by(page_size() as usize)
        .chain([last])
}

fn mark(program: u64, claim: u64, place: usize) -> [u8; 8] {
    (program << 56 | claim << 36 | place as u64).to_le_bytes()
}

impl Program {
    fn new(name: u64, arena: i32) -> Program {
        Program {
            name,
            arena,
            held: Vec::new(),
            claims: 0,
        }
    }

    fn claim(&mut self, memory: &mut Memory, n: usize) -> bool {
        let mut chunks = match memory.claim(self.arena, n) {
            Ok(chunks) => chunks,
            Err(error) => {
                assert_eq!(error, Refusal::NoRun);
                return false;
            }
        };
        if chunks.is_fresh() {
            assert!(places(&chunks).all(|place| chunks[place..][..8] == [0; 8]));
        }
        self.claims += 1;
        for place in places(&chunks) {
            chunks[place..][..8].copy_from_slice(&mark(self.name, self.claims, place));
        }
        self.held.push((self.claims, chunks));
        true
    }

    /// Releases one of its runs in the memory that has it.
    fn release(&mut self, memories: &mut [&mut Memory], which: usize) {
        if self.held.is_empty() {
            return;
        }
        let (_, mut chunks) = self.held.swap_remove(which % self.held.len());
        for memory in memories {
            match memory.release(chunks) {
                Ok(()) => return,
                Err(unreleased) => chunks = unreleased.chunks,
            }
        }
        panic!("{chunks:?} is in no memory");
    }

    /// Releases all runs but the first ones, by a list in each memory.
    fn close(&mut self, memories: &mut [&mut Memory], kept: usize) {
        let kept = kept.min(self.held.len());
        let runs = self.held.drain(kept..);
        let mut list: Vec<_> = runs.map(|(_, chunks)| chunks).collect();
        for memory in memories {
            let refused = memory.release_list(list).into_iter();
            list = refused.map(|unreleased| unreleased.chunks).collect();
        }
        assert!(list.is_empty(), "{list:?} are in no memory");
    }

    fn check(&self) {
        for (claim, chunks) in &self.held {
            let own = |place: usize| chunks[place..][..8] == mark(self.name, *claim, place);
            assert!(
                places(chunks).all(own),
                "program {}, claim {claim}",
                self.name
            );
        }
    }

    fn chunks(&self) -> usize {
        self.held
            .iter()
            .map(|(_, chunks)| chunks.len() / CHUNK as usize)
            .sum()
    }
}

/// Numbers below 16.
struct Random(u64);

impl Random {
    fn next(&mut self, round: u64) -> [usize; 3] {
        self.0 = self
            .0
            .wrapping_mul(6_364_136_223_846_793_005)
            .wrapping_add(round);
        [58, 50, 40].map(|shift| (self.0 >> shift) as usize % 16)
    }
}

/// Claims, releases and sweeps with the delays in turn: how many runs were granted, and how many
/// chunks purged.
fn shared(delays: &[i64]) -> (usize, usize) {
    let mut memory = Memory::new();
    memory.options_mut().reserve = 3 * CHUNK;
    let arena = memory.reserve(4 * CHUNK, true).unwrap();
    let mut guidance = Program::new(1, arena);
    let mut recorder = Program::new(2, ANY);
    let mut random = Random(20_261_115);
    let (mut purged, mut granted) = (0, 0);
    for round in 0..120 {
        let [choice, n, which] = random.next(round);
        memory.options_mut().delay = delays[round as usize % delays.len()];
        memory.options_mut().decommits = round % 3 != 0;
        match choice {
            0..=4 => granted += usize::from(guidance.claim(&mut memory, 1 + n % 3)),
            // The shared arenas grow without end; this program holds itself back.
            5..=9 if recorder.chunks() < 6 => {
                granted += usize::from(recorder.claim(&mut memory, 1 + n % 3));
            }
            10..=11 => guidance.release(&mut [&mut memory], which),
            12..=13 => recorder.release(&mut [&mut memory], which),
            _ => purged += memory.sweep(choice == 15).unwrap(),
        }
        guidance.check();
        recorder.check();
    }
    (granted, purged)
}

#[test]
fn nobody_overwrites_the_other() {
    let (granted, purged) = shared(&[1]);
    assert!(
        granted > 30 && purged > 10,
        "{granted} granted, {purged} purged"
    );
}

/// What is pending may be claimed, released with a negative delay and swept by force.
#[test]
fn nobody_overwrites_the_other_with_delays_that_mean_never() {
    let (granted, purged) = shared(&[1, NEVER, 0, NEVER, i64::MIN]);
    assert!(
        granted > 30 && purged > 0,
        "{granted} granted, {purged} purged"
    );
    let (granted, purged) = shared(&[NEVER]);
    assert!(granted > 30, "{granted} granted");
    assert_eq!(purged, 0);
}

/// Each has a layer of its own with an exclusive arena; the recorder's is joined to guidance's, and
/// later again what it has begun there since. How many runs were granted, and how many chunks
/// purged.
fn joined(release: fn(&mut Program, &mut [&mut Memory], usize)) -> (usize, usize) {
    let (mut first, mut second) = (Memory::new(), Memory::new());
    // What is released is due at once, however fast the machine is.
    first.options_mut().delay = 0;
    second.options_mut().delay = 0;
    let mut guidance = Program::new(1, first.reserve(4 * CHUNK, true).unwrap());
    let mut recorder = Program::new(2, second.reserve(3 * CHUNK, true).unwrap());
    let mut spool = Program::new(3, ANY);
    let mut random = Random(20_261_117);
    let (mut purged, mut granted) = (0, 0);
    for round in 0..180 {
        let [choice, n, which] = random.next(round);
        if round % 60 == 40 {
            let rise = first.join(&mut second).unwrap();
            if round == 40 {
                recorder.arena = rise.id(recorder.arena).unwrap();
            }
            second.reserve(2 * CHUNK, false).unwrap();
        }
        let of_recorder = if round < 40 { &mut second } else { &mut first };
        match choice {
            0..=2 => granted += usize::from(guidance.claim(&mut first, 1 + n % 3)),
            3..=5 => granted += usize::from(recorder.claim(of_recorder, 1 + n % 2)),
            6..=7 => granted += usize::from(spool.claim(&mut second, 1)),
            8 => release(&mut guidance, &mut [&mut first], which),
            9..=10 => release(&mut recorder, &mut [of_recorder], which),
            11 => release(&mut spool, &mut [&mut first, &mut second], which),
            _ => purged += first.sweep(choice == 15).unwrap() + second.sweep(choice == 15).unwrap(),
        }
        for program in [&guidance, &recorder, &spool] {
            program.check();
        }
    }
    (granted, purged)
}

#[test]
fn nobody_overwrites_the_other_across_joins() {
    let (granted, purged) = joined(Program::release);
    assert!(
        granted > 30 && purged > 10,
        "{granted} granted, {purged} purged"
    );
}

/// A list has runs of one memory, or of both.
#[test]
fn nobody_overwrites_the_other_with_lists_across_joins() {
    let (granted, purged) = joined(|program, memories, which| program.close(memories, which % 3));
    assert!(
        granted > 30 && purged > 10,
        "{granted} granted, {purged} purged"
    );
}
