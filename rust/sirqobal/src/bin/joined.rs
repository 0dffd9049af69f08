//! Two programs, each on an arena layer of its own over real memory, are switched over to one layer
//! while both hold chunks: guidance (G) and the recorder (R) go on, each in its exclusive arena.
//! Follow it on the terminal. What it says is compared, every byte that is held too, and it ends
//! with 1 if something is not so. `joined --save FILE` saves the joined table, which the program
//! `picture` prints.
#![forbid(unsafe_code)]

use sirqobal::linux::{Chunks, Memory};
use sirqobal::{saved, Layer, Refusal, Rise, ANY, CHUNK};
use std::env;
use std::error::Error;
use std::fs;
use std::path::{Path, PathBuf};
use std::process::ExitCode;

type Ended<T = ()> = Result<T, Box<dyn Error>>;

fn main() -> ExitCode {
    let arguments: Vec<_> = env::args_os().skip(1).collect();
    let file = match &arguments[..] {
        [] => None,
        [option, file] if option == "--save" => Some(PathBuf::from(file)),
        _ => {
            eprintln!("usage: joined [--save FILE]");
            return ExitCode::from(2);
        }
    };
    let mut stage = Stage::default();
    match (run(&mut stage, file.as_deref()), stage.wrong) {
        (Ok(()), 0) => ExitCode::SUCCESS,
        (Ok(()), wrong) => {
            eprintln!("{wrong} things are not as they should be");
            ExitCode::FAILURE
        }
        (Err(error), _) => {
            eprintln!("turned down: {error}");
            ExitCode::FAILURE
        }
    }
}

fn run(stage: &mut Stage, file: Option<&Path>) -> Ended {
    let (mut first, mut second) = (Memory::new(), Memory::new());
    let guidance = stage.guidance_alone(&mut first)?;
    let (recorder, closed) = stage.recorder_alone(&mut second)?;
    let rise = stage.switch_over(&mut first, &mut second)?;
    let recorder = rise.id(recorder).ok_or("it has lost its arena")?;
    stage.begin_anew(&mut second)?;
    let ring1 = stage.release_and_sweep(&mut first)?;
    stage.go_on(&mut first, (guidance, ring1), (recorder, closed))?;
    stage.turned_down(&mut first);
    stage.look("Every byte still is what its owner wrote:");
    save(first.layer(), file)?;
    drop((first, second));
    stage.look("Both layers are dropped. What is held stays until its holder lets go of it:");
    Ok(())
}

/// What a program holds, by name. Each word of it has the mark and its own address.
struct Held {
    program: char,
    name: &'static str,
    mark: u8,
    chunks: Chunks,
}

impl Held {
    fn word(&self, place: usize) -> [u8; 8] {
        let address = self.chunks.address() + 8 * place as u64;
        (u64::from(self.mark) << 56 | address).to_le_bytes()
    }

    fn write(&mut self) {
        for place in 0..self.chunks.len() / 8 {
            let word = self.word(place);
            self.chunks[8 * place..][..8].copy_from_slice(&word);
        }
    }

    /// How many bytes are as they were written.
    fn kept(&self) -> usize {
        let words = self.chunks.chunks_exact(8).enumerate();
        8 * words
            .filter(|(place, word)| *word == self.word(*place))
            .count()
    }
}

/// Who holds what, and how many things are not as the text says.
#[derive(Default)]
struct Stage {
    held: Vec<Held>,
    wrong: usize,
}

impl Stage {
    fn guidance_alone(&mut self, first: &mut Memory) -> Ended<i32> {
        say("Guidance (G) has a layer of its own, 6 chunks for itself alone, and claims 2 rings.");
        let arena = first.reserve(6 * CHUNK, true)?;
        self.claim(first, 'G', "ring 1", arena, 2, b'1')?;
        self.claim(first, 'G', "ring 2", arena, 2, b'2')?;
        self.show(first);
        Ok(arena)
    }

    /// Its exclusive arena, and where it has released a chunk.
    fn recorder_alone(&mut self, second: &mut Memory) -> Ended<(i32, u64)> {
        say("The recorder (R) has another: 4 chunks for itself alone, 2 shared; 1 is released.");
        let arena = second.reserve(4 * CHUNK, true)?;
        second.reserve(2 * CHUNK, false)?;
        let lines = self.claim(second, 'R', "lines", arena, 1, b'l')?;
        let closed = lines.address();
        self.claim(second, 'R', "telemetry", arena, 2, b't')?;
        self.claim(second, 'R', "spool", ANY, 1, b's')?;
        second.release(self.take("lines")?)?;
        self.show(second);
        Ok((arena, closed))
    }

    fn switch_over(&mut self, first: &mut Memory, second: &mut Memory) -> Ended<Rise> {
        say("Switch-over: the recorder's table is joined; its arenas 0 and 1 are 1 and 2 now.");
        let (one, two) = (first.layer().clone(), second.layer().clone());
        let rise = first.join(second)?;
        self.show(first);
        println!("The recorder's own layer is left empty:");
        self.show(second);
        let joined = first.layer();
        self.compare("ids 0 and 1 are 1 and 2", rise.ids() == (1..3));
        let [before, after] =
            [&one, joined].map(|layer| (layer.records()[0], &layer.stamps()[..1_024]));
        self.compare("guidance's arena is as it was", before == after);
        let same = joined.records()[1..3] == two.records()[..2];
        self.compare("the recorder's arenas are as they were", same);
        let same = joined.stamps()[1_024..3_072] == two.stamps()[..2_048];
        self.compare("so are their stamps", same);
        self.compare(
            "its own layer is empty",
            is_same(second.layer(), &Layer::new()),
        );
        self.compare("not a byte has changed", self.lost() == 0);
        Ok(rise)
    }

    fn begin_anew(&mut self, second: &mut Memory) -> Ended {
        say("It begins anew: a new arena there has number 0 again.");
        let arena = second.reserve(CHUNK, true)?;
        self.compare("it is number 0", arena == 0);
        self.claim(second, 'R', "journal", arena, 1, b'j')?;
        self.show(second);
        Ok(())
    }

    /// Where ring 1 was.
    fn release_and_sweep(&mut self, first: &mut Memory) -> Ended<u64> {
        say("Ring 1 and telemetry are released. A sweep purges them, and the 1 released before.");
        let ring1 = self.take("ring 1")?;
        let address = ring1.address();
        first.release(ring1)?;
        first.release(self.take("telemetry")?)?;
        let purged = first.sweep(true)?;
        println!("  {purged} chunks purged");
        self.compare("5 chunks are purged", purged == 5);
        self.show(first);
        Ok(address)
    }

    /// Each claims in its arena, and gets the lowest run: where it gave one back.
    fn go_on(&mut self, first: &mut Memory, guidance: (i32, u64), recorder: (i32, u64)) -> Ended {
        say("Each claims in its arena, by the id of now: the lowest run, where it gave one back.");
        let ring3 = self.claim(first, 'G', "ring 3", guidance.0, 2, b'3')?;
        let again = ring3.address() == guidance.1 && !ring3.is_fresh();
        self.compare("it is where ring 1 was, and not fresh", again);
        let frames = self.claim(first, 'R', "frames", recorder.0, 3, b'f')?;
        let again = frames.address() == recorder.1 && !frames.is_fresh();
        self.compare("it is where the lines were, and not fresh", again);
        self.show(first);
        Ok(())
    }

    fn turned_down(&mut self, first: &mut Memory) {
        say("The recorder wants 2 that are shared. Free is 1; guidance has 2, but not for it.");
        let before = first.layer().clone();
        match first.claim(ANY, 2) {
            Ok(_) => self.compare("it is turned down", false),
            Err(error) => {
                println!("  {error}");
                self.compare("by 10", error == Refusal::NoRun);
            }
        }
        self.compare("nothing changes", is_same(first.layer(), &before));
    }

    /// Compares every byte that is held.
    fn look(&mut self, text: &str) {
        say(text);
        for held in &self.held {
            let (name, at) = (held.name, held.chunks.address());
            let (kept, all) = (held.kept(), held.chunks.len());
            println!("  {name:<9} at {at:#x}: {kept} of {all} bytes");
        }
        self.compare("every byte is its owner's", self.lost() == 0);
    }

    fn lost(&self) -> usize {
        let lost = |held: &Held| held.chunks.len() - held.kept();
        self.held.iter().map(lost).sum()
    }

    /// Claims for a program, which writes every byte.
    fn claim(
        &mut self,
        memory: &mut Memory,
        program: char,
        name: &'static str,
        arena: i32,
        n: usize,
        mark: u8,
    ) -> Ended<&Chunks> {
        let mut held = Held {
            program,
            name,
            mark,
            chunks: memory.claim(arena, n)?,
        };
        held.write();
        self.held.push(held);
        Ok(&self.held[self.held.len() - 1].chunks)
    }

    /// The chunks of this name, to be released.
    fn take(&mut self, name: &str) -> Ended<Chunks> {
        let found = self.held.iter().position(|held| held.name == name);
        let place = found.ok_or("nobody holds it")?;
        Ok(self.held.remove(place).chunks)
    }

    /// Counts and says what is not so.
    fn compare(&mut self, what: &str, so: bool) {
        if !so {
            println!("  NOT SO: {what}");
            self.wrong += 1;
        }
    }

    fn show(&self, memory: &Memory) {
        let holder = |chunk| {
            let holds = |held: &&Held| held.chunks.addresses().contains(&chunk);
            self.held.iter().find(holds).map(|held| held.program)
        };
        print!("{}", memory.layer().picture().held_by(holder));
    }
}

fn save(layer: &Layer, file: Option<&Path>) -> Ended {
    let Some(file) = file else { return Ok(()) };
    fs::write(file, saved::to_bytes(&layer.state(), layer.records()))?;
    println!("\nThe table is saved in {}.", file.display());
    Ok(())
}

/// The same records, stamps and state.
fn is_same(a: &Layer, b: &Layer) -> bool {
    a.records() == b.records() && a.stamps() == b.stamps() && a.state() == b.state()
}

fn say(text: &str) {
    println!("\n{text}");
}
