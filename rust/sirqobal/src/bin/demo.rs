//! Two programs share one arena layer over real memory: guidance (G) keeps its rings in an exclusive
//! arena, the recorder (R) its telemetry in shared ones. Follow it on the terminal. What it says is
//! compared, and it ends with 1 if something is not so. `demo --save FILE` saves the last table,
//! which the program `picture` prints.
#![forbid(unsafe_code)]

use sirqobal::linux::{page_size, Chunks, Memory};
use sirqobal::{saved, Layer, Refusal, ANY, CHUNK, NEVER};
use std::env;
use std::error::Error;
use std::fs;
use std::path::PathBuf;
use std::process::ExitCode;

type Ended = Result<(), Box<dyn Error>>;

fn main() -> ExitCode {
    let arguments: Vec<_> = env::args_os().skip(1).collect();
    let file = match &arguments[..] {
        [] => None,
        [option, file] if option == "--save" => Some(PathBuf::from(file)),
        _ => {
            eprintln!("usage: demo [--save FILE]");
            return ExitCode::from(2);
        }
    };
    let mut drive = Drive::default();
    let ended = drive.run().and_then(|()| drive.save(file));
    match (ended, drive.wrong) {
        (Ok(()), 0) => ExitCode::SUCCESS,
        (Ok(()), wrong) => {
            eprintln!("{wrong} things are not as they should be");
            ExitCode::FAILURE
        }
        (Err(error), _) => {
            eprintln!("turned down: {error}");
            ExitCode::FAILURE
        }
    }
}

/// What a program holds, by name, with the mark that it wrote into every page.
struct Held {
    program: char,
    name: &'static str,
    mark: u8,
    chunks: Chunks,
}

#[derive(Default)]
struct Drive {
    memory: Memory,
    held: Vec<Held>,
    /// Things that are not as the text says.
    wrong: usize,
}

impl Drive {
    fn run(&mut self) -> Ended {
        self.memory.options_mut().reserve = 4 * CHUNK;
        say("Guidance (G) reserves 6 chunks of 32 MiB for itself alone.");
        let guidance = self.memory.reserve(6 * CHUNK, true)?;
        self.show();
        self.rings(guidance)?;
        self.close_spare_ring(guidance)?;
        self.keep_ring(guidance)?;
        let closed = self.close_ring()?;
        self.sweep()?;
        self.next_ring(guidance, closed)?;
        self.look();
        Ok(())
    }

    fn rings(&mut self, guidance: i32) -> Ended {
        say("It claims a run of 2 for ring 1 and a run of 2 for ring 2, and writes every page.");
        self.claim('G', "ring 1", guidance, 2, b'1')?;
        self.claim('G', "ring 2", guidance, 2, b'2')?;
        self.show();

        say("The recorder (R) claims 3 chunks of any shared arena. There is none: 4 are reserved.");
        let telemetry = self.claim('R', "telemetry", ANY, 3, b't')?;
        let fresh = telemetry.is_fresh();
        self.compare("its chunks are fresh", fresh);
        self.show();
        Ok(())
    }

    /// One list gives back the runs of a ring; a run of another layer, which stands among them,
    /// comes back.
    fn close_spare_ring(&mut self, guidance: i32) -> Ended {
        say("A spare ring's 2 runs go back by one call. A run of another layer is turned down.");
        let mut elsewhere = Memory::new();
        let other = elsewhere.reserve(CHUNK, true)?;
        let mut ring = vec![self.memory.claim(guidance, 1)?];
        ring.push(elsewhere.claim(other, 1)?);
        ring.push(self.memory.claim(guidance, 1)?);
        for chunks in &mut ring {
            pages(chunks).for_each(|page| chunks[page] = b's');
        }
        let refused = self.memory.release_list(ring);
        for unreleased in &refused {
            println!("  {unreleased}");
        }
        let by_8 = matches!(&refused[..], [one] if one.error == Refusal::NotInside);
        self.compare("2 are released, 1 is not, by 8", by_8);
        let purged = self.memory.sweep(true)?;
        println!("  {purged} chunks purged");
        self.compare("2 chunks are purged", purged == 2);
        let back = refused.into_iter().map(|unreleased| unreleased.chunks);
        let is_back = elsewhere.release_list(back).is_empty();
        self.compare("the other layer takes its own", is_back);
        drop(elsewhere);
        self.show();
        Ok(())
    }

    /// Closed while the delay means never, ring 1 comes back as it was.
    fn keep_ring(&mut self, guidance: i32) -> Ended {
        say("The purge delay is set to -1: never. Ring 1 is closed and swept, by force too: it stays.");
        let delay = self.memory.options().delay;
        self.memory.options_mut().delay = NEVER;
        let mut ring1 = self.held.remove(0);
        ring1.chunks.fill(ring1.mark);
        let (closed, before) = (ring1.chunks.address(), resident());
        self.memory.release(ring1.chunks)?;
        let purged = self.memory.sweep(false)? + self.memory.sweep(true)?;
        println!("  {purged} chunks purged");
        self.compare("0 chunks are purged", purged == 0);
        self.compare("they stay resident", resident() + 1 >= before);
        self.show();

        say("Claimed again, its chunks still hold every byte. The delay is set back.");
        ring1.chunks = self.memory.claim(guidance, 2)?;
        let chunks = &ring1.chunks;
        let kept = chunks.iter().filter(|byte| **byte == ring1.mark).count();
        println!("  {kept} of {} bytes", chunks.len());
        self.compare("they are where ring 1 was", chunks.address() == closed);
        self.compare("they are not fresh", !chunks.is_fresh());
        self.compare("they hold every byte", kept == chunks.len());
        self.held.insert(0, ring1);
        self.memory.options_mut().delay = delay;
        self.show();
        Ok(())
    }

    /// Where ring 1 was.
    fn close_ring(&mut self) -> Result<u64, Box<dyn Error>> {
        say("Ring 1 is closed again: its chunks are released, and stay resident until a sweep.");
        let ring1 = self.held.remove(0).chunks;
        let closed = ring1.address();
        let before = resident();
        self.memory.release(ring1)?;
        self.compare("they stay resident", resident() + 1 >= before);
        self.show();

        say("The recorder asks for 2 chunks more. Ring 1's are free, but not for it: a new arena.");
        self.claim('R', "telemetry", ANY, 2, b'u')?;
        self.show();
        Ok(closed)
    }

    fn sweep(&mut self) -> Ended {
        say("A forced sweep hands the memory of ring 1's chunks back to the OS.");
        let before = resident();
        let purged = self.memory.sweep(true)?;
        println!("  {purged} chunks purged");
        self.compare("2 chunks are purged", purged == 2);
        let less = before == 0 || resident() + 63 <= before;
        self.compare("64 MiB less are resident", less);
        self.show();
        Ok(())
    }

    fn next_ring(&mut self, guidance: i32, closed: u64) -> Ended {
        say(
            "Guidance wants a run of 3. Free are 2 and 2, apart: turned down, and nothing changes.",
        );
        let before = self.memory.layer().clone();
        match self.memory.claim(guidance, 3) {
            Ok(_) => self.compare("it is turned down", false),
            Err(error) => {
                println!("  {error}");
                self.compare("by 10", error == Refusal::NoRun);
            }
        }
        let unchanged = same(self.memory.layer(), &before);
        self.compare("nothing changes", unchanged);

        say("A run of 2 is granted, the lowest: where ring 1 was.");
        let ring3 = self.claim('G', "ring 3", guidance, 2, b'3')?;
        let (again, fresh) = (ring3.address() == closed, ring3.is_fresh());
        self.compare("it is where ring 1 was", again);
        self.compare("it is not fresh", !fresh);
        self.show();
        Ok(())
    }

    fn look(&mut self) {
        say("Every page still holds what its owner wrote:");
        let mut lost = 0;
        for Held {
            name, chunks, mark, ..
        } in &self.held
        {
            let all = pages(chunks).count();
            let kept = pages(chunks).filter(|page| chunks[*page] == *mark).count();
            let at = chunks.address();
            println!("  {name:<9} at {at:#x}: {kept} of {all} pages");
            lost += all - kept;
        }
        self.compare("every page is its owner's", lost == 0);
    }

    /// Claims for a program, which writes its mark into every page.
    fn claim(
        &mut self,
        program: char,
        name: &'static str,
        arena: i32,
        n: usize,
        mark: u8,
    ) -> Result<&Chunks, Box<dyn Error>> {
        let mut chunks = self.memory.claim(arena, n)?;
        for page in pages(&chunks) {
            chunks[page] = mark;
        }
        self.held.push(Held {
            program,
            name,
            mark,
            chunks,
        });
        Ok(&self.held[self.held.len() - 1].chunks)
    }

    /// Counts and says what is not so.
    fn compare(&mut self, what: &str, so: bool) {
        if !so {
            println!("  NOT SO: {what}");
            self.wrong += 1;
        }
    }

    /// Who holds what, and what is resident.
    fn show(&self) {
        let holder = |chunk| {
            let holds = |held: &&Held| held.chunks.addresses().contains(&chunk);
            self.held.iter().find(holds).map(|held| held.program)
        };
        print!("{}", self.memory.layer().picture().held_by(holder));
        println!("  resident: {} MiB", resident());
    }

    fn save(&self, file: Option<PathBuf>) -> Ended {
        let Some(file) = file else { return Ok(()) };
        let layer = self.memory.layer();
        fs::write(&file, saved::to_bytes(&layer.state(), layer.records()))?;
        println!("\nThe table is saved in {}.", file.display());
        Ok(())
    }
}

/// The same records, stamps and state.
fn same(a: &Layer, b: &Layer) -> bool {
    a.records() == b.records() && a.stamps() == b.stamps() && a.state() == b.state()
}

fn say(text: &str) {
    println!("\n{text}");
}

fn pages(chunks: &Chunks) -> impl Iterator<Item = usize> + Clone {
    (0..chunks.len()).step_by(page_size() as usize)
}

/// MiB of this process in memory; 0 where the system does not say.
fn resident() -> u64 {
    let statm = fs::read_to_string("/proc/self/statm").unwrap_or_default();
    let pages = statm.split(' ').nth(1).and_then(|n| n.parse::<u64>().ok());
    (pages.unwrap_or(0) * page_size()) >> 20
}
