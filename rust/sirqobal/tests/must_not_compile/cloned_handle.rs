// error[E0599]: `clone`
// One handle is released, its copy still reads.
#![forbid(unsafe_code)]

use sirqobal::linux::{Chunks, Error, Memory};
use sirqobal::CHUNK;

fn main() -> Result<(), Error> {
    let mut memory = Memory::new();
    let arena = memory.reserve(CHUNK, true)?;
    let ring = memory.claim(arena, 1)?;
    let copy: Chunks = ring.clone();
    memory.release(ring)?;
    println!("{}", copy[7]);
    Ok(())
}
