// error[E0499]: `memory`
// A memory is joined to itself: every arena would stand twice.
#![forbid(unsafe_code)]

use sirqobal::linux::{Error, Memory};
use sirqobal::CHUNK;

fn main() -> Result<(), Error> {
    let mut memory = Memory::new();
    memory.reserve(CHUNK, true)?;
    println!("{:?}", memory.join(&mut memory)?);
    Ok(())
}
