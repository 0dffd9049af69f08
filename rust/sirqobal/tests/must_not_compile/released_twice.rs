// error[E0382]: `ring`
// A handle is released twice, with another's claim between.
#![forbid(unsafe_code)]

use sirqobal::linux::{Error, Memory};
use sirqobal::CHUNK;

fn main() -> Result<(), Error> {
    let mut memory = Memory::new();
    let arena = memory.reserve(CHUNK, true)?;
    let ring = memory.claim(arena, 1)?;
    memory.release(ring)?;
    let other = memory.claim(arena, 1)?;
    memory.release(ring)?;
    println!("{}", other[7]);
    Ok(())
}
