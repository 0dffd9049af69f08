// error[E0382]: `ring`
// A handle stands in a list twice.
#![forbid(unsafe_code)]

use sirqobal::linux::{Error, Memory};
use sirqobal::CHUNK;

fn main() -> Result<(), Error> {
    let mut memory = Memory::new();
    let arena = memory.reserve(CHUNK, true)?;
    let ring = memory.claim(arena, 1)?;
    println!("{}", memory.release_list([ring, ring]).len());
    Ok(())
}
