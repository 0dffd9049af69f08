// error[E0271]: Item == Chunks
// A list is lent handles, which its program keeps and reads.
#![forbid(unsafe_code)]

use sirqobal::linux::{Error, Memory};
use sirqobal::CHUNK;

fn main() -> Result<(), Error> {
    let mut memory = Memory::new();
    let arena = memory.reserve(CHUNK, true)?;
    let rings = vec![memory.claim(arena, 1)?];
    println!("{}", memory.release_list(&rings).len());
    println!("{}", rings[0][7]);
    Ok(())
}
