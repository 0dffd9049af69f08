// error[E0451]: Chunks
// A handle of chunks that nobody granted.
#![forbid(unsafe_code)]

use sirqobal::linux::{Chunks, Error, Memory};
use sirqobal::CHUNK;

fn main() -> Result<(), Error> {
    let mut memory = Memory::new();
    let arena = memory.reserve(2 * CHUNK, true)?;
    let ring = memory.claim(arena, 1)?;
    let forged = Chunks { n: 2, ..ring };
    println!("{}", forged[7]);
    Ok(())
}
