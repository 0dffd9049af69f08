// error: unused `Rise`
// The second's ids are used as they were: 0 is the first's arena now.
#![forbid(unsafe_code)]
#![deny(unused_must_use)]

use sirqobal::linux::{Error, Memory};
use sirqobal::CHUNK;

fn main() -> Result<(), Error> {
    let (mut first, mut second) = (Memory::new(), Memory::new());
    first.reserve(CHUNK, true)?;
    let arena = second.reserve(CHUNK, true)?;
    first.join(&mut second)?;
    println!("{:?}", first.claim(arena, 1)?);
    Ok(())
}
