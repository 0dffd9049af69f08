// error[E0308]: mismatched types
// What an id rises by is taken for the id.
#![forbid(unsafe_code)]

use sirqobal::linux::{Error, Memory};
use sirqobal::CHUNK;

fn main() -> Result<(), Error> {
    let (mut first, mut second) = (Memory::new(), Memory::new());
    second.reserve(CHUNK, true)?;
    let rise = first.join(&mut second)?;
    println!("{:?}", first.claim(rise, 1)?);
    Ok(())
}
