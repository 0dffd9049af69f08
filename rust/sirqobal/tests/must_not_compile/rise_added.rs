// error[E0277]: `Rise`
// ANY plus what ids rise by would name the last arena of the first, which is another's.
#![forbid(unsafe_code)]

use sirqobal::linux::{Error, Memory};
use sirqobal::{ANY, CHUNK};

fn main() -> Result<(), Error> {
    let (mut first, mut second) = (Memory::new(), Memory::new());
    first.reserve(CHUNK, true)?;
    let rise = first.join(&mut second)?;
    println!("{:?}", first.claim(ANY + rise, 1)?);
    Ok(())
}
