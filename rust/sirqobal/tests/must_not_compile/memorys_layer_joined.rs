// error[E0596]: as mutable
// The layer over real memory is joined to a book, which then releases what is held.
#![forbid(unsafe_code)]

use sirqobal::linux::{Error, Memory};
use sirqobal::{Layer, Moment, CHUNK};

fn main() -> Result<(), Error> {
    let mut memory = Memory::new();
    let arena = memory.reserve(CHUNK, true)?;
    let ring = memory.claim(arena, 1)?;
    let mut book = Layer::new();
    println!("{:?}", memory.layer().join_tables(Moment::default(), &mut book)?);
    println!("{}", ring[7]);
    Ok(())
}
