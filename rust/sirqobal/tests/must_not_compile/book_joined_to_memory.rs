// error[E0308]: mismatched types
// A book with a heap block in it is joined to a layer over real memory, which would grant the block.
#![forbid(unsafe_code)]

use sirqobal::linux::{Error, Memory};
use sirqobal::{Layer, Moment, CHUNK};

fn main() -> Result<(), Error> {
    let block = vec![1u8; 4 * CHUNK as usize];
    let start = (block.as_ptr() as u64).next_multiple_of(CHUNK);
    let mut book = Layer::new();
    book.adopt_os_block(Moment::default(), start, CHUNK)?;
    println!("{:?}", Memory::new().join(&mut book)?);
    println!("{}", block[4 * CHUNK as usize - 1]);
    Ok(())
}
