// error[E0596]: as mutable
// A heap block is adopted into the layer over real memory, released and swept.
#![forbid(unsafe_code)]

use sirqobal::linux::{Error, Memory};
use sirqobal::{Moment, CHUNK};

fn main() -> Result<(), Error> {
    let block = vec![1u8; 4 * CHUNK as usize];
    let start = (block.as_ptr() as u64).next_multiple_of(CHUNK);
    let mut memory = Memory::new();
    let layer = memory.layer();
    layer.adopt_os_block(Moment::default(), start, CHUNK)?;
    layer.chunk_release(Moment::default(), start, 1, None, true)?;
    memory.sweep(true)?;
    println!("{}", block[4 * CHUNK as usize - 1]);
    Ok(())
}
