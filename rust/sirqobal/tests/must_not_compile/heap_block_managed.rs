// error[E0133]: Memory::manage
// A heap block is managed without a word of `unsafe`.
#![forbid(unsafe_code)]

use sirqobal::linux::{Error, Memory};
use sirqobal::CHUNK;
use std::ptr::NonNull;

fn main() -> Result<(), Error> {
    let mut block = vec![1u8; 4 * CHUNK as usize];
    let start = NonNull::from(&mut block[0]);
    Memory::new().manage(start, 4 * CHUNK as usize, true)?;
    println!("{}", block[7]);
    Ok(())
}
