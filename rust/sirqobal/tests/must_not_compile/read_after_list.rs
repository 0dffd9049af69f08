// error[E0505]: `ring`
// Bytes of a handle are read after a list that has released it.
#![forbid(unsafe_code)]

use sirqobal::linux::{Error, Memory};
use sirqobal::CHUNK;

fn main() -> Result<(), Error> {
    let mut memory = Memory::new();
    let arena = memory.reserve(CHUNK, true)?;
    let ring = memory.claim(arena, 1)?;
    let bytes: &[u8] = &ring;
    assert!(memory.release_list([ring]).is_empty());
    println!("{}", bytes[7]);
    Ok(())
}
