// error[E0616]: `os`
// A copy of the layer releases what is held, and is swept through the host that talks to the OS.
#![forbid(unsafe_code)]

use sirqobal::linux::{Error, Memory};
use sirqobal::{Moment, CHUNK};

fn main() -> Result<(), Error> {
    let mut memory = Memory::new();
    let arena = memory.reserve(CHUNK, true)?;
    let ring = memory.claim(arena, 1)?;
    let mut copy = memory.layer().clone();
    copy.chunk_release(Moment::default(), ring.address(), 1, None, true)?;
    copy.purge_due(Moment::default(), true).settle(Moment::default(), &mut memory.os)?;
    println!("{}", ring[7]);
    Ok(())
}
