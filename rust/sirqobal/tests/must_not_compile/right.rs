// This one compiles, links and runs: the others fail for what they do, not for how they are built.
#![forbid(unsafe_code)]

use sirqobal::linux::{Error, Memory};
use sirqobal::{Layer, Moment, CHUNK};

fn main() -> Result<(), Error> {
    let mut memory = Memory::new();
    let arena = memory.reserve(2 * CHUNK, true)?;
    let mut ring = memory.claim(arena, 2)?;
    ring[7] = 7;
    // A copy of the book, which reaches no memory.
    let mut copy: Layer = memory.layer().clone();
    copy.chunk_release(Moment::default(), ring.address(), 1, None, true)?;
    assert_eq!(ring[7], 7);
    memory.release(ring)?;
    assert_eq!(memory.sweep(true)?, 2);
    // Another memory is joined to it, and its arena named by its new id.
    let mut second = Memory::new();
    let other = second.reserve(CHUNK, true)?;
    let rise = memory.join(&mut second)?;
    let chunk = memory.claim(rise.id(other).unwrap(), 1)?;
    // Chunks of both go by one call.
    let ring = memory.claim(arena, 2)?;
    assert!(memory.release_list([ring, chunk]).is_empty());
    // A copy of the book is joined to another book.
    assert_eq!(Layer::new().join_tables(Moment::default(), &mut copy)?.ids(), 0..1);
    Ok(())
}
