//! What a `Memory` does with real memory. One test: it looks at the mappings of the process, which
//! another test's thread would change.
#![cfg(all(feature = "linux", target_os = "linux"))]

mod maps;

use maps::{area, is_mapped, mapped_pages};
use sirqobal::linux::{page_size, Chunks, Error, Memory};
use sirqobal::{Refusal, ANY, CHUNK};
use std::ptr::NonNull;
use std::thread;

#[test]
fn real_memory() {
    mappings_go_back_on_drop().unwrap();
    chunks_outlive_the_memory().unwrap();
    what_is_not_registered_is_unmapped();
    another_memorys_chunks_come_back().unwrap();
    a_purge_without_decommit_is_over_at_once().unwrap();
    chunks_and_memory_change_threads().unwrap();
    a_managed_range_comes_back_usable().unwrap();
    many_arenas_and_the_last_reserve().unwrap();
}

fn mappings_go_back_on_drop() -> Result<(), Error> {
    let mut memory = Memory::new();
    let one = memory.reserve(3 * CHUNK, true)?;
    let two = memory.reserve(CHUNK, false)?;
    let ring = memory.claim(one, 2)?;
    let areas = [area(&memory, one), area(&memory, two)];
    assert!(areas.iter().all(is_mapped));
    memory.release(ring)?;
    drop(memory);
    assert!(!areas.iter().any(is_mapped));
    Ok(())
}

fn chunks_outlive_the_memory() -> Result<(), Error> {
    let mut memory = Memory::new();
    let (kept, gone) = (
        memory.reserve(2 * CHUNK, true)?,
        memory.reserve(CHUNK, true)?,
    );
    let areas = [area(&memory, kept), area(&memory, gone)];
    let mut ring = memory.claim(kept, 1)?;
    let leaked = memory.claim(gone, 1)?;
    drop(leaked); // not released: it stays claimed, and goes with the memory
    assert_eq!(memory.claim(gone, 1).unwrap_err(), Refusal::NoRun);
    drop(memory);
    assert!(is_mapped(&areas[0]) && !is_mapped(&areas[1]));
    ring.fill(3);
    assert!(ring.iter().all(|byte| *byte == 3));
    drop(ring);
    assert!(!is_mapped(&areas[0]));
    Ok(())
}

fn what_is_not_registered_is_unmapped() {
    let mut memory = Memory::new();
    let before = mapped_pages();
    // A page, and more chunks than an arena has: both are given back.
    assert_eq!(memory.reserve(0, true).unwrap_err(), Refusal::ChunkCount);
    let large = memory.reserve(1_025 * CHUNK, true).unwrap_err();
    assert_eq!(
        (large.refusal(), large.errno()),
        (Refusal::ChunkCount, None)
    );
    assert_eq!(mapped_pages(), before);
}

fn another_memorys_chunks_come_back() -> Result<(), Error> {
    let (mut one, mut other) = (Memory::new(), Memory::new());
    let (id, same_id) = (one.reserve(CHUNK, true)?, other.reserve(CHUNK, true)?);
    assert_eq!(id, same_id);
    let mut ring = one.claim(id, 1)?;
    ring[9] = 9;
    let unreleased = other.release(ring).unwrap_err();
    assert_eq!(unreleased.error, Refusal::NotInside);
    assert_eq!(unreleased.chunks[9], 9);
    // Nor by a memory that stands where the first was.
    drop(one);
    let mut third = Memory::new();
    third.reserve(CHUNK, true)?;
    let unreleased = third.release(unreleased.chunks).unwrap_err();
    assert!(unreleased.to_string().contains("refusal 8"));
    assert_eq!(unreleased.chunks[9], 9);
    Ok(())
}

/// With MADV_FREE the bytes would stay, and go at any time later.
fn a_purge_without_decommit_is_over_at_once() -> Result<(), Error> {
    let mut memory = Memory::new();
    memory.options_mut().decommits = false;
    let id = memory.reserve(CHUNK, true)?;
    let mut ring = memory.claim(id, 1)?;
    ring.fill(5);
    memory.release(ring)?;
    assert_eq!(memory.sweep(true)?, 1);
    assert_eq!(memory.layer().records()[0].committed[0], 1);
    let ring = memory.claim(id, 1)?;
    assert!(!ring.is_fresh() && ring.iter().all(|byte| *byte == 0));
    Ok(())
}

fn chunks_and_memory_change_threads() -> Result<(), Error> {
    fn crosses<T: Send + Sync>() {}
    crosses::<Memory>();
    crosses::<Chunks>();
    let mut memory = Memory::new();
    let id = memory.reserve(2 * CHUNK, true)?;
    let (mut one, two) = (memory.claim(id, 1)?, memory.claim(id, 1)?);
    let writer = thread::spawn(move || {
        one.fill(1);
        one
    });
    memory.release(two)?;
    assert_eq!(memory.sweep(true)?, 1); // beside the writing
    let one = writer.join().unwrap();
    assert!(one.iter().all(|byte| *byte == 1));
    let sweeper = thread::spawn(move || {
        memory.release(one)?;
        memory.sweep(true)
    });
    assert_eq!(sweeper.join().unwrap()?, 1);
    Ok(())
}

fn a_managed_range_comes_back_usable() -> Result<(), Error> {
    let mut block = vec![1u8; 3 * CHUNK as usize];
    let bytes = block.len();
    let mut memory = Memory::new();
    // SAFETY: the block's whole pages, which are used through the memory alone until it is gone.
    let id = unsafe { memory.manage(NonNull::from(&mut block[..]).cast(), bytes, true) }?;
    let chunks = area(&memory, id).end / CHUNK - area(&memory, id).start / CHUNK;
    let mut ring = memory.claim(id, chunks as usize)?;
    assert!(!ring.is_fresh());
    ring.fill(2);
    memory.release(ring)?;
    assert_eq!(memory.sweep(true)?, chunks as usize); // decommitted
    drop(memory);
    block.fill(3);
    assert!(block.iter().all(|byte| *byte == 3));
    Ok(())
}

/// 32 arenas stand; the default reserve that fails is the last one.
fn many_arenas_and_the_last_reserve() -> Result<(), Error> {
    let mut memory = Memory::new();
    memory.options_mut().reserve = CHUNK;
    let mut held = Vec::new();
    for _ in 0..32 {
        let mut chunk = memory.claim(ANY, 1)?;
        chunk[page_size() as usize] = 1;
        held.push(chunk);
    }
    assert!(!memory.layer().has_given_up());
    let before = mapped_pages();
    assert_eq!(memory.claim(ANY, 1).unwrap_err(), Refusal::NoRun);
    assert!(memory.layer().has_given_up());
    assert_eq!(mapped_pages(), before);
    for chunk in held {
        memory.release(chunk)?;
    }
    assert_eq!(memory.sweep(true)?, 32);
    Ok(())
}
