//! Two memories made one while chunks of both are held. One test: it looks at the mappings of the
//! process, which another test's thread would change.
#![cfg(all(feature = "linux", target_os = "linux"))]

mod maps;

use maps::{area, is_mapped, mapped_pages};
use sirqobal::linux::{Chunks, Error, Memory};
use sirqobal::{Refusal, ANY, CHUNK};
use std::ptr::NonNull;
use std::sync::mpsc;
use std::thread;

#[test]
fn joined_memory() {
    let before = mapped_pages();
    chunks_of_both_go_on().unwrap();
    a_sweep_goes_over_both().unwrap();
    the_emptied_one_is_used_and_joined_again().unwrap();
    for order in [
        [0, 1, 2],
        [0, 2, 1],
        [1, 0, 2],
        [1, 2, 0],
        [2, 0, 1],
        [2, 1, 0],
    ] {
        drops_in_any_order(order).unwrap();
    }
    a_refused_join_leaves_both_whole().unwrap();
    shared_arenas_and_the_mark().unwrap();
    a_managed_range_goes_along().unwrap();
    assert!(mapped_pages() <= before + 2_048, "nothing stays mapped");
    a_writer_does_not_notice().unwrap(); // threads have mappings of their own
}

/// A memory with an exclusive arena of so many chunks, the first of them held and full of a byte.
fn holder(chunks: u64, held: usize, byte: u8) -> Result<(Memory, i32, Chunks), Error> {
    let mut memory = Memory::new();
    memory.options_mut().delay = 3_600_000;
    let id = memory.reserve(chunks * CHUNK, true)?;
    let mut ring = memory.claim(id, held)?;
    ring.fill(byte);
    Ok((memory, id, ring))
}

fn is_full(chunks: &[u8], byte: u8) -> bool {
    chunks.iter().all(|other| *other == byte)
}

fn chunks_of_both_go_on() -> Result<(), Error> {
    let (mut first, guidance, ring) = holder(3, 2, 1)?;
    let (mut second, recorder, telemetry) = holder(3, 1, 2)?;
    assert_eq!(guidance, recorder);
    let areas = [area(&first, guidance), area(&second, recorder)];
    let rise = first.join(&mut second)?;
    let recorder = rise.id(recorder).unwrap();
    assert_eq!((recorder, area(&first, recorder)), (1, areas[1].clone()));
    assert!(is_full(&ring, 1) && is_full(&telemetry, 2));

    // Each gets the lowest run of its own arena, as before.
    let (next, more) = (first.claim(guidance, 1)?, first.claim(recorder, 2)?);
    assert_eq!(next.address(), ring.address() + 2 * CHUNK);
    assert_eq!(more.address(), telemetry.address() + CHUNK);
    assert!(more.is_fresh() && is_full(&more, 0));
    assert_eq!(first.claim(recorder, 1).unwrap_err(), Refusal::NoRun);

    // The second has none of them.
    let mut come_back = Vec::new();
    for chunks in [ring, telemetry, next, more] {
        let unreleased = second.release(chunks).unwrap_err();
        assert_eq!(unreleased.error, Refusal::NotInside);
        come_back.push(unreleased.chunks);
    }
    assert!(is_full(&come_back[0], 1) && is_full(&come_back[1], 2));
    for chunks in come_back {
        first.release(chunks)?;
    }
    assert_eq!(first.layer().records()[1].used, [0; 32]);
    Ok(())
}

fn a_sweep_goes_over_both() -> Result<(), Error> {
    for decommits in [true, false] {
        let (mut first, guidance, ring) = holder(2, 1, 1)?;
        let (mut second, recorder, telemetry) = holder(3, 1, 2)?;
        let mut closed = second.claim(recorder, 1)?;
        closed.fill(3);
        let at = closed.address();
        second.release(closed)?;
        let rise = first.join(&mut second)?;
        assert_eq!((second.sweep(true)?, first.sweep(false)?), (0, 0)); // nothing is due
        first.release(ring)?;
        first.options_mut().decommits = decommits;
        assert_eq!(first.sweep(true)?, 2);
        assert!(is_full(&telemetry, 2));
        let again = first.claim(rise.id(recorder).unwrap(), 1)?;
        assert_eq!((again.address(), again.is_fresh()), (at, false));
        assert!(is_full(&again, 0) && is_full(&first.claim(guidance, 1)?, 0));
    }
    Ok(())
}

fn the_emptied_one_is_used_and_joined_again() -> Result<(), Error> {
    let (mut first, _, ring) = holder(1, 1, 1)?;
    let (mut second, _, telemetry) = holder(1, 1, 2)?;
    let rise = first.join(&mut second)?;
    assert_eq!(rise.ids(), 1..2);
    assert_eq!(second.layer().to_string(), "arenas: none\n");
    assert_eq!(second.claim(ANY, 1).unwrap_err(), Refusal::NoRun);

    let again = second.reserve(2 * CHUNK, true)?;
    let mut spool = second.claim(again, 1)?;
    spool.fill(3);
    let unreleased = first.release(spool).unwrap_err(); // not before it is joined again
    assert_eq!(unreleased.error, Refusal::NotInside);
    let spool = unreleased.chunks;
    let rise = first.join(&mut second)?;
    assert_eq!(rise.id(again), Some(2));
    drop(second);
    assert!(is_full(&ring, 1) && is_full(&telemetry, 2) && is_full(&spool, 3));
    for chunks in [ring, telemetry, spool] {
        first.release(chunks)?;
    }
    assert_eq!(first.sweep(true)?, 3);
    Ok(())
}

/// The first (0), the second (1) and the chunks of both (2) are dropped in this order: an arena
/// goes with the last of the first and its chunks, and takes nothing else along.
fn drops_in_any_order(order: [usize; 3]) -> Result<(), Error> {
    let (mut first, guidance, ring) = holder(2, 1, 1)?;
    let (mut second, recorder, telemetry) = holder(2, 1, 2)?;
    let areas = [area(&first, guidance), area(&second, recorder)];
    let _ = first.join(&mut second)?;
    let own = second.reserve(CHUNK, true)?;
    let own = area(&second, own);
    let mut parts = (Some(first), Some(second), Some([ring, telemetry]));
    for part in order {
        match part {
            0 => drop(parts.0.take()),
            1 => drop(parts.1.take()),
            _ => drop(parts.2.take()),
        }
        let held = parts.0.is_some() || parts.2.is_some();
        assert_eq!(areas.each_ref().map(is_mapped), [held; 2]);
        assert_eq!(is_mapped(&own), parts.1.is_some());
        if let Some([ring, telemetry]) = &parts.2 {
            assert!(is_full(ring, 1) && is_full(telemetry, 2));
        }
    }
    Ok(())
}

fn a_refused_join_leaves_both_whole() -> Result<(), Error> {
    let (mut first, guidance, ring) = holder(2, 1, 1)?;
    let (mut second, recorder, telemetry) = holder(2, 1, 2)?;
    for _ in 1..32 {
        first.reserve(CHUNK, false)?;
    }
    let before = (first.layer().clone(), second.layer().clone());
    let areas = [area(&first, guidance), area(&second, recorder)];
    let error = first.join(&mut second).unwrap_err();
    assert_eq!(
        (error.refusal(), error.errno()),
        (Refusal::TooManyArenas, None)
    );
    for (layer, was) in [(first.layer(), before.0), (second.layer(), before.1)] {
        assert!(layer.records() == was.records() && layer.stamps() == was.stamps());
        assert_eq!(layer.state(), was.state());
    }
    let unreleased = first.release(telemetry).unwrap_err();
    assert_eq!(unreleased.error, Refusal::NotInside);
    assert!(is_full(&ring, 1) && is_full(&unreleased.chunks, 2));
    second.release(unreleased.chunks)?;
    assert_eq!((first.sweep(true)?, second.sweep(true)?), (0, 1));
    assert_eq!(second.claim(recorder, 2)?.address(), areas[1].start);
    drop(second);
    assert_eq!(areas.each_ref().map(is_mapped), [true, false]);
    first.release(ring)?;
    Ok(())
}

/// Claims of any arena are served by those of both; default reserves are tried again where one of
/// the two had not given up. Each keeps its options.
fn shared_arenas_and_the_mark() -> Result<(), Error> {
    let (mut first, mut second) = (Memory::new(), Memory::new());
    first.options_mut().reserve = 1 << 50; // more than there is
    assert_eq!(first.claim(ANY, 1).unwrap_err(), Refusal::NoRun);
    assert!(first.layer().has_given_up());
    second.options_mut().reserve = CHUNK;
    let held = second.claim(ANY, 1)?;
    let rise = first.join(&mut second)?;
    assert_eq!((rise.ids(), rise.id(ANY)), (0..1, Some(ANY)));
    assert!(!first.layer().has_given_up());
    assert_eq!(
        (first.options().reserve, second.options().reserve),
        (1 << 50, CHUNK)
    );
    first.options_mut().reserve = CHUNK;
    let more = first.claim(ANY, 1)?;
    assert_eq!(first.layer().state().count, 2);
    first.release(held)?;
    assert_eq!(first.claim(ANY, 1)?.address(), area(&first, 0).start);
    first.release(more)?;
    Ok(())
}

fn a_managed_range_goes_along() -> Result<(), Error> {
    let mut block = vec![1u8; 3 * CHUNK as usize];
    let bytes = block.len();
    let (mut first, mut second) = (Memory::new(), Memory::new());
    // SAFETY: the block's whole pages, which are used through the two memories alone until both are
    // gone.
    let id = unsafe { second.manage(NonNull::from(&mut block[..]).cast(), bytes, true) }?;
    let rise = first.join(&mut second)?;
    drop(second);
    let id = rise.id(id).unwrap();
    let mut ring = first.claim(id, 2)?;
    assert!(!ring.is_fresh());
    ring.fill(2);
    first.release(ring)?;
    assert_eq!(first.sweep(true)?, 2); // decommitted
    drop(first);
    block.fill(3);
    assert!(is_full(&block, 3));
    Ok(())
}

/// A thread writes its chunks all the while; the memory they are of is joined, released from and
/// swept in another.
fn a_writer_does_not_notice() -> Result<(), Error> {
    let (mut first, _, ring) = holder(2, 1, 1)?;
    let (mut second, recorder, mut telemetry) = holder(2, 1, 2)?;
    let (stop, stopped) = mpsc::channel();
    let writer = thread::spawn(move || {
        let mut byte = 2u8;
        while stopped.try_recv() == Err(mpsc::TryRecvError::Empty) {
            assert!(is_full(&telemetry, byte));
            byte = byte.wrapping_add(1);
            telemetry.fill(byte);
        }
        (telemetry, byte)
    });
    let joiner = thread::spawn(move || {
        first.release(ring)?;
        let rise = first.join(&mut second)?;
        drop(second);
        let purged = first.sweep(true)?;
        let next = first.claim(rise.id(recorder).unwrap(), 1)?;
        first.release(next)?;
        Ok::<_, Error>((first, purged))
    });
    let (mut first, purged) = joiner.join().unwrap()?;
    stop.send(()).unwrap();
    let (telemetry, byte) = writer.join().unwrap();
    assert!(is_full(&telemetry, byte));
    assert_eq!(purged, 1);
    first.release(telemetry)?;
    assert_eq!(first.sweep(true)?, 2);
    Ok(())
}
