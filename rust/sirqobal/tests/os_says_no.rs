//! The OS's reason is kept. Each case runs in a process of its own, with a limit that the shell sets.
#![cfg(all(feature = "linux", target_os = "linux"))]

use sirqobal::linux::{Error, Memory};
use sirqobal::{Refusal, ANY, CHUNK};
use std::env;
use std::process::Command;

const LIMITED: &str = "SIRQOBAL_TEST_LIMITED";
const ENOMEM: Option<i32> = Some(12);

/// Runs a test of this file again, under a limit in KiB.
fn under(limit: &str, test: &str) {
    let run = format!("ulimit {limit} && exec \"$0\" --exact {test} --nocapture");
    let status = Command::new("sh")
        .args(["-c", &run])
        .arg(env::current_exe().unwrap())
        .env(LIMITED, "1")
        .status();
    assert!(status.unwrap().success(), "{test} under ulimit {limit}");
}

fn is_limited() -> bool {
    env::var_os(LIMITED).is_some()
}

#[test]
fn a_commit_is_refused() -> Result<(), Error> {
    if !is_limited() {
        under("-d 150000", "a_commit_is_refused");
        return Ok(());
    }
    let mut memory = Memory::new();
    let id = memory.reserve(8 * CHUNK, true)?;
    let error = memory.claim(id, 8).unwrap_err();
    assert_eq!(
        (error.refusal(), error.errno()),
        (Refusal::CommitRefused, ENOMEM)
    );
    assert_eq!(memory.os_error().and_then(|os| os.raw_os_error()), ENOMEM);
    assert!(error.to_string().contains("os error 12"), "{error}");
    // Nothing is held, and less is granted.
    assert_eq!(memory.layer().records()[0].used, [0; 32]);
    let mut ring = memory.claim(id, 1)?;
    ring.fill(1);
    assert!(memory.os_error().is_none());
    memory.release(ring)?;
    Ok(())
}

#[test]
fn a_reserve_is_refused() -> Result<(), Error> {
    if !is_limited() {
        under("-v 300000", "a_reserve_is_refused");
        return Ok(());
    }
    let mut memory = Memory::new();
    let error = memory.reserve(10 * CHUNK, true).unwrap_err();
    assert_eq!(
        (error.refusal(), error.errno()),
        (Refusal::MemoryRefused, ENOMEM)
    );
    // The default reserve fails, and is given up for good.
    memory.options_mut().reserve = 10 * CHUNK;
    let error = memory.claim(ANY, 1).unwrap_err();
    assert_eq!((error.refusal(), error.errno()), (Refusal::NoRun, ENOMEM));
    assert!(memory.layer().has_given_up());
    memory.options_mut().reserve = CHUNK;
    let error = memory.claim(ANY, 1).unwrap_err();
    assert_eq!((error.refusal(), error.errno()), (Refusal::NoRun, None));
    // An arena that is asked for is reserved still.
    let id = memory.reserve(CHUNK, false)?;
    let chunk = memory.claim(ANY, 1)?;
    assert_eq!(memory.layer().state().count, id as usize + 1);
    memory.release(chunk)?;
    Ok(())
}
