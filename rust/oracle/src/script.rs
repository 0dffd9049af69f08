//! What the stand-ins answer: the numbers given with the call, and the host to whom its questions
//! go. One thread at a time uses the layer; the script is that thread's.

use std::cell::Cell;

/// What a call carries: its clock and its options.
#[derive(Clone, Copy, Debug, PartialEq, Eq)]
pub struct Script {
    /// The clock, in nanoseconds.
    pub ns: u64,
    /// Option 15: the purge delay in milliseconds.
    pub delay: i64,
    /// Option 5: a purge decommits.
    pub decommits: bool,
    /// Option 27: arenas serve only claims that name them.
    pub off: bool,
    /// Option 23, in bytes.
    pub reserve: usize,
    /// `segment_map::contains`.
    pub mapped: bool,
    /// `range_is_reserved`.
    pub reserved: bool,
}

impl Script {
    pub const NONE: Script = Script {
        ns: 0,
        delay: 0,
        decommits: false,
        off: false,
        reserve: 0,
        mapped: false,
        reserved: false,
    };
}

/// A call of the original to the OS.
#[derive(Clone, Copy, Debug, PartialEq, Eq)]
pub enum Question {
    Commit {
        address: u64,
        bytes: u64,
    },
    Purge {
        address: u64,
        bytes: u64,
        decommit: bool,
    },
    Memory {
        bytes: u64,
        align: u64,
        commit: bool,
        large: bool,
    },
    GiveBack {
        address: u64,
        bytes: u64,
    },
}

/// The OS. It is asked in the middle of a call; the layer's state may be read meanwhile.
pub trait Host {
    /// None says no; yes carries the base of the memory, if it was memory that was asked for.
    fn answer(&mut self, question: Question) -> Option<u64>;
}

/// Says no to everything.
pub struct Deny;

impl Host for Deny {
    fn answer(&mut self, _question: Question) -> Option<u64> {
        None
    }
}

thread_local! {
    static SCRIPT: Cell<Script> = const { Cell::new(Script::NONE) };
    static HOST: Cell<Option<*mut dyn Host>> = const { Cell::new(None) };
}

pub fn get() -> Script {
    SCRIPT.get()
}

pub fn set(script: Script) {
    SCRIPT.set(script);
}

/// Makes a call whose questions this host answers.
pub fn with_host<T>(host: &mut dyn Host, call: impl FnOnce() -> T) -> T {
    struct Clear;
    impl Drop for Clear {
        fn drop(&mut self) {
            HOST.set(None);
        }
    }
    let host: *mut (dyn Host + '_) = host;
    // SAFETY: only the lifetime is dropped; `Clear` takes the pointer away before it ends.
    let host: *mut dyn Host = unsafe { std::mem::transmute(host) };
    HOST.set(Some(host));
    let _clear = Clear;
    call()
}

/// Puts a question to the host of the call; a call without one is answered no.
pub fn ask(question: Question) -> Option<u64> {
    // Taken out while it answers, so that it is never borrowed twice.
    let host = HOST.take()?;
    // SAFETY: `with_host` still holds the borrow from which the pointer comes.
    let answer = unsafe { (*host).answer(question) };
    HOST.set(Some(host));
    answer
}
