//! The calls of the arena layer on plain numbers, and its state. All state is the original's
//! statics: use it from one thread of the process.

use crate::arena;
use crate::prim::{at, take_descriptors, Kept};
use crate::script::{self, with_host};

pub use crate::arena::Record;
pub use crate::script::{Deny, Host, Question, Script};

/// Bytes in a chunk.
pub const CHUNK: u64 = crate::types::SEGMENT_SIZE as u64;

/// A run that a claim was granted.
#[derive(Clone, Copy, Debug, PartialEq, Eq)]
pub struct Run {
    pub address: u64,
    pub fresh: bool,
    /// Only `chunk_claim` says it.
    pub committed: Option<bool>,
}

impl From<(*mut u8, bool)> for Run {
    fn from((ptr, fresh): (*mut u8, bool)) -> Run {
        Run {
            address: ptr.addr() as u64,
            fresh,
            committed: None,
        }
    }
}

/// The numbers that the next calls carry. A page size that does not divide 65,536 would abort.
pub fn carry(script: Script, page: usize) {
    script::set(script);
    crate::os::set_page_size(page);
}

/// The empty layer.
pub fn reset() {
    script::set(Script::NONE);
    arena::reset();
    take_descriptors();
}

pub fn reserve_os_memory_ex(
    host: &mut dyn Host,
    size: u64,
    commit: bool,
    allow_large: bool,
    exclusive: bool,
) -> Option<i32> {
    let call = || arena::reserve_os_memory_ex(size as usize, commit, allow_large, exclusive);
    with_host(host, call).ok()
}

pub fn manage_os_memory_ex(
    start: u64,
    size: u64,
    [is_committed, is_large, is_zero]: [bool; 3],
    node: i32,
    exclusive: bool,
) -> Option<i32> {
    arena::manage_os_memory_ex(
        at(start),
        size as usize,
        is_committed,
        is_large,
        is_zero,
        node,
        exclusive,
    )
    .ok()
}

pub fn adopt_os_block(address: u64, size: u64) -> Option<i32> {
    arena::adopt(at(address), size as usize)
}

pub fn chunk_alloc(host: &mut dyn Host, id: i32) -> Option<Run> {
    with_host(host, || arena::chunk_alloc(id)).map(Run::from)
}

pub fn chunk_claim(host: &mut dyn Host, id: i32) -> Option<Run> {
    let run = with_host(host, || arena::chunk_claim(id));
    run.map(|(ptr, fresh, committed)| Run {
        committed: Some(committed),
        ..Run::from((ptr, fresh))
    })
}

pub fn chunk_alloc_n(host: &mut dyn Host, id: i32, n: usize) -> Option<Run> {
    with_host(host, || arena::chunk_alloc_n(id, n)).map(Run::from)
}

pub fn chunk_release(address: u64, n: usize, told: Option<bool>, pending: bool) -> bool {
    arena::chunk_release(at(address), n, told, pending)
}

pub fn purge_due(host: &mut dyn Host, force: bool) -> usize {
    with_host(host, || arena::purge_due(force))
}

pub fn owns(address: u64) -> bool {
    arena::owns(at(address))
}

/// Base and bytes, or 0 and 0.
pub fn arena_area(id: i32) -> (u64, u64) {
    let (ptr, bytes) = arena::arena_area(id);
    (ptr.addr() as u64, bytes as u64)
}

/// What `arenas_print` prints.
pub fn print() -> String {
    let mut text = String::new();
    arena::arenas_print(&mut |line| text += line);
    text
}

/// Arenas that stand.
pub fn count() -> usize {
    arena::count()
}

/// Whether default reserves are given up.
pub fn mark() -> bool {
    arena::mark()
}

/// The record of an arena that stands.
pub fn record(id: usize) -> Record {
    arena::record(id)
}

/// The 1,024 stamps of an arena that stands.
pub fn stamps(id: usize) -> [u32; 1_024] {
    arena::with_stamps(id, |stamps| *stamps)
}

/// Whether these are the stamps of an arena that stands.
pub fn stamps_are(id: usize, these: &[u32]) -> bool {
    arena::with_stamps(id, |stamps| stamps == these)
}

/// Puts the layer into this state, whose records are sound.
pub fn load(mark: bool, records: &[Record], stamps: &[u32]) {
    reset();
    arena::set_mark(mark);
    crate::os::set_page_size(4_096);
    for (record, stamps) in records.iter().zip(stamps.chunks(1_024)) {
        arena::push(record, stamps);
    }
}

/// A layer that is put aside while others stand in the statics.
#[derive(Default)]
pub struct Aside {
    statics: arena::Statics,
    descriptors: Kept,
}

/// Puts the layer aside. The empty one stands then.
pub fn put_aside() -> Aside {
    Aside {
        statics: arena::take(),
        descriptors: Kept::take(),
    }
}

/// Takes back a layer that was put aside. The one that stood is dropped.
pub fn take_back(layer: Aside) {
    reset();
    arena::put(layer.statics);
    layer.descriptors.put();
}

/// Joins a layer that was put aside to the one that stands. The original has no such call: this is
/// document 02's on its statics. The descriptors move, which know no id.
pub fn join(second: Aside) {
    arena::join(second.statics);
    second.descriptors.put();
}
