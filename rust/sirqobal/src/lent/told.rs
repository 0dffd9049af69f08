/// What each call carries beside the clock. A flag is on unless it is 0.
#[repr(C)]
#[derive(Clone, Copy, Debug, PartialEq, Eq)]
pub struct Settings {
    /// The purge delay in milliseconds (option 15); above 1,073,741,823 it counts as that. Negative:
    /// never ([`NEVER`](crate::NEVER)). Only a release and a sweep read it.
    pub delay: i64,
    /// A purge decommits (option 5).
    pub decommits: u32,
    /// Arenas serve only claims that name them (option 27).
    pub off: u32,
    /// The default reserve in bytes (option 23). The first one that fails is the last: it sets
    /// [`State::mark`](super::State::mark).
    pub reserve: u64,
    /// The page size: 4,096 .. 65,536, a power of two.
    pub page: u64,
}

impl Default for Settings {
    /// Purges after 10 ms, which decommit; no default reserve; pages of 4,096 bytes.
    fn default() -> Settings {
        Settings {
            delay: 10,
            decommits: 1,
            off: 0,
            reserve: 0,
            page: 4_096,
        }
    }
}

/// A call with its own numbers.
#[derive(Clone, Copy, Debug, PartialEq, Eq)]
pub enum Call {
    /// Asks the host for memory, rounded up to whole chunks.
    ReserveOsMemory {
        /// In bytes.
        size: u64,
        /// The memory is to be committed.
        commit: bool,
        /// It may be on large pages.
        allow_large: bool,
        /// The arena serves only claims that name its id.
        exclusive: bool,
    },
    /// Registers the whole chunks inside a range that the host has.
    ManageOsMemory {
        /// Where the range begins.
        start: u64,
        /// Its bytes.
        size: u64,
        /// is_committed, is_large, is_zero: they change nothing.
        flags: [bool; 3],
        /// The NUMA node, only stored.
        node: i32,
        /// The arena serves only claims that name its id.
        exclusive: bool,
        /// The host's fact: it is in the segment map already.
        mapped: bool,
        /// The host's fact: it is reserved.
        reserved: bool,
    },
    /// Takes over a block of the allocator's own.
    AdoptOsBlock {
        /// Where the block begins.
        address: u64,
        /// Its bytes.
        size: u64,
    },
    /// Claims one chunk, committed.
    ChunkAlloc {
        /// The arena; negative: every one that is not exclusive.
        id: i32,
    },
    /// Claims one chunk as it is.
    ChunkClaim {
        /// The arena; negative: every one that is not exclusive.
        id: i32,
    },
    /// Claims a run, committed.
    ChunkAllocN {
        /// The arena; negative: every one that is not exclusive.
        id: i32,
        /// The run's chunks.
        n: usize,
    },
    /// Releases a run.
    ChunkRelease {
        /// Where the run begins.
        address: u64,
        /// Its chunks.
        n: usize,
        /// Negative: nothing is said of commitment; 0: not committed; positive: committed.
        told: i32,
        /// A later sweep is to purge the chunks; with a negative delay as if it were not set.
        pending: bool,
    },
    /// Sweeps the arenas that are due; none, with a negative delay, unless forced.
    PurgeDue {
        /// All that are armed, due or not.
        force: bool,
    },
    /// Answers the open question.
    Answer {
        /// The question's kind: [`Ask::kind`](crate::Ask::kind).
        kind: u32,
        /// The answer.
        yes: bool,
        /// The memory's address after a yes.
        base: u64,
    },
    /// Whether an address lies in an arena.
    Owns {
        /// The address.
        address: u64,
    },
    /// The base and the bytes of an arena.
    ArenaArea {
        /// The arena.
        id: i32,
    },
}
