//! What is lent and carried from call to call, as it lies in memory.

/// One arena. Bit j % 32 of word j / 32 of each map is chunk j. A flag is on unless it is 0;
/// registering writes 0 or 1.
#[repr(C)]
#[derive(Clone, Copy, Debug, PartialEq, Eq)]
pub struct Arena {
    /// Where it begins.
    pub base: u64,
    /// How many chunks it has.
    pub chunks: usize,
    /// A flag: see [`is_exclusive`](Arena::is_exclusive).
    pub exclusive: u32,
    /// A flag: see [`is_owned`](Arena::is_owned).
    pub owned: u32,
    /// The NUMA node, only stored.
    pub node: i32,
    /// When the next sweep is due, in milliseconds; 0 is no deadline.
    pub deadline: u32,
    /// The chunks that somebody holds.
    pub used: [u32; 32],
    /// The chunks that were claimed before.
    pub dirty: [u32; 32],
    /// The chunks that are committed.
    pub committed: [u32; 32],
    /// The chunks that a sweep is to purge.
    pub pending: [u32; 32],
}

impl Arena {
    /// All zeros.
    pub const EMPTY: Arena = Arena {
        base: 0,
        chunks: 0,
        exclusive: 0,
        owned: 0,
        node: 0,
        deadline: 0,
        used: [0; 32],
        dirty: [0; 32],
        committed: [0; 32],
        pending: [0; 32],
    };

    /// Serves only claims that name its id.
    pub const fn is_exclusive(&self) -> bool {
        self.exclusive != 0
    }

    /// The layer's own range, not managed for the host.
    pub const fn is_owned(&self) -> bool {
        self.owned != 0
    }
}

/// The layer's own state. What the open question does not use is 0.
#[repr(C)]
#[derive(Clone, Copy, Debug, Default, PartialEq, Eq)]
pub struct State {
    /// Arenas that stand.
    pub count: usize,
    /// 1: default reserves are given up; nothing but a join clears it.
    pub mark: u32,
    /// The open question's kind: 0 none, 1 commit, 2 purge, 3 memory, 4 give back.
    pub question: u32,
    /// Commit, purge: the arena.
    pub id: usize,
    /// Commit: the first chunk; purge: the chunk.
    pub start: usize,
    /// Commit: the chunks; a claim that waits: its chunks.
    pub n: usize,
    /// Memory: the block's chunks.
    pub chunks: u64,
    /// Memory: the bytes that were asked for.
    pub bytes: u64,
    /// Memory: 1 if committed.
    pub commit: u32,
    /// Memory: 1 if the arena is to be exclusive.
    pub exclusive: u32,
    /// Memory, give back: 0 a reserve waits, 1 a claim.
    pub waiting: u32,
    /// A claim that waits: 1 if it commits.
    pub commits: u32,
    /// Give back: 12, 7 or 13.
    pub cause: u32,
    /// Purge: 1 if the sweep is forced.
    pub force: u32,
    /// Purge: the sweep's clock, in milliseconds.
    pub now: u32,
    /// Purge: the sweep's delay, in milliseconds; 0 for a negative one.
    pub delay: u32,
    /// Purge: 1 if it decommits.
    pub decommit: u32,
    /// Purge: the sweep's yes answers.
    pub purged: usize,
}

impl State {
    /// The empty layer's.
    pub const EMPTY: State = State {
        count: 0,
        mark: 0,
        question: 0,
        id: 0,
        start: 0,
        n: 0,
        chunks: 0,
        bytes: 0,
        commit: 0,
        exclusive: 0,
        waiting: 0,
        commits: 0,
        cause: 0,
        force: 0,
        now: 0,
        delay: 0,
        decommit: 0,
        purged: 0,
    };
}
