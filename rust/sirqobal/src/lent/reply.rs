use super::State;

/// [`Reply::number`] of a call that asks.
pub const QUESTION: u32 = 255;

/// What a call answers, and the state that it leaves. What does not belong to the answer is 0.
#[repr(C)]
#[derive(Clone, Copy, Debug, Default, PartialEq, Eq)]
pub struct Reply {
    /// 0 granted, 255 a question, else the refusal.
    pub number: u32,
    /// The question's kind.
    pub kind: u32,
    /// A claim's run, a question's range, an area's base.
    pub address: u64,
    /// A question's range, an area.
    pub bytes: u64,
    /// Memory: the alignment.
    pub align: u64,
    /// The arena that was registered or grown.
    pub id: usize,
    /// A sweep's yes answers.
    pub count: usize,
    /// A claim: no chunk was dirty before.
    pub fresh: bool,
    /// A claim: all chunks are committed.
    pub committed: bool,
    /// The address lies in an arena.
    pub owns: bool,
    /// Purge.
    pub decommit: bool,
    /// Memory.
    pub commit: bool,
    /// Memory.
    pub large: bool,
    /// Always 0.
    pub spare: u16,
    /// What the next call is to be lent.
    pub state: State,
}

/// What a join answers, and the state that it leaves of each table.
#[repr(C)]
#[derive(Clone, Copy, Debug, Default, PartialEq, Eq)]
pub struct JoinReply {
    /// 0 joined, else the refusal.
    pub number: u32,
    /// Always 0.
    pub spare: u32,
    /// By how much the ids of the second's arenas have risen; 0 with a refusal.
    pub rise: usize,
    /// What the first table's next call is to be lent.
    pub first: State,
    /// What the second table's next call is to be lent.
    pub second: State,
}
