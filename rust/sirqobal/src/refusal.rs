use std::error::Error;
use std::fmt;

/// Why a call was turned down: the rows of document 01's table "Turned down", and those that
/// document 02's requests add. The slice pool knows 1, 4, 7, 8, 9 and 10.
///
/// ```
/// use sirqobal::{Refusal, SlicePool};
///
/// let refusal = SlicePool::new().alloc_run(0).unwrap_err();
/// assert_eq!(refusal, Refusal::Zero);
/// assert_eq!(refusal.number(), 4);
/// assert_eq!(refusal.to_string(), "n or size is 0 (refusal 4)");
/// ```
///
/// A refusal leaves everything as it was, but: an answer closes its question unless it is refused
/// with [`Broken`](Refusal::Broken), [`NoSuchQuestion`](Refusal::NoSuchQuestion) or
/// [`Range`](Refusal::Range); [`NoRun`](Refusal::NoRun) may leave a new arena or the give-up mark,
/// and [`CommitRefused`](Refusal::CommitRefused) a new arena.
#[non_exhaustive]
#[derive(Clone, Copy, Debug, PartialEq, Eq, Hash)]
#[repr(u32)]
pub enum Refusal {
    /// A slice of a wrong length, an unsound page size, or a broken table.
    Broken = 1,
    /// A question is open.
    QuestionOpen = 2,
    /// No question is open, or one of another kind.
    NoSuchQuestion = 3,
    /// n or size is 0.
    Zero = 4,
    /// Arenas are off and the id is negative.
    ArenasOff = 5,
    /// The range starts at 0, ends past 2^64 - 1 or overlaps an arena.
    Range = 6,
    /// An address or a size is not whole.
    NotWhole = 7,
    /// In no arena; a slice base below 65,536.
    NotInside = 8,
    /// The run passes the end.
    PastEnd = 9,
    /// No eligible arena has such a run. If a default reserve failed on the way, there will be no
    /// other: the layer has given up ([`Layer::has_given_up`](crate::Layer::has_given_up)).
    NoRun = 10,
    /// The commit was answered no.
    CommitRefused = 11,
    /// 0 chunks, or above 1,024.
    ChunkCount = 12,
    /// 32 arenas stand.
    TableFull = 13,
    /// The memory was answered no.
    MemoryRefused = 14,
    /// Start 0, a sum past 2^64 - 1, or no whole chunk.
    NoWholeChunk = 15,
    /// In the segment map already, or not reserved.
    HostRefused = 16,
    /// A join: an arena of one table and an arena of the other share an address.
    TablesOverlap = 17,
    /// A join: the two tables have more than 32 arenas.
    TooManyArenas = 18,
    /// A list: its lengths differ, or pass 32,768.
    ListLength = 19,
}

impl Refusal {
    /// Every row, in order.
    pub const ALL: &'static [Refusal] = &[
        Refusal::Broken,
        Refusal::QuestionOpen,
        Refusal::NoSuchQuestion,
        Refusal::Zero,
        Refusal::ArenasOff,
        Refusal::Range,
        Refusal::NotWhole,
        Refusal::NotInside,
        Refusal::PastEnd,
        Refusal::NoRun,
        Refusal::CommitRefused,
        Refusal::ChunkCount,
        Refusal::TableFull,
        Refusal::MemoryRefused,
        Refusal::NoWholeChunk,
        Refusal::HostRefused,
        Refusal::TablesOverlap,
        Refusal::TooManyArenas,
        Refusal::ListLength,
    ];

    /// The row's number, 1 to 19.
    ///
    /// ```
    /// assert_eq!(sirqobal::Refusal::NoRun.number(), 10);
    /// ```
    pub fn number(self) -> u32 {
        self as u32
    }

    /// The row with this number.
    ///
    /// ```
    /// use sirqobal::Refusal;
    ///
    /// assert_eq!(Refusal::from_number(9), Some(Refusal::PastEnd));
    /// assert_eq!(Refusal::from_number(0), None);
    /// ```
    pub fn from_number(number: u32) -> Option<Refusal> {
        let row = number.checked_sub(1)?;
        Refusal::ALL.get(row as usize).copied()
    }

    fn reason(self) -> &'static str {
        match self {
            Refusal::Broken => "wrong length, unsound page size or broken table",
            Refusal::QuestionOpen => "a question is open",
            Refusal::NoSuchQuestion => "no such question is open",
            Refusal::Zero => "n or size is 0",
            Refusal::ArenasOff => "arenas are off",
            Refusal::Range => "the range starts at 0, ends past 2^64 - 1 or overlaps an arena",
            Refusal::NotWhole => "an address or a size is not whole",
            Refusal::NotInside => "the address lies in no arena or below the first slice",
            Refusal::PastEnd => "the run passes the end",
            Refusal::NoRun => "no such run is free",
            Refusal::CommitRefused => "the commit was answered no",
            Refusal::ChunkCount => "0 chunks or above 1,024",
            Refusal::TableFull => "32 arenas stand",
            Refusal::MemoryRefused => "the memory was answered no",
            Refusal::NoWholeChunk => "no whole chunk lies in the range",
            Refusal::HostRefused => "the range is mapped already or not reserved",
            Refusal::TablesOverlap => "a range of one table overlaps a range of the other",
            Refusal::TooManyArenas => "the two tables have more than 32 arenas",
            Refusal::ListLength => "the list's lengths differ or pass 32,768",
        }
    }
}

impl fmt::Display for Refusal {
    fn fmt(&self, f: &mut fmt::Formatter<'_>) -> fmt::Result {
        write!(f, "{} (refusal {})", self.reason(), self.number())
    }
}

impl Error for Refusal {}

#[cfg(test)]
mod tests {
    use super::*;

    #[test]
    fn numbers_run_from_1_to_19() {
        for (n, &refusal) in (1..).zip(Refusal::ALL) {
            assert_eq!(refusal.number(), n);
            assert_eq!(Refusal::from_number(n), Some(refusal));
        }
        assert_eq!(Refusal::ALL.len(), 19);
        assert_eq!(Refusal::from_number(20), None);
        assert_eq!(Refusal::from_number(u32::MAX), None);
    }
}
