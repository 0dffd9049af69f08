use super::{Reply, Settings, Table};
use crate::abi;

/// The lists that a list of releases is lent: as many addresses as counts and answers, and at most
/// [`LIST`](super::LIST) of each.
#[derive(Debug)]
pub struct Items<'a> {
    /// Where each run starts.
    pub addresses: &'a [u64],
    /// How many chunks each has.
    pub counts: &'a [u32],
    /// Takes the number of each item: 0 if it is granted, else its refusal, 4, 8, 7 or 9.
    pub answers: &'a mut [u32],
}

/// Releases runs in list order: the table is left as single releases at this clock and these
/// settings, that tell nothing of commitment, would leave it. A refused item does not stop the
/// list. Refused as a whole, with 1, 2 or 19, it leaves the table and the answers.
///
/// ```
/// use sirqobal::lent::{call, chunk_release_list, Arena, Call, Items, Settings, State, Table};
///
/// let mut records = [Arena::EMPTY; 32];
/// let mut stamps = vec![0; 32_768];
/// let settings = Settings::default();
/// let adopt = Call::AdoptOsBlock { address: 1 << 30, size: 4 << 25 };
/// let state = call(&mut records, &mut stamps, State::EMPTY, 0, settings, adopt).state;
/// let claim = Call::ChunkAllocN { id: 0, n: 4 };
/// let state = call(&mut records, &mut stamps, state, 0, settings, claim).state;
///
/// let mut answers = [99; 3];
/// let items = Items {
///     addresses: &[1 << 30, 5, (1 << 30) + (2 << 25)],
///     counts: &[1, 1, 2],
///     answers: &mut answers,
/// };
/// let table = Table { records: &mut records, stamps: &mut stamps, state };
/// let reply = chunk_release_list(table, items, 0, settings, false);
/// assert_eq!((reply.number, answers), (0, [0, 8, 0]));
/// assert_eq!(records[0].used[0], 0b0010);
/// ```
#[must_use = "the reply has the state, without which the table is lost"]
pub fn chunk_release_list(
    table: Table<'_>,
    items: Items<'_>,
    ns: u64,
    settings: Settings,
    pending: bool,
) -> Reply {
    // SAFETY: pointers and lengths are those of five slices, lent for the call; those that it
    // writes to are borrowed mutably, so that no other overlaps them; the library takes all their
    // contents and all numbers.
    unsafe {
        abi::sirqobal_chunk_release_list(
            table.records.as_mut_ptr(),
            table.records.len(),
            table.stamps.as_mut_ptr(),
            table.stamps.len(),
            items.addresses.as_ptr(),
            items.addresses.len(),
            items.counts.as_ptr(),
            items.counts.len(),
            items.answers.as_mut_ptr(),
            items.answers.len(),
            table.state,
            ns,
            settings,
            pending,
        )
    }
}
