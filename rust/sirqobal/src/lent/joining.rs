use super::{Arena, JoinReply, Settings, State};
use crate::abi;

/// A table that is lent.
#[derive(Debug)]
pub struct Table<'a> {
    /// Its records.
    pub records: &'a mut [Arena],
    /// Its stamps.
    pub stamps: &'a mut [u32],
    /// Its state.
    pub state: State,
}

/// Joins two tables: the second's arenas go to the first, and the second is left empty. The next
/// call on each is to be lent its state of the reply; a refusal leaves both tables and both states.
///
/// ```
/// use sirqobal::lent::{call, join_tables, Arena, Call, Settings, State, Table};
///
/// let mut records = [[Arena::EMPTY; 32]; 2];
/// let mut stamps = vec![[0; 32_768]; 2];
/// let [first, second] = [0, 1].map(|side| {
///     let adopt = Call::AdoptOsBlock { address: (side as u64 + 1) << 30, size: 4 << 25 };
///     let (records, stamps) = (&mut records[side], &mut stamps[side]);
///     call(records, stamps, State::EMPTY, 0, Settings::default(), adopt).state
/// });
///
/// let ([r1, r2], [s1, s2]) = (&mut records, &mut stamps[..]) else { panic!() };
/// let first = Table { records: r1, stamps: s1, state: first };
/// let second = Table { records: r2, stamps: s2, state: second };
/// let reply = join_tables(first, second, 0, Settings::default());
/// assert_eq!((reply.number, reply.rise, reply.first.count), (0, 1, 2));
/// assert_eq!(records[0][1].base, 2 << 30);
/// assert_eq!(reply.second, State::EMPTY);
/// ```
#[must_use = "the reply has both states, without which the tables are lost"]
pub fn join_tables(first: Table<'_>, second: Table<'_>, ns: u64, settings: Settings) -> JoinReply {
    // SAFETY: pointers and lengths are those of four slices, lent for the call, each of which is
    // borrowed mutably, so that no two overlap; the library takes all their contents and all
    // numbers.
    unsafe {
        abi::sirqobal_join_tables(
            first.records.as_mut_ptr(),
            first.records.len(),
            first.stamps.as_mut_ptr(),
            first.stamps.len(),
            second.records.as_mut_ptr(),
            second.records.len(),
            second.stamps.as_mut_ptr(),
            second.stamps.len(),
            first.state,
            second.state,
            ns,
            settings,
        )
    }
}
