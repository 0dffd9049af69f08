//! The layer's calls over lent tables, as the C surface has them: every table, state and number is
//! taken, bad ones are turned down. [`Layer`](crate::Layer) is the typed way; this is for programs
//! that keep the table themselves.
//!
//! ```
//! use sirqobal::lent::{call, owns, Arena, Call, Settings, State};
//!
//! let mut records = [Arena::EMPTY; 32];
//! let mut stamps = vec![0; 32_768];
//! let adopt = Call::AdoptOsBlock { address: 1 << 30, size: 4 << 25 };
//! let settings = Settings::default();
//! let reply = call(&mut records, &mut stamps, State::EMPTY, 0, settings, adopt);
//! assert_eq!((reply.number, reply.id, reply.state.count), (0, 0, 1));
//! assert!(owns(&records, &stamps, reply.state, 0, settings, 1 << 30).owns);
//!
//! // 32,767 stamps: refusal 1, and nothing changes.
//! let reply = owns(&records, &stamps[1..], reply.state, 0, settings, 1 << 30);
//! assert_eq!(reply.number, 1);
//! ```

use crate::abi;

mod joining;
mod listing;
mod reply;
mod table;
mod told;

pub use joining::{join_tables, Table};
pub use listing::{chunk_release_list, Items};
pub use reply::{JoinReply, Reply, QUESTION};
pub use table::{Arena, State};
pub use told::{Call, Settings};

/// Records that a table has.
pub const RECORDS: usize = 32;

/// Stamps that a table has, 1,024 for each record.
pub const STAMPS: usize = 32_768;

/// Items that a list of releases has at most.
pub const LIST: usize = 32_768;

/// Makes the C call of this name on what is lent and carried.
macro_rules! make {
    ($lent:ident.$pointer:ident, $name:ident($($number:expr),*)) => {{
        let Lent { records, stamps, state, ns, settings } = $lent;
        // SAFETY: pointers and lengths are those of two slices, lent for the call; the library
        // takes all their contents and all numbers.
        unsafe {
            abi::$name(
                records.$pointer(),
                records.len(),
                stamps.$pointer(),
                stamps.len(),
                state,
                ns,
                settings,
                $($number),*
            )
        }
    }};
}

/// What each call begins with.
struct Lent<R, S> {
    records: R,
    stamps: S,
    state: State,
    ns: u64,
    settings: Settings,
}

/// Makes one call on a lent table. The next call is to be lent the state of this one's reply.
#[must_use = "the reply has the state, without which the table is lost"]
pub fn call(
    records: &mut [Arena],
    stamps: &mut [u32],
    state: State,
    ns: u64,
    settings: Settings,
    call: Call,
) -> Reply {
    let lent = Lent {
        records,
        stamps,
        state,
        ns,
        settings,
    };
    dispatch(lent, call)
}

/// The C call for each of ours.
fn dispatch(lent: Lent<&mut [Arena], &mut [u32]>, call: Call) -> Reply {
    match call {
        Call::ReserveOsMemory {
            size,
            commit,
            allow_large,
            exclusive,
        } => make!(
            lent.as_mut_ptr,
            sirqobal_reserve_os_memory_ex(size, commit, allow_large, exclusive)
        ),
        Call::ManageOsMemory {
            start,
            size,
            flags: [committed, large, zero],
            node,
            exclusive,
            mapped,
            reserved,
        } => make!(
            lent.as_mut_ptr,
            sirqobal_manage_os_memory_ex(
                start, size, committed, large, zero, node, exclusive, mapped, reserved
            )
        ),
        Call::AdoptOsBlock { address, size } => {
            make!(lent.as_mut_ptr, sirqobal_adopt_os_block(address, size))
        }
        Call::ChunkAlloc { id } => make!(lent.as_mut_ptr, sirqobal_chunk_alloc(id)),
        Call::ChunkClaim { id } => make!(lent.as_mut_ptr, sirqobal_chunk_claim(id)),
        Call::ChunkAllocN { id, n } => make!(lent.as_mut_ptr, sirqobal_chunk_alloc_n(id, n)),
        Call::ChunkRelease {
            address,
            n,
            told,
            pending,
        } => make!(
            lent.as_mut_ptr,
            sirqobal_chunk_release(address, n, told, pending)
        ),
        Call::PurgeDue { force } => make!(lent.as_mut_ptr, sirqobal_purge_due(force)),
        Call::Answer { kind, yes, base } => {
            make!(lent.as_mut_ptr, sirqobal_answer(kind, yes, base))
        }
        Call::Owns { address } => make!(lent.as_ptr, sirqobal_owns(address)),
        Call::ArenaArea { id } => make!(lent.as_ptr, sirqobal_arena_area(id)),
    }
}

/// Whether an address lies in an arena of a table that is only read: [`Reply::owns`].
pub fn owns(
    records: &[Arena],
    stamps: &[u32],
    state: State,
    ns: u64,
    settings: Settings,
    address: u64,
) -> Reply {
    let lent = Lent {
        records,
        stamps,
        state,
        ns,
        settings,
    };
    make!(lent.as_ptr, sirqobal_owns(address))
}

/// The base and the bytes of an arena of a table that is only read: [`Reply::address`] and
/// [`Reply::bytes`].
pub fn arena_area(
    records: &[Arena],
    stamps: &[u32],
    state: State,
    ns: u64,
    settings: Settings,
    id: i32,
) -> Reply {
    let lent = Lent {
        records,
        stamps,
        state,
        ns,
        settings,
    };
    make!(lent.as_ptr, sirqobal_arena_area(id))
}
