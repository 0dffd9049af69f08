//! Safe functions over `libsirqobal.a`, the proved port of rusty_alloc's arena layer, slice pool,
//! deadline rules and size arithmetic. Every function takes all numbers; what it cannot serve it
//! turns down with a [`Refusal`].
//!
//! [`linux::Memory`] (feature `linux`) is a layer over real memory:
//!
#![cfg_attr(feature = "linux", doc = "```")]
#![cfg_attr(not(feature = "linux"), doc = "```ignore")]
//! use sirqobal::{linux, linux::Memory, CHUNK};
//!
//! fn main() -> Result<(), linux::Error> {
//!     let mut memory = Memory::new();
//!     let arena = memory.reserve(4 * CHUNK, true)?; // 128 MiB, for claims that name it
//!     let mut ring = memory.claim(arena, 2)?; // 64 MiB, zeroed
//!     ring[..5].copy_from_slice(b"ring!");
//!     memory.release(ring)?;
//!     println!("{} chunks purged", memory.sweep(true)?);
//!     Ok(())
//! }
//! ```
//!
//! [`Layer`] owns a table of arenas and keeps the book alone. A call on it carries a [`Moment`]. One
//! that may ask ends with an [`Outcome`]: it is done, refused, or asks the host a [`Question`], with
//! whose answer it goes on. A [`Host`] answers all of them.
//!
//! ```
//! use sirqobal::{Layer, Moment, NotDone, Outcome, Question, CHUNK};
//!
//! let now = Moment::default();
//! let mut layer = Layer::new();
//! let asks = layer.reserve_os_memory(now, 4 * CHUNK, false, false, true);
//! let Outcome::Asks(Question::GetMemory(memory)) = asks else { panic!() };
//! let id = memory.answer(now, Some(1 << 30))?.done()?;
//!
//! let asks = layer.chunk_alloc_n(now, id, 2);
//! let Outcome::Asks(Question::Commit(commit)) = asks else { panic!() };
//! assert_eq!((commit.address(), commit.bytes()), (1 << 30, 2 * CHUNK));
//! let run = commit.answer(now, true)?.done()?;
//! assert!(run.fresh && run.address == 1 << 30);
//! # Ok::<(), NotDone>(())
//! ```
//!
//! [`SlicePool`] is the pool of 64 KiB slices:
//!
//! ```
//! use sirqobal::{Refusal, SlicePool};
//!
//! let mut pool = SlicePool::new();
//! assert_eq!(pool.alloc_run(2), Err(Refusal::NoRun));
//! pool.free_range(65_536, 131_072)?;
//! assert_eq!(pool.alloc_run(2)?, 65_536);
//! # Ok::<(), Refusal>(())
//! ```
//!
//! Two layers are made one while chunks of both are held: [`linux::Memory::join`],
//! [`Layer::join_tables`].
//!
//! With a purge delay of [`NEVER`] what is released keeps its memory, and its bytes.
//!
//! Hundreds of runs are given back by one call, each with its own answer:
//! [`linux::Memory::release_list`], [`Layer::chunk_release_list`].
//!
//! [`Picture`] shows who holds what, [`saved`] is a table in a file, and [`lent`] has the calls over
//! tables that the program keeps itself, as C has them.
#![warn(missing_docs)]
#![deny(unsafe_op_in_unsafe_fn)]
#![cfg_attr(not(feature = "linux"), allow(rustdoc::broken_intra_doc_links))]

mod abi;
mod host;
mod layer;
pub mod lent;
#[cfg(all(feature = "linux", target_os = "linux"))]
pub mod linux;
mod numbers;
mod picture;
mod question;
mod refusal;
pub mod saved;
mod slice_pool;

pub use host::Host;
pub use layer::{Layer, Managed, Moment, Rise, Run, Span, ANY, CHUNK, NEVER};
pub use numbers::{arm, delay_ms, is_aligned_to, is_due, now_ms, page_align_up};
pub use picture::Picture;
pub use question::{
    Ask, Commit, GetMemory, GiveBack, Kept, NotDone, Open, Outcome, Purge, Question,
};
pub use refusal::Refusal;
pub use slice_pool::{alloc_run_in, free_range_in, SlicePool, SLICES, SLICE_SIZE, WORDS};
