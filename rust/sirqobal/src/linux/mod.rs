//! Real memory under the layer: [`Memory`] answers its layer's questions with mmap, mprotect,
//! madvise and munmap and has the monotonic clock, so that a program claims, touches, releases and
//! sweeps in a few lines.
//!
//! ```
//! use sirqobal::linux::{Error, Memory};
//! use sirqobal::{Refusal, CHUNK};
//!
//! let mut memory = Memory::new();
//! let guidance = memory.reserve(2 * CHUNK, true)?;
//! let mut ring = memory.claim(guidance, 2)?;
//! assert!(ring.is_fresh() && ring[5] == 0);
//! ring.fill(1);
//! assert_eq!(memory.claim(guidance, 1).unwrap_err(), Refusal::NoRun);
//! memory.release(ring)?;
//! assert_eq!(memory.sweep(true)?, 2);
//! assert_eq!(memory.claim(guidance, 1)?[5], 0); // decommitted, and committed again
//! # Ok::<(), Error>(())
//! ```

mod chunks;
mod error;
mod mapping;
mod memory;
mod options;
mod os;
mod sys;

pub use chunks::Chunks;
pub use error::{Error, Unreleased};
pub use memory::Memory;
pub use options::Options;
pub use sys::{now, page_size};

use os::Os;
