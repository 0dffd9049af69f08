//! The host that answers with the real OS. It is private to `Memory`: the layer that asks is
//! `Memory`'s own, whose chunks are released by handles alone, and that layer, as it is proved,
//! purges what nobody holds.

use super::mapping::{Mapping, Part};
use crate::Host;
use std::io;
use std::sync::Arc;

/// Answers about its own mappings, and says no to every other range.
#[derive(Debug, Default)]
pub(super) struct Os {
    mappings: Vec<Arc<Mapping>>,
    /// What the OS last said no with, in this call.
    errno: Option<i32>,
}

impl Os {
    /// A new call begins.
    pub(super) fn begin(&mut self) {
        self.errno = None;
    }

    pub(super) fn errno(&self) -> Option<i32> {
        self.errno
    }

    /// Keeps a range that the layer has registered.
    pub(super) fn keep(&mut self, mapping: Mapping) {
        self.mappings.push(Arc::new(mapping));
    }

    /// Takes over all mappings of another, whose arenas have become those of this one's layer.
    pub(super) fn take(&mut self, second: &mut Os) {
        self.mappings.append(&mut second.mappings);
    }

    /// Whether it is one of these mappings, not only one alike.
    pub(super) fn has(&self, mapping: &Arc<Mapping>) -> bool {
        self.mappings.iter().any(|own| Arc::ptr_eq(own, mapping))
    }

    /// The mapping that this range lies in, and where.
    pub(super) fn find(&self, address: u64, bytes: u64) -> Option<(&Arc<Mapping>, usize)> {
        self.mappings.iter().find_map(|mapping| {
            let part = mapping.part(address, bytes)?;
            Some((mapping, part.offset()))
        })
    }

    fn part(&self, address: u64, bytes: u64) -> Option<Part<'_>> {
        let mut mappings = self.mappings.iter();
        mappings.find_map(|mapping| mapping.part(address, bytes))
    }

    /// Yes, or no with its reason kept.
    fn note<T>(&mut self, done: io::Result<T>) -> Option<T> {
        done.map_err(|error| self.errno = error.raw_os_error()).ok()
    }
}

impl Host for Os {
    fn commit(&mut self, address: u64, bytes: u64) -> bool {
        let done = self.part(address, bytes).map(|part| part.commit());
        done.is_some_and(|done| self.note(done).is_some())
    }

    fn purge(&mut self, address: u64, bytes: u64, decommit: bool) -> bool {
        // SAFETY: the layer asks to purge what nobody holds, and sets it aside meanwhile.
        let done = self.part(address, bytes).map(|part| unsafe {
            part.discard()?;
            if decommit {
                part.decommit()?;
            }
            Ok(())
        });
        done.is_some_and(|done| self.note(done).is_some())
    }

    fn memory(&mut self, bytes: u64, align: u64, commit: bool, large: bool) -> Option<u64> {
        let reserved = Mapping::reserve(bytes, align);
        let mapping = self.note(reserved)?;
        let whole = mapping.part(mapping.address(), bytes)?;
        if large {
            let _ = whole.prefer_large(); // as far as there are any
        }
        if commit {
            let committed = whole.commit();
            self.note(committed)?;
        }
        let address = mapping.address();
        self.keep(mapping);
        Some(address)
    }

    /// The mapping that begins there; the bytes are those of its whole chunks.
    fn give_back(&mut self, address: u64, _bytes: u64) {
        // A new mapping, of which no handle was made.
        self.mappings.retain(|own| own.address() != address);
    }
}
