const _: () = (); // takes the doc comment above, whose own item was cut off

// ---- Appended by rust/oracle/build.rs. Everything above this line is the original. ----

/// Not in the published text: the purge policy that its head comment tells of.
///
/// # Safety
/// As [`commit`].
pub unsafe fn purge(ptr: *mut u8, size: usize, decommit: bool) -> Result<(), PrimError> {
    let size = page_align_up(size);
    // SAFETY: forwarded contract.
    unsafe {
        match decommit {
            true => prim::decommit(ptr, size).map(|_| ()),
            false => prim::reset(ptr, size),
        }
    }
}

/// Stores the cached page size.
pub fn set_page_size(page: usize) {
    PAGE_SIZE.store(page, Ordering::Relaxed);
}
