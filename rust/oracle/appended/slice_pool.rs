// ---- Appended by rust/oracle/build.rs. Everything above this line is the original. ----

/// Copies the map out: bit set = free.
pub fn pool_words() -> [u32; WORDS] {
    core::array::from_fn(|w| FREE[w].load(Ordering::Relaxed))
}

/// Stores the whole map.
pub fn set_pool_words(words: &[u32; WORDS]) {
    for (free, word) in FREE.iter().zip(words) {
        free.store(*word, Ordering::Relaxed);
    }
}
