//! What the programs share.

pub mod args;
pub mod functions;
pub mod layer;
pub mod pool;
pub mod rng;

/// The seed of a run that names none: the same cases every time.
pub const SEED: u64 = 20_261_115;

/// Granted, and the refusals from 1 to 19.
pub const NUMBERS: usize = 20;

/// How often each number was answered.
pub fn by_number(counts: &[u64]) -> String {
    let answered = (0..counts.len()).filter(|n| counts[*n] != 0);
    let texts: Vec<String> = answered.map(|n| format!("{n}: {}", counts[n])).collect();
    texts.join(", ")
}
