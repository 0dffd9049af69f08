//! Draws lists of releases. Items mostly meet what stands in the table, and each other; now and
//! then the lengths differ.

use super::draw::{some_address, Player};
use super::lists::List;
use super::CHUNK;
use crate::rng::Rng;
use sirqobal::lent::Call;
use sirqobal::Layer;

/// What the items of a list mostly are.
#[derive(Clone, Copy)]
enum Kind {
    /// As single releases are drawn.
    Any,
    /// Runs inside arenas.
    Good,
    /// Good ones, with some of each refusal between them.
    Mixed,
    /// None is granted.
    Bad,
}

/// Items behind the lent ones.
const SPARE: usize = 2;

/// So many items are drawn of a longer list, and then again and again.
const DRAWN: usize = 500;

impl Player {
    /// A list of releases.
    pub fn list(&self, rng: &mut Rng, layer: &Layer) -> List {
        let length = any_length(rng);
        let lengths = match rng.below(10) {
            0 => other_lengths(rng, length),
            _ => [length; 3],
        };
        let count = lengths.into_iter().max().unwrap_or(0) + SPARE;
        let kind = rng.pick(&[Kind::Any, Kind::Good, Kind::Good, Kind::Mixed, Kind::Mixed]);
        let kind = if rng.percent(5) { Kind::Bad } else { kind };
        let mut items = Vec::new();
        for _ in 0..count.min(DRAWN) {
            let item = self.item(rng, layer, kind, &items);
            items.push(item);
        }
        List {
            items: items.iter().copied().cycle().take(count).collect(),
            lengths,
            pending: rng.percent(60),
        }
    }

    fn item(&self, rng: &mut Rng, layer: &Layer, kind: Kind, before: &[(u64, u32)]) -> (u64, u32) {
        if !before.is_empty() && rng.percent(15) {
            return like_one_before(rng, before);
        }
        let bad = match kind {
            Kind::Any => return self.as_single(rng, layer),
            Kind::Good => false,
            Kind::Mixed => rng.percent(35),
            Kind::Bad => true,
        };
        let (address, count) = self.as_single(rng, layer);
        let whole = address / CHUNK * CHUNK;
        match (bad, rng.below(8)) {
            (false, _) => (some_address(rng, layer), rng.between(1, 3) as u32),
            (true, 0) => (whole, 0),
            (true, 1) => (rng.number(), 0),
            (true, 2) => (whole + rng.between(1, CHUNK - 1), count.max(1)),
            (true, 3) => (whole + rng.between(1, CHUNK - 1), u32::MAX),
            (true, 4) => (rng.number(), count.max(1)),
            (true, 5) => (whole, u32::MAX),
            _ => (whole, 1_025),
        }
    }

    /// As a single release is drawn.
    fn as_single(&self, rng: &mut Rng, layer: &Layer) -> (u64, u32) {
        match self.release(rng, layer) {
            Call::ChunkRelease { address, n, .. } => (address, n.try_into().unwrap_or(u32::MAX)),
            other => unreachable!("{other:?} is no release"),
        }
    }
}

/// Mostly few, since every item is compared; now and then as many as there may be, or one more.
fn any_length(rng: &mut Rng) -> usize {
    match rng.below(2_000) {
        0 | 1 => 32_768,
        2 => 32_769,
        3..=39 => rng.between(100, 400) as usize,
        40..=99 => 0,
        100..=299 => 1,
        300..=499 => rng.between(9, 40) as usize,
        _ => rng.between(2, 8) as usize,
    }
}

/// One of the three lengths differs, or all do.
fn other_lengths(rng: &mut Rng, length: usize) -> [usize; 3] {
    let mut other = || match rng.below(4) {
        0 => length.saturating_sub(1),
        1 => rng.below(9) as usize,
        _ => length + 1,
    };
    let mut lengths = [length; 3];
    let others = [other(), other()];
    match rng.below(8) {
        0 => [length, others[0], others[1]],
        place => {
            lengths[place as usize % 3] = others[0];
            lengths
        }
    }
}

/// The same again, or one that shares a chunk with it or is its neighbour.
fn like_one_before(rng: &mut Rng, before: &[(u64, u32)]) -> (u64, u32) {
    let (address, count) = rng.pick(before);
    match rng.below(6) {
        0 => (address.wrapping_add(CHUNK), count),
        1 => (address.wrapping_sub(CHUNK), count.saturating_add(1)),
        2 => (address, count.saturating_add(1)),
        _ => (address, count),
    }
}
