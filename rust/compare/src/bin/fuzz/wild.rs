//! Calls and settings with any numbers.

use compare_common::layer::draw::Player;
use compare_common::rng::Rng;
use sirqobal::lent::{Call, Settings};

/// A call with any numbers.
pub fn wild_call(rng: &mut Rng) -> Call {
    let (a, b) = (rng.number(), rng.number());
    let id = rng.number() as i32;
    let flags = [(); 5].map(|()| rng.percent(50));
    match rng.below(11) {
        0 => Call::ReserveOsMemory {
            size: a,
            commit: flags[0],
            allow_large: flags[1],
            exclusive: flags[2],
        },
        1 => Call::ManageOsMemory {
            start: a,
            size: b,
            flags: [flags[0], flags[1], flags[2]],
            node: id,
            exclusive: flags[3],
            mapped: rng.percent(10),
            reserved: rng.percent(90),
        },
        2 => Call::AdoptOsBlock {
            address: a << rng.below(26),
            size: b << rng.below(26),
        },
        3 => Call::ChunkAlloc { id },
        4 => Call::ChunkClaim { id },
        5 => Call::ChunkAllocN { id, n: a as usize },
        6 => Call::ChunkRelease {
            address: a,
            n: b as usize,
            told: id,
            pending: flags[0],
        },
        7 => Call::PurgeDue { force: flags[0] },
        8 => Call::Answer {
            kind: rng.pick(&[a as u32, 1, 2, 3, 4]),
            yes: flags[0],
            base: b << rng.below(40),
        },
        9 => Call::Owns { address: a },
        _ => Call::ArenaArea { id },
    }
}

pub fn wild_settings(rng: &mut Rng, player: &Player) -> (u64, Settings) {
    let moment = player.any_moment(rng);
    let mut settings = moment.settings();
    match rng.below(12) {
        0 => settings.page = rng.number(),
        1 => (settings.decommits, settings.off) = (rng.bits() as u32, rng.bits() as u32),
        2 => settings.reserve = rng.number(),
        3 => settings.delay = rng.number() as i64,
        4 => settings.delay = !(rng.number() >> 1) as i64,
        _ => {}
    }
    (moment.ns, settings)
}
