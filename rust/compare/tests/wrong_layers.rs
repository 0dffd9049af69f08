//! Layers that read a negative delay otherwise than document 02: the comparison finds each of them out, by calls
//! as `sequences` draws them. All in one test, since the original's state is static.

use compare_common::layer::draw::{turn, Player, Tried};
use compare_common::layer::lists::by_ours;
use compare_common::layer::never::speaks_of;
use compare_common::layer::pair::{Make, Pair};
use compare_common::layer::plain::Table;
use compare_common::layer::{Moment, CHUNK};
use compare_common::rng::Rng;
use compare_common::SEED;
use sirqobal::lent::{Call, Reply, State, QUESTION};
use sirqobal::Layer;

/// What is wrong with it, and how it makes a call. All but what it says is ours.
const WRONG: [(&str, Make); 20] = [
    ("released as with 0", |layer, moment, call| {
        with_delay(layer, moment, call, is_release(&call), as_zero)
    }),
    ("swept as with 0", |layer, moment, call| {
        with_delay(layer, moment, call, is_sweep(&call), as_zero)
    }),
    ("released, -1 only", |layer, moment, call| {
        with_delay(layer, moment, call, is_release(&call), minus_one_only)
    }),
    ("swept, -1 only", |layer, moment, call| {
        with_delay(layer, moment, call, is_sweep(&call), minus_one_only)
    }),
    ("released, the longest delay", |layer, moment, call| {
        with_delay(layer, moment, call, is_release(&call), longest)
    }),
    ("swept, the longest delay", |layer, moment, call| {
        with_delay(layer, moment, call, is_sweep(&call), longest)
    }),
    ("released, delay 0 is never too", |layer, moment, call| {
        with_delay(layer, moment, call, is_release(&call), clamped)
    }),
    ("swept, delay 0 is never too", |layer, moment, call| {
        with_delay(layer, moment, call, is_sweep(&call), clamped)
    }),
    (
        "a forced sweep purges nothing",
        |layer, moment, call| match call {
            Call::PurgeDue { .. } if moment.delay < 0 => {
                layer.call(moment, Call::PurgeDue { force: false })
            }
            _ => layer.call(moment, call),
        },
    ),
    ("the release keeps used bits", |layer, moment, call| {
        with_table(layer, moment, call, is_release, |table, before, _| {
            for (arena, was) in table.records.iter_mut().zip(&before.records) {
                arena.used = was.used;
            }
        })
    }),
    ("the release unmarks", |layer, moment, call| {
        with_table(layer, moment, call, is_release, |table, _, (id, chunk)| {
            table.records[id].pending[chunk / 32] &= !(1 << (chunk % 32));
        })
    }),
    ("the release marks", |layer, moment, call| {
        with_table(layer, moment, call, is_release, |table, _, (id, chunk)| {
            table.records[id].pending[chunk / 32] |= 1 << (chunk % 32);
        })
    }),
    ("the release stamps", |layer, moment, call| {
        with_table(layer, moment, call, is_release, |table, _, (id, chunk)| {
            table.stamps[1_024 * id + chunk] ^= 1;
        })
    }),
    ("the release arms", |layer, moment, call| {
        with_table(layer, moment, call, is_release, |table, _, (id, _)| {
            let deadline = &mut table.records[id].deadline;
            *deadline = (*deadline).max(1);
        })
    }),
    ("the release disarms", |layer, moment, call| {
        with_table(layer, moment, call, is_release, |table, _, (id, _)| {
            table.records[id].deadline = 0;
        })
    }),
    (
        "the release hears nothing told",
        |layer, moment, call| match call {
            Call::ChunkRelease { address, n, .. } if speaks_of(moment.delay, &call) => {
                let untold = Call::ChunkRelease {
                    address,
                    n,
                    told: -1,
                    pending: true,
                };
                layer.call(moment, untold)
            }
            _ => layer.call(moment, call),
        },
    ),
    ("the sweep disarms", |layer, moment, call| {
        with_table(layer, moment, call, is_sweep, |table, _, _| {
            let count = table.state.count;
            for arena in &mut table.records[..count] {
                arena.deadline = 0;
            }
        })
    }),
    (
        "the sweep comes before 1 and 2",
        |layer, moment, call| match is_sweep(&call) && speaks_of(moment.delay, &call) {
            true => Reply {
                state: layer.state(),
                ..Reply::default()
            },
            false => layer.call(moment, call),
        },
    ),
    ("an answer ends its sweep", |layer, moment, call| {
        let reply = layer.call(moment, call);
        let answer = matches!(call, Call::Answer { kind: 2, .. });
        if !answer || moment.delay >= 0 || reply.number != QUESTION {
            return reply;
        }
        let mut table = Table::of(layer);
        table.state = State {
            count: reply.state.count,
            mark: reply.state.mark,
            ..State::EMPTY
        };
        *layer = table.layer();
        Reply {
            count: reply.state.purged,
            state: table.state,
            ..Reply::default()
        }
    }),
    (
        "a forced sweep keeps another delay",
        |layer, moment, call| {
            let mut reply = layer.call(moment, call);
            let forced = call == Call::PurgeDue { force: true };
            if forced && moment.delay < 0 && reply.number == QUESTION {
                reply.state.delay = 1_073_741_823;
                let mut table = Table::of(layer);
                table.state = reply.state;
                *layer = table.layer();
            }
            reply
        },
    ),
];

fn is_release(call: &Call) -> bool {
    matches!(call, Call::ChunkRelease { pending: true, .. })
}

fn is_sweep(call: &Call) -> bool {
    *call == Call::PurgeDue { force: false }
}

/// As the original does.
fn as_zero(delay: i64) -> i64 {
    delay.max(0)
}

fn minus_one_only(delay: i64) -> i64 {
    match delay {
        -1 => -1,
        _ => delay.max(0),
    }
}

fn longest(delay: i64) -> i64 {
    match delay {
        ..0 => i64::MAX,
        _ => delay,
    }
}

/// As a test of the clamped delay being 0 would have it.
fn clamped(delay: i64) -> i64 {
    match delay {
        ..=0 => -1,
        _ => delay,
    }
}

/// With another delay, if it is such a call.
fn with_delay(
    layer: &mut Layer,
    moment: Moment,
    call: Call,
    such: bool,
    other: fn(i64) -> i64,
) -> Reply {
    let delay = match such {
        true => other(moment.delay),
        false => moment.delay,
    };
    layer.call(Moment { delay, ..moment }, call)
}

/// What is done to the table afterwards: beside it as it was, at arena and chunk.
type Change = fn(&mut Table, &Table, (usize, usize));

/// A granted call of the wish, such a one, leaves the table changed: at the first chunk of a release's run.
fn with_table(
    layer: &mut Layer,
    moment: Moment,
    call: Call,
    such: fn(&Call) -> bool,
    change: Change,
) -> Reply {
    let before = Table::of(layer);
    let reply = layer.call(moment, call);
    if reply.number != 0 || !such(&call) || !speaks_of(moment.delay, &call) {
        return reply;
    }
    let address = match call {
        Call::ChunkRelease { address, .. } => address,
        _ => 0,
    };
    let mut arenas = before.arenas().iter();
    let chunk = |base: u64| (address.wrapping_sub(base) / CHUNK) as usize;
    let id = arenas.position(|arena| chunk(arena.base) < arena.chunks);
    let id = id.unwrap_or(0);
    let mut table = Table::of(layer);
    change(&mut table, &before, (id, chunk(before.records[id].base)));
    *layer = table.layer();
    reply
}

/// The difference that such a layer shows, from the empty table or from any, within these sequences.
fn found_out(make: Make, sequences: u64) -> Option<String> {
    for n in 0..sequences {
        let mut rng = Rng::new(SEED.wrapping_add(n));
        let mut player = Player::new(&mut rng);
        let start = player.table(&mut rng);
        let mut pair = Pair::made_by(&start, make, by_ours);
        for _ in 0..300 {
            let (_, agreed) = turn(&mut player, &mut rng, &mut pair, Tried::default());
            if let Err(difference) = agreed {
                return Some(difference);
            }
        }
    }
    None
}

#[test]
fn are_found_out() {
    assert_eq!(found_out(Layer::call, 50), None);
    for (what, make) in WRONG {
        assert!(found_out(make, 50).is_some(), "{what}");
    }
}
