//! Lists of releases that are read otherwise than in document 02: the comparison finds each of them
//! out, by lists as `sequences` draws them. All in one test, since the original's state is static.
//!
//! Items in another order are not among them: releases at one clock leave the same in any order.

use compare_common::layer::document::cannot_release;
use compare_common::layer::draw::{turn, Player, Tried};
use compare_common::layer::lists::{by_ours, MakeList};
use compare_common::layer::pair::Pair;
use compare_common::layer::Moment;
use compare_common::rng::Rng;
use compare_common::SEED;
use sirqobal::lent::{self, Call, Items, Reply, Table, LIST};
use sirqobal::Layer;

/// What is wrong with it, and how it makes a list. All but what it says is ours.
const WRONG: [(&str, MakeList); 36] = [
    (
        "stops at the first refusal",
        |table, items, moment, pending| {
            let mut stopped = false;
            each(table, items, moment, |table, item| {
                if stopped {
                    return None;
                }
                let number = release(table, moment, item, -1, pending);
                stopped = number != 0;
                Some(number)
            })
        },
    ),
    (
        "releases nothing behind a refusal",
        |table, items, moment, pending| {
            let mut stopped = false;
            each(table, items, moment, |table, item| {
                stopped |= number_of(table, item) != 0;
                Some(match stopped {
                    true => number_of(table, item),
                    false => release(table, moment, item, -1, pending),
                })
            })
        },
    ),
    ("all or nothing", |mut table, items, moment, pending| {
        let (records, stamps) = (table.records.to_vec(), table.stamps.to_vec());
        let mut any = false;
        let reply = each(again(&mut table), items, moment, |table, item| {
            let number = release(table, moment, item, -1, pending);
            any |= number != 0;
            Some(number)
        });
        if any {
            table.records.copy_from_slice(&records);
            table.stamps.copy_from_slice(&stamps);
        }
        reply
    }),
    (
        "the last item is skipped",
        |table, items, moment, pending| {
            let last = items.addresses.len().wrapping_sub(1);
            skipping(table, items, moment, pending, last)
        },
    ),
    (
        "the first item is skipped",
        |table, items, moment, pending| skipping(table, items, moment, pending, 0),
    ),
    (
        "19 stands in the answers",
        |table, items, moment, pending| refused_fills(table, items, moment, pending, 19),
    ),
    (
        "2 stands in the answers",
        |table, items, moment, pending| refused_fills(table, items, moment, pending, 2),
    ),
    ("uncommits", |table, items, moment, pending| {
        each(table, items, moment, |table, item| {
            Some(release(table, moment, item, 0, pending))
        })
    }),
    ("commits", |table, items, moment, pending| {
        each(table, items, moment, |table, item| {
            Some(release(table, moment, item, 1, pending))
        })
    }),
    ("19 before 2", |table, items, moment, pending| {
        let fits = fits(&items);
        let reply = by_ours(table, items, moment, pending);
        match (reply.number, fits) {
            (2, false) => numbered(reply, 19),
            _ => reply,
        }
    }),
    ("19 before 1", |table, items, moment, pending| {
        let fits = fits(&items);
        let reply = by_ours(table, items, moment, pending);
        match (reply.number, fits) {
            (1, false) => numbered(reply, 19),
            _ => reply,
        }
    }),
    ("2 before 1", |table, items, moment, pending| {
        let asks = table.state.question != 0;
        let reply = by_ours(table, items, moment, pending);
        match (reply.number, asks) {
            (1, true) => numbered(reply, 2),
            _ => reply,
        }
    }),
    (
        "32,768 items are refused",
        |table, items, moment, pending| match items.addresses.len() {
            LIST => refused_as(table, items, moment, 19),
            _ => by_ours(table, items, moment, pending),
        },
    ),
    ("32,769 items are taken", |table, items, moment, pending| {
        let same = items.counts.len() == items.addresses.len();
        let same = same && items.answers.len() == items.addresses.len();
        match same && items.addresses.len() == LIST + 1 {
            true => each_unmeasured(table, items, moment, |table, item| {
                Some(release(table, moment, item, -1, pending))
            }),
            false => by_ours(table, items, moment, pending),
        }
    }),
    (
        "the answers' length is not looked at",
        |table, items, moment, pending| unmeasured(table, items, moment, pending, |l| l[0] == l[1]),
    ),
    (
        "the counts' length is not looked at",
        |table, items, moment, pending| unmeasured(table, items, moment, pending, |l| l[0] == l[2]),
    ),
    (
        "the addresses' length is not looked at",
        |table, items, moment, pending| unmeasured(table, items, moment, pending, |l| l[1] == l[2]),
    ),
    (
        "more answers than items are taken",
        |table, items, moment, pending| {
            unmeasured(table, items, moment, pending, |l| {
                l[0] == l[1] && l[2] > l[0]
            })
        },
    ),
    (
        "the answers' length is 1",
        |table, items, moment, pending| {
            let differs = items.answers.len() != items.addresses.len();
            let reply = by_ours(table, items, moment, pending);
            match (reply.number, differs) {
                (19, true) => numbered(reply, 1),
                _ => reply,
            }
        },
    ),
    (
        "any length that differs is 1",
        |table, items, moment, pending| {
            let reply = by_ours(table, items, moment, pending);
            match reply.number {
                19 => numbered(reply, 1),
                _ => reply,
            }
        },
    ),
    (
        "an empty list is refused",
        |table, items, moment, pending| match items.addresses.len() {
            0 => refused_as(table, items, moment, 19),
            _ => by_ours(table, items, moment, pending),
        },
    ),
    (
        "pending for the first item only",
        |table, items, moment, pending| {
            let mut first = true;
            each(table, items, moment, |table, item| {
                let pending = pending && std::mem::take(&mut first);
                Some(release(table, moment, item, -1, pending))
            })
        },
    ),
    ("never pending", |table, items, moment, _| {
        by_ours(table, items, moment, false)
    }),
    ("always pending", |table, items, moment, _| {
        by_ours(table, items, moment, true)
    }),
    ("a negative delay is 0", |table, items, moment, pending| {
        let delay = moment.delay.max(0);
        by_ours(table, items, Moment { delay, ..moment }, pending)
    }),
    ("answers in reverse", |table, items, moment, pending| {
        changed(table, items, moment, pending, |_, answers| {
            answers.reverse()
        })
    }),
    (
        "answers of granted items are left",
        |table, items, moment, pending| {
            each(table, items, moment, |table, item| {
                let number = release(table, moment, item, -1, pending);
                (number != 0).then_some(number)
            })
        },
    ),
    (
        "an item's number is 255",
        |table, items, moment, pending| {
            changed(table, items, moment, pending, |_, answers| {
                answers
                    .iter_mut()
                    .filter(|n| **n != 0)
                    .for_each(|n| *n = 255);
            })
        },
    ),
    ("an item's number is 1", |table, items, moment, pending| {
        changed(table, items, moment, pending, |_, answers| {
            answers.iter_mut().for_each(|n| *n = (*n).min(1));
        })
    }),
    (
        "the call says the last refusal",
        |table, items, moment, pending| {
            changed(table, items, moment, pending, |reply, answers| {
                let last = answers.iter().rev().find(|number| **number != 0);
                reply.number = last.copied().unwrap_or(0);
            })
        },
    ),
    (
        "the call counts its grants",
        |table, items, moment, pending| {
            changed(table, items, moment, pending, |reply, answers| {
                reply.count = answers.iter().filter(|number| **number == 0).count();
            })
        },
    ),
    (
        "an item that came before is refused",
        |table, items, moment, pending| {
            let mut before = Vec::new();
            each(table, items, moment, |table, item| {
                if before.contains(&item) {
                    return Some(8);
                }
                before.push(item);
                Some(release(table, moment, item, -1, pending))
            })
        },
    ),
    (
        "8 comes before an item's 4",
        |table, items, moment, pending| {
            each(table, items, moment, |table, (address, count)| {
                let number = release(table, moment, (address, count), -1, pending);
                let inside = lent::owns(
                    table.records,
                    table.stamps,
                    table.state,
                    0,
                    moment.settings(),
                    address,
                );
                Some(if inside.owns { number } else { 8 })
            })
        },
    ),
    (
        "9 comes before an item's 7",
        |table, items, moment, pending| {
            each(table, items, moment, |table, (address, count)| {
                let number = release(table, moment, (address, count), -1, pending);
                Some(if number == 7 && count > 1_024 {
                    9
                } else {
                    number
                })
            })
        },
    ),
    (
        "a list is refused, and its first item released",
        |mut table, items, moment, pending| {
            let first = items.addresses.first().zip(items.counts.first());
            let first = first.map(|(address, count)| (*address, *count));
            let reply = by_ours(again(&mut table), items, moment, pending);
            if let (19, Some(item)) = (reply.number, first) {
                release(&mut table, moment, item, -1, pending);
            }
            reply
        },
    ),
    ("the give-up mark goes", |table, items, moment, pending| {
        changed(table, items, moment, pending, |reply, _| {
            reply.state.mark = 0
        })
    }),
];

/// The same table, lent once more.
fn again<'a>(table: &'a mut Table<'_>) -> Table<'a> {
    Table {
        records: table.records,
        stamps: table.stamps,
        state: table.state,
    }
}

/// An item's release by ours: its number.
fn release(
    table: &mut Table<'_>,
    moment: Moment,
    (address, count): (u64, u32),
    told: i32,
    pending: bool,
) -> u32 {
    let call = Call::ChunkRelease {
        address,
        n: count as usize,
        told,
        pending,
    };
    let settings = moment.settings();
    let (records, stamps) = (&mut *table.records, &mut *table.stamps);
    lent::call(records, stamps, table.state, moment.ns, settings, call).number
}

fn fits(items: &Items<'_>) -> bool {
    let length = items.addresses.len();
    items.counts.len() == length && items.answers.len() == length && length <= LIST
}

fn numbered(reply: Reply, number: u32) -> Reply {
    Reply { number, ..reply }
}

/// Row 1 or 2, or this number.
fn refused_as(table: Table<'_>, items: Items<'_>, moment: Moment, number: u32) -> Reply {
    let nothing = Items {
        addresses: &[],
        counts: &[],
        answers: &mut items.answers[..0],
    };
    let reply = by_ours(table, nothing, moment, false);
    match reply.number {
        0 => numbered(reply, number),
        _ => reply,
    }
}

/// What is said of an item, or that its answer is left.
type Say<'a> = &'a mut dyn FnMut(&mut Table<'_>, (u64, u32)) -> Option<u32>;

/// Refused as ours; else what is said of each item stands at its place.
fn each(
    table: Table<'_>,
    items: Items<'_>,
    moment: Moment,
    mut say: impl FnMut(&mut Table<'_>, (u64, u32)) -> Option<u32>,
) -> Reply {
    match fits(&items) {
        true => said_of_each(table, items, moment, &mut say),
        false => refused_as(table, items, moment, 19),
    }
}

/// The same of lists of any length.
fn each_unmeasured(
    table: Table<'_>,
    items: Items<'_>,
    moment: Moment,
    mut say: impl FnMut(&mut Table<'_>, (u64, u32)) -> Option<u32>,
) -> Reply {
    said_of_each(table, items, moment, &mut say)
}

fn said_of_each(mut table: Table<'_>, items: Items<'_>, moment: Moment, say: Say<'_>) -> Reply {
    let nothing = Items {
        addresses: &[],
        counts: &[],
        answers: &mut [],
    };
    let reply = by_ours(again(&mut table), nothing, moment, false);
    if reply.number != 0 {
        return reply;
    }
    let lists = items.addresses.iter().zip(items.counts).zip(items.answers);
    for ((address, count), answer) in lists {
        if let Some(number) = say(&mut table, (*address, *count)) {
            *answer = number;
        }
    }
    reply
}

/// The item's number, which no release moves.
fn number_of(table: &Table<'_>, (address, count): (u64, u32)) -> u32 {
    let arenas = &table.records[..table.state.count];
    cannot_release(arenas, address, count as usize).unwrap_or(0)
}

/// The item at this place is answered, and not released.
fn skipping(
    table: Table<'_>,
    items: Items<'_>,
    moment: Moment,
    pending: bool,
    skipped: usize,
) -> Reply {
    let mut place = 0;
    each(table, items, moment, |table, item| {
        place += 1;
        match place - 1 == skipped {
            true => Some(number_of(table, item)),
            false => Some(release(table, moment, item, -1, pending)),
        }
    })
}

/// A list that is refused with this number writes it to all its answers.
fn refused_fills(
    table: Table<'_>,
    items: Items<'_>,
    moment: Moment,
    pending: bool,
    number: u32,
) -> Reply {
    let Items {
        addresses,
        counts,
        answers,
    } = items;
    let items = Items {
        addresses,
        counts,
        answers: &mut *answers,
    };
    let reply = by_ours(table, items, moment, pending);
    if reply.number == number {
        answers.fill(number);
    }
    reply
}

/// Lists whose lengths are taken so are made as far as all three go.
fn unmeasured(
    table: Table<'_>,
    items: Items<'_>,
    moment: Moment,
    pending: bool,
    taken: impl Fn([usize; 3]) -> bool,
) -> Reply {
    let lengths = [
        items.addresses.len(),
        items.counts.len(),
        items.answers.len(),
    ];
    match taken(lengths) && lengths.iter().all(|length| *length <= LIST) {
        true => each_unmeasured(table, items, moment, |table, item| {
            Some(release(table, moment, item, -1, pending))
        }),
        false => by_ours(table, items, moment, pending),
    }
}

/// Granted lists say something else.
fn changed(
    table: Table<'_>,
    items: Items<'_>,
    moment: Moment,
    pending: bool,
    change: impl Fn(&mut Reply, &mut [u32]),
) -> Reply {
    let Items {
        addresses,
        counts,
        answers,
    } = items;
    let items = Items {
        addresses,
        counts,
        answers: &mut *answers,
    };
    let mut reply = by_ours(table, items, moment, pending);
    if reply.number == 0 {
        change(&mut reply, answers);
    }
    reply
}

/// The difference that such lists show, from the empty table or from any, within these sequences.
fn found_out(make: MakeList, sequences: u64) -> Option<String> {
    let tried = Tried {
        joins: &[],
        lists: true,
    };
    for n in 0..sequences {
        let mut rng = Rng::new(SEED.wrapping_add(n));
        let mut player = Player::new(&mut rng);
        let start = player.table(&mut rng);
        let mut pair = Pair::made_by(&start, Layer::call, make);
        for _ in 0..300 {
            let (_, agreed) = turn(&mut player, &mut rng, &mut pair, tried);
            let moment = player.next_moment(&mut rng);
            let list = player.list(&mut rng, &pair.ours);
            let same = agreed.and_then(|_| pair.list(moment, &list).map(|_| ()));
            if let Err(difference) = same {
                return Some(difference);
            }
        }
    }
    None
}

#[test]
fn are_found_out() {
    assert_eq!(found_out(by_ours, 50), None);
    for (what, make) in WRONG {
        assert!(found_out(make, 50).is_some(), "{what}");
    }
}
