//! A difference is told by as few calls, and a join's by as few arenas, as still show it.

use super::joined;
use super::lists::List;
use super::pair::Pair;
use super::plain::Table;
use super::{Made, Moment};
use sirqobal::lent::Arena;
use sirqobal::Layer;

/// What is left of this if as little is made as still shows a difference, and the difference.
pub fn smallest(start: &Layer, history: &[Made]) -> String {
    let differs = |history: &[Made]| Pair::holding(start).play(history).err();
    let history = shrunk(history.to_vec(), differs);
    let difference = differs(&history).map_or("none".into(), |(_, difference)| difference);
    let made: String = history.iter().map(told).collect();
    format!("from {start:?}\n{made}  {difference}")
}

/// Leaves out one call after the other, items of lists, and what was done while questions were
/// open, as long as the two still differ. `differs` says at which place, and how.
fn shrunk(
    mut history: Vec<Made>,
    differs: impl Fn(&[Made]) -> Option<(usize, String)>,
) -> Vec<Made> {
    loop {
        let before = history.len();
        let mut place = history.len();
        while place > 0 {
            place -= 1;
            let made = history.remove(place);
            match differs(&history) {
                Some((last, _)) => history.truncate(last + 1),
                None => history.insert(place, made),
            }
            place = place.min(history.len());
        }
        if history.len() == before {
            break;
        }
    }
    for place in 0..history.len() {
        loop {
            let less = with_less_done(&history, place).find(|less| differs(less).is_some());
            match less {
                Some(less) => history = less,
                None => break,
            }
        }
    }
    history
}

/// What was made, with less of it at this place: a call without what was done while it asked, or a
/// list without some of its items.
fn with_less_done(history: &[Made], place: usize) -> impl Iterator<Item = Vec<Made>> + '_ {
    let less = match &history[place] {
        Made::Step(step) if step.given.iter().all(|given| given.before.is_empty()) => Vec::new(),
        Made::Step(step) => {
            let mut quiet = step.clone();
            quiet
                .given
                .iter_mut()
                .for_each(|given| given.before.clear());
            vec![Made::Step(quiet)]
        }
        Made::List(moment, list) => {
            let shorter = with_less_items(list).into_iter();
            shorter.map(|list| Made::List(*moment, list)).collect()
        }
    };
    less.into_iter().map(move |less| {
        let mut history = history.to_vec();
        history[place] = less;
        history
    })
}

/// The list without one item after the other; a long one without an eighth of it, since it would
/// be copied too often.
fn with_less_items(list: &List) -> Vec<List> {
    let [length, ..] = list.lengths;
    if !list.agrees() || length == 0 {
        return Vec::new();
    }
    let step = if length > 64 { length.div_ceil(8) } else { 1 };
    let starts = (0..length).step_by(step);
    let without = |start: usize| {
        let mut less = list.clone();
        let end = length.min(start + step);
        less.items.drain(start..end);
        less.lengths = [length - (end - start); 3];
        less
    };
    starts.map(without).collect()
}

fn told(made: &Made) -> String {
    match made {
        Made::List(moment, list) => format!("  {list:?} at {moment:?}\n"),
        Made::Step(step) => {
            let given = step.given.iter().map(|given| format!("    {given:?}\n"));
            let given: String = given.collect();
            format!("  {:?} at {:?}\n{given}", step.call, step.moment)
        }
    }
}

/// Takes arenas out of both tables and makes blank what can be, as long as ours and the paper still differ.
/// Tells what is left, and the difference.
pub fn smallest_join(first: &Table, second: &Table, moment: Moment) -> String {
    let differs = |both: &[Table; 2]| joined::make(&both[0], &both[1], moment).err();
    let mut both = [first.clone(), second.clone()];
    loop {
        let less = with_less(&both).find(|less| differs(less).is_some());
        match less {
            Some(less) => both = less,
            None => break,
        }
    }
    let difference = differs(&both).unwrap_or_default();
    let [first, second] = both;
    format!("{difference}\n  join at {moment:?}\n  first: {first:?}\n  second: {second:?}")
}

/// The two tables with one thing less in one of them.
fn with_less(both: &[Table; 2]) -> impl Iterator<Item = [Table; 2]> + '_ {
    let ways = (0..2).flat_map(|side| (0..36).map(move |way| (side, way)));
    ways.filter_map(|(side, way)| {
        let mut less = both.clone();
        take_out(&mut less[side], way);
        (less != *both).then_some(less)
    })
}

/// Takes something out of a table: an arena, if `way` is its id.
fn take_out(table: &mut Table, way: usize) {
    let lengths = (table.records.len(), table.stamps.len());
    let count = table.state.count.min(table.records.len());
    let is_table = lengths == (32, 32_768) && count == table.state.count;
    match way {
        0..32 if is_table && way < count => {
            table.records.remove(way);
            table.records.push(Arena::EMPTY);
            table.stamps.copy_within(1_024 * (way + 1).., 1_024 * way);
            table.state.count -= 1;
        }
        32 => table.stamps.fill(0),
        33 => table.records[count..].fill(Arena::EMPTY),
        34 => table.state.mark = 0,
        35 => {
            for arena in &mut table.records[..count] {
                let (base, chunks) = (arena.base, arena.chunks);
                *arena = Arena {
                    base,
                    chunks,
                    ..Arena::EMPTY
                };
            }
        }
        _ => {}
    }
}

#[cfg(test)]
mod tests {
    use super::*;
    use crate::layer::{Step, QUIET};
    use sirqobal::lent::Call;

    // Of two calls and two lists, the one item that shows a difference is left.
    #[test]
    fn one_item_is_left() {
        let list = |items: std::ops::Range<u64>| List {
            lengths: [items.clone().count(); 3],
            items: items.chain([7, 7]).map(|address| (address, 1)).collect(),
            pending: true,
        };
        let step = Made::Step(Step {
            moment: QUIET,
            call: Call::PurgeDue { force: true },
            given: Vec::new(),
        });
        let history = vec![
            step.clone(),
            Made::List(QUIET, list(10..20)),
            Made::List(QUIET, list(0..300)),
            step,
        ];
        let has_seven = |made: &Made| match made {
            Made::List(_, list) => list.items[..list.lengths[0]].contains(&(7, 1)),
            Made::Step(_) => false,
        };
        let differs = |history: &[Made]| {
            let place = history.iter().position(has_seven);
            place.map(|place| (place, String::new()))
        };
        match &shrunk(history, differs)[..] {
            [Made::List(_, left)] => assert_eq!(*left, list(7..8)),
            other => panic!("{other:?}"),
        }
    }
}
