//! What document 02's wish 1 says of a join, plainly: which refusal it is, and every record, every
//! stamp and the state of both tables afterwards. Written from that paper; row 1 is document 01's. The
//! original has no such call, so this stands beside ours in its place, and has nothing of ours.

use super::document::broken;
use super::plain::Table;
use super::{Moment, CHUNK};
use sirqobal::lent::{JoinReply, State};

/// What a join answers and leaves.
pub enum Said {
    /// With this number: both tables are as they were lent.
    Refused(u32),
    /// One table of two.
    Joined(Box<Joined>),
}

/// What a join leaves that is granted. The second's arena i has the id `rise` + i then.
pub struct Joined {
    pub rise: usize,
    pub first: Table,
    pub second: Table,
}

impl Said {
    /// The reply's number.
    pub fn number(&self) -> u32 {
        match self {
            Said::Refused(number) => *number,
            Said::Joined(_) => 0,
        }
    }
}

/// What the paper says of this join.
pub fn said(first: &Table, second: &Table, page: u64) -> Said {
    match refusal(first, second, page) {
        Some(number) => Said::Refused(number),
        None => Said::Joined(Box::new(one_of_two(first, second))),
    }
}

/// "An open question on either side is 2. 17 when a range of one overlaps a range of the other, 18 when
/// more than 32 arenas result, checked in that order after 2." Before it row 1, of both.
fn refusal(first: &Table, second: &Table, page: u64) -> Option<u32> {
    let both = [first, second];
    if both
        .iter()
        .any(|table| broken(&table.records, &table.stamps, &table.state, page))
    {
        return Some(1);
    }
    if both.iter().any(|table| table.state.question != 0) {
        return Some(2);
    }
    if shares_an_address(first, second) {
        return Some(17);
    }
    (first.state.count + second.state.count > 32).then_some(18)
}

/// Whether an address lies in a range of each. Ranges are of whole chunks, and those of one table
/// apart: then a chunk stands twice in the list of all.
pub fn shares_an_address(first: &Table, second: &Table) -> bool {
    let both = [first, second].into_iter().flat_map(Table::arenas);
    let mut chunks: Vec<u64> = both
        .flat_map(|arena| (0..arena.chunks as u64).map(|chunk| arena.base + chunk * CHUNK))
        .collect();
    chunks.sort();
    chunks.windows(2).any(|pair| pair[0] == pair[1])
}

/// "the first keeps its ids, the second's rise by the first's arena count, stamps and deadlines move
/// along, and the give-up mark stands only if it stood in both"; "The second is left empty".
fn one_of_two(first: &Table, second: &Table) -> Joined {
    let rise = first.state.count;
    let mut one = first.clone();
    for id in 0..second.state.count {
        one.records[rise + id] = second.records[id];
        for chunk in 0..1_024 {
            one.stamps[1_024 * (rise + id) + chunk] = second.stamps[1_024 * id + chunk];
        }
    }
    let stood_in_both = first.state.mark == 1 && second.state.mark == 1;
    one.state = State {
        count: rise + second.state.count,
        mark: stood_in_both.into(),
        ..State::EMPTY
    };
    Joined {
        rise,
        first: one,
        second: Table::empty(),
    }
}

/// Ours joins copies of these tables; answer, records, stamps and states are held against what the
/// paper says. An error says what differs.
pub fn make(first: &Table, second: &Table, moment: Moment) -> Result<Said, String> {
    let mut ours = [first.clone(), second.clone()];
    let [ours_first, ours_second] = &mut ours;
    let reply = ours_first.join(ours_second, moment);
    let said = said(first, second, moment.page);
    let (rise, left) = match &said {
        Said::Refused(_) => (0, [first, second]),
        Said::Joined(joined) => (joined.rise, [&joined.first, &joined.second]),
    };
    let expected = JoinReply {
        number: said.number(),
        spare: 0,
        rise,
        first: left[0].state,
        second: left[1].state,
    };
    if reply != expected {
        return Err(format!("join: expected {expected:?}, ours {reply:?}"));
    }
    for (which, (ours, left)) in ["first", "second"].iter().zip(ours.iter().zip(left)) {
        let place = differing(&ours.records, &left.records).map(|id| format!("record {id}"));
        let place =
            place.or_else(|| differing(&ours.stamps, &left.stamps).map(|at| format!("stamp {at}")));
        if let Some(place) = place {
            return Err(format!("join, {}: the {which}'s {place}", said.number()));
        }
    }
    Ok(said)
}

/// The first place at which two lists of one length differ.
pub fn differing<T: PartialEq>(these: &[T], those: &[T]) -> Option<usize> {
    match these == those {
        true => None,
        false => these
            .iter()
            .zip(those)
            .position(|(this, that)| this != that),
    }
}

#[cfg(test)]
mod tests {
    use super::*;
    use sirqobal::lent::Arena;

    /// Arenas of these bases and chunks, the n-th with deadline and stamps of 100 + n.
    fn table(arenas: &[(u64, usize)]) -> Table {
        let mut table = Table::empty();
        for (id, (base, chunks)) in arenas.iter().enumerate() {
            table.records[id] = Arena {
                base: base * CHUNK,
                chunks: *chunks,
                exclusive: id as u32,
                deadline: 100 + id as u32,
                ..Arena::EMPTY
            };
            table.stamps[1_024 * id..][..1_024].fill(100 + id as u32);
        }
        table.state.count = arenas.len();
        table
    }

    fn granted(first: &Table, second: &Table) -> Joined {
        match said(first, second, 4_096) {
            Said::Joined(joined) => *joined,
            Said::Refused(number) => panic!("refused with {number}"),
        }
    }

    fn number(first: &[(u64, usize)], second: &[(u64, usize)]) -> u32 {
        said(&table(first), &table(second), 4_096).number()
    }

    // Two arenas and one: ids 0, 1 and 2, whatever the bases are.
    #[test]
    fn one_table_of_two() {
        let mut first = table(&[(50, 2), (10, 1)]);
        let mut second = table(&[(20, 3)]);
        (first.records[2].chunks, first.records[3].chunks) = (7, 8);
        (first.stamps[2_048], first.stamps[3_072]) = (5, 6);
        second.records[31].node = 9;
        second.state.mark = 1;
        let Joined {
            rise,
            first: one,
            second: left,
        } = granted(&first, &second);
        assert_eq!((rise, one.state.count, one.state.mark), (2, 3, 0));
        let bases = [0, 1, 2].map(|id| one.records[id].base / CHUNK);
        assert_eq!(bases, [50, 10, 20]);
        assert!(one.records[2] == second.records[0] && one.records[3] == first.records[3]);
        assert_eq!(one.stamps[2_047..2_049], [101, 100]);
        assert_eq!((one.stamps[3_071], one.stamps[3_072]), (100, 6));
        assert!(left == Table::empty());
    }

    #[test]
    fn refused_in_order() {
        let many: Vec<(u64, usize)> = (0..20).map(|n| (100 + 2 * n, 2)).collect();
        let more: Vec<(u64, usize)> = (0..13).map(|n| (200 + 2 * n, 2)).collect();
        assert_eq!(number(&many, &more[1..]), 0);
        assert_eq!(number(&many, &more), 18);
        assert_eq!(number(&more, &many), 18);
        assert_eq!(number(&many, &many), 17);
        assert_eq!(number(&[(5, 1), (7, 1)], &[(4, 1), (6, 1)]), 0);
        assert_eq!(number(&[(5, 3)], &[(6, 1)]), 17);
        assert_eq!(number(&[(6, 1)], &[(5, 3)]), 17);
        assert_eq!(number(&[(5, 3)], &[(1, 4), (7, 1)]), 17);
        let mut asks = table(&many);
        (asks.state.question, asks.state.cause) = (4, 7);
        assert_eq!(said(&table(&many), &asks, 4_096).number(), 2);
        assert_eq!(said(&asks, &table(&many), 4_096).number(), 2);
        assert_eq!(said(&asks, &table(&many), 4_095).number(), 1);
        asks.stamps.pop();
        assert_eq!(said(&table(&many), &asks, 4_096).number(), 1);
    }

    #[test]
    fn the_mark_stands_only_in_both() {
        for marks in [(0, 0), (0, 1), (1, 0), (1, 1)] {
            let (mut first, mut second) = (table(&[]), table(&[]));
            (first.state.mark, second.state.mark) = marks;
            let Joined { first, second, .. } = granted(&first, &second);
            assert_eq!(first.state.mark, marks.0 & marks.1);
            assert!(second == Table::empty());
        }
    }
}
