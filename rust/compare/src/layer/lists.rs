//! What document 02's wish 3 says of a list of releases, plainly: which refusal it is, and the
//! number at each place of its answers. Written from that paper; row 1 and the refusals of a
//! release are document 01's. The original has no such call: it is given the single releases, and
//! has to be in the same state then.

use super::document::{broken, cannot_release};
use super::joined::differing;
use super::plain::Table;
use super::Moment;
use sirqobal::lent::{self, Call, Items, Reply, State};
use std::fmt;

/// The lists of a call. More items stand here than are lent: a list that goes on past its end meets
/// them.
#[derive(Clone, PartialEq)]
pub struct List {
    /// Addresses and counts.
    pub items: Vec<(u64, u32)>,
    /// How many addresses, counts and answers are lent.
    pub lengths: [usize; 3],
    pub pending: bool,
}

impl List {
    /// Whether as many addresses, counts and answers are lent.
    pub fn agrees(&self) -> bool {
        let [addresses, counts, answers] = self.lengths;
        addresses == counts && counts == answers
    }

    /// The single release of an item: "it says nothing of commitment".
    pub fn release(&self, (address, count): (u64, u32)) -> Call {
        Call::ChunkRelease {
            address,
            n: count as usize,
            told: -1,
            pending: self.pending,
        }
    }
}

/// The first items; lists that show a difference are made short.
impl fmt::Debug for List {
    fn fmt(&self, f: &mut fmt::Formatter<'_>) -> fmt::Result {
        let first = &self.items[..self.items.len().min(20)];
        let List {
            lengths, pending, ..
        } = self;
        write!(f, "list of {lengths:?}, pending {pending}: {first:?}")
    }
}

/// What a list answers.
#[derive(Debug, PartialEq)]
pub enum Said {
    /// With this number: the table and the answers are as they were lent.
    Refused(u32),
    /// It is granted, and these numbers stand at the places of its answers.
    Answered(Vec<u32>),
}

/// What the paper says of this list: "19 when the three lengths differ or pass 32,768, checked
/// after 2"; else "each item's number (0 for granted) stands at its place". What a release may be
/// refused for, no release moves.
pub fn said(table: &Table, page: u64, list: &List) -> Said {
    if broken(&table.records, &table.stamps, &table.state, page) {
        return Said::Refused(1);
    }
    if table.state.question != 0 {
        return Said::Refused(2);
    }
    let [addresses, counts, answers] = list.lengths;
    if addresses != counts || addresses != answers || addresses > 32_768 {
        return Said::Refused(19);
    }
    let items = list.items[..addresses].iter();
    let numbers = items.map(|(address, count)| {
        let refused = cannot_release(table.arenas(), *address, *count as usize);
        refused.unwrap_or(0)
    });
    Said::Answered(numbers.collect())
}

impl Said {
    /// The reply's number.
    pub fn number(&self) -> u32 {
        match self {
            Said::Refused(number) => *number,
            Said::Answered(_) => 0,
        }
    }

    /// Whether ours answered so on a table of this state; an error says what differs.
    pub fn is(&self, state: State, reply: &Reply, answers: &[u32]) -> Result<(), String> {
        let expected = Reply {
            number: self.number(),
            state,
            ..Reply::default()
        };
        if *reply != expected {
            return Err(format!("list: expected {expected:?}, ours {reply:?}"));
        }
        let left = match self {
            Said::Refused(_) => &vec![UNWRITTEN; answers.len()],
            Said::Answered(numbers) => numbers,
        };
        match differing(answers, left) {
            None => Ok(()),
            Some(place) => Err(format!(
                "list, {}: answer {place} is {}, expected {}",
                reply.number, answers[place], left[place]
            )),
        }
    }
}

/// What stands at the places of the answers before a list, and beside them. It is no number of an
/// item.
pub const UNWRITTEN: u32 = 0x7777_7777;

/// So many places before the lent answers stay, and all behind them.
const FENCE: usize = 2;

/// Makes a list on what is lent.
pub type MakeList = fn(lent::Table<'_>, Items<'_>, Moment, bool) -> Reply;

/// Makes it by the library.
pub fn by_ours(table: lent::Table<'_>, items: Items<'_>, moment: Moment, pending: bool) -> Reply {
    lent::chunk_release_list(table, items, moment.ns, moment.settings(), pending)
}

/// Makes a list on this table, which has the state of the reply then. The reply, and the answers.
/// It is an error if anything beside them is written, or an address or a count.
pub fn make(
    make: MakeList,
    table: &mut Table,
    moment: Moment,
    list: &List,
) -> Result<(Reply, Vec<u32>), String> {
    let (addresses, counts): (Vec<u64>, Vec<u32>) = list.items.iter().copied().unzip();
    let [address_count, count_count, answer_count] = list.lengths;
    let mut answers = vec![UNWRITTEN; FENCE + list.items.len()];
    let lent = FENCE..FENCE + answer_count;
    let items = Items {
        addresses: &addresses[..address_count],
        counts: &counts[..count_count],
        answers: &mut answers[lent.clone()],
    };
    let reply = make(table.lend(), items, moment, list.pending);
    table.state = reply.state;
    let beside = answers[..FENCE].iter().chain(&answers[lent.end..]);
    if beside.into_iter().any(|place| *place != UNWRITTEN) {
        return Err("list: written beside the answers".into());
    }
    if !addresses
        .into_iter()
        .zip(counts)
        .eq(list.items.iter().copied())
    {
        return Err("list: an address or a count was written".into());
    }
    Ok((reply, answers[lent].to_vec()))
}

/// A list on a copy of this table, which may be broken or ask, held against what the paper says.
/// One that is refused leaves the copy, one that is granted leaves it as single releases of ours
/// do.
pub fn make_on_copy(
    maker: MakeList,
    table: &Table,
    moment: Moment,
    list: &List,
) -> Result<Said, String> {
    let mut copy = table.clone();
    let (reply, answers) = make(maker, &mut copy, moment, list)?;
    let said = said(table, moment.page, list);
    said.is(table.state, &reply, &answers)?;
    let mut left = table.clone();
    if let Said::Answered(_) = said {
        release_each(&mut left, moment, list);
    }
    match copy == left {
        true => Ok(said),
        false => Err(format!("list, {}: the table differs", reply.number)),
    }
}

/// "It leaves what single releases in list order at the same clock and settings would leave".
pub fn release_each(table: &mut Table, moment: Moment, list: &List) {
    for item in &list.items[..list.lengths[0]] {
        table.state = table.call(moment, list.release(*item)).state;
    }
}

#[cfg(test)]
mod tests {
    use super::*;
    use crate::layer::{CHUNK, QUIET};
    use sirqobal::lent::Arena;

    /// Two arenas, of chunks 100 to 103 and of 200.
    fn table() -> Table {
        let mut table = Table::empty();
        for (id, (start, chunks)) in [(100, 4), (200, 1)].into_iter().enumerate() {
            table.records[id] = Arena {
                base: start * CHUNK,
                chunks,
                ..Arena::EMPTY
            };
        }
        table.state.count = 2;
        table
    }

    fn list(items: &[(u64, u32)]) -> List {
        List {
            items: items.to_vec(),
            lengths: [items.len(); 3],
            pending: true,
        }
    }

    #[test]
    fn numbered_place_by_place() {
        let items = [
            (100 * CHUNK, 4),
            (99 * CHUNK, 1),
            (0, 0),
            (100 * CHUNK + 1, 9),
            (101 * CHUNK, 4),
            (100 * CHUNK, 4),
            (200 * CHUNK, u32::MAX),
            (200 * CHUNK, 1),
            (201 * CHUNK - 1, 0),
            (201 * CHUNK + 1, 1),
        ];
        let numbers = vec![0, 8, 4, 7, 9, 0, 9, 0, 4, 8];
        let said = said(&table(), 4_096, &list(&items));
        assert_eq!(said, Said::Answered(numbers));
    }

    #[test]
    fn refused_in_order() {
        let number = |table: &Table, page: u64, lengths: [usize; 3]| {
            let items = vec![(100 * CHUNK, 1); 32_770];
            let list = List {
                lengths,
                ..list(&items)
            };
            said(table, page, &list).number()
        };
        let mut asks = table();
        (asks.state.question, asks.state.cause) = (4, 7);
        for lengths in [[1, 0, 0], [0, 1, 0], [0, 0, 1], [1, 2, 3], [32_769; 3]] {
            assert_eq!(number(&table(), 4_096, lengths), 19);
            assert_eq!(number(&asks, 4_096, lengths), 2);
            assert_eq!(number(&asks, 4_095, lengths), 1);
            assert_eq!(number(&table(), 4_095, lengths), 1);
        }
        for length in [0, 1, 32_768] {
            assert_eq!(number(&table(), 4_096, [length; 3]), 0);
            assert_eq!(number(&asks, 4_096, [length; 3]), 2);
        }
    }

    // Answers of a list that is refused as a whole stay, and a grant's are all written.
    #[test]
    fn answers_are_held_against_it() {
        let state = table().state;
        let reply = |number| Reply {
            number,
            state,
            ..Reply::default()
        };
        let refused = Said::Refused(19);
        assert!(refused.is(state, &reply(19), &[UNWRITTEN; 2]).is_ok());
        assert!(refused.is(state, &reply(19), &[UNWRITTEN, 19]).is_err());
        assert!(refused.is(state, &reply(2), &[UNWRITTEN; 2]).is_err());
        let answered = Said::Answered(vec![0, 8]);
        assert!(answered.is(state, &reply(0), &[0, 8]).is_ok());
        assert!(answered.is(state, &reply(0), &[0, UNWRITTEN]).is_err());
        assert!(answered.is(state, &reply(8), &[0, 8]).is_err());
    }

    #[test]
    fn lent_as_it_says() {
        let spare = List {
            lengths: [1, 2, 3],
            ..list(&[(5, 6), (7, 8), (9, 10), (11, 12)])
        };
        let seen: MakeList = |table, items, _, pending| {
            assert!(pending);
            assert_eq!((items.addresses, items.counts), (&[5][..], &[6, 8][..]));
            items.answers.copy_from_slice(&[1, 2, 3]);
            Reply {
                state: table.state,
                ..Reply::default()
            }
        };
        let made = make(seen, &mut table(), QUIET, &spare);
        assert_eq!(made.expect("nothing beside").1, [1, 2, 3]);
    }
}
