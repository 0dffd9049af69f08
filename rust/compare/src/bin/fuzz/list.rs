//! Lists of releases over hostile tables and slices.

use crate::fenced::Table;
use crate::pages::Pages;
use crate::wild::wild_settings;
use crate::Fuzz;
use compare_common::layer::draw::Player;
use compare_common::layer::lists::{release_each, said, List, Said, UNWRITTEN};
use compare_common::layer::{edges, Moment, QUIET};
use compare_common::rng::Rng;
use compare_common::{by_number, NUMBERS};
use sirqobal::lent::{chunk_release_list, Items, Reply, Settings, LIST};

/// The longest that is lent.
const LONGEST: usize = LIST + 9;

/// What lists are lent, and how often each number was answered.
pub struct Slices {
    /// A sound table without a question, for the next list.
    table: Option<Table>,
    addresses: Pages<u64>,
    counts: Pages<u32>,
    answers: Pages<u32>,
    numbers: [u64; NUMBERS],
    items: [u64; NUMBERS],
}

impl Default for Slices {
    fn default() -> Slices {
        Slices {
            table: None,
            addresses: Pages::new(LONGEST),
            counts: Pages::new(LONGEST),
            answers: Pages::new(LONGEST),
            numbers: [0; NUMBERS],
            items: [0; NUMBERS],
        }
    }
}

impl Slices {
    pub fn made(&self) -> u64 {
        self.numbers.iter().sum()
    }

    pub fn print(&self) {
        println!("lists by number: {}", by_number(&self.numbers));
        println!("their items by number: {}", by_number(&self.items));
    }

    /// Makes a list over slices at edges of pages. The reply, and the answers.
    fn make(
        &mut self,
        table: &mut Table,
        (ns, settings): (u64, Settings),
        list: &List,
        at_last: bool,
    ) -> Result<(Reply, Vec<u32>), String> {
        let (addresses, counts): (Vec<u64>, Vec<u32>) = list.items.iter().copied().unzip();
        let (addresses, counts) = (&addresses[..list.lengths[0]], &counts[..list.lengths[1]]);
        let unwritten = vec![UNWRITTEN; list.lengths[2]];
        let lent_addresses = self.addresses.holding(addresses, at_last);
        let lent_counts = self.counts.holding(counts, at_last);
        let answers = self.answers.holding(&unwritten, at_last);
        let items = Items {
            addresses: lent_addresses,
            counts: lent_counts,
            answers: &mut *answers,
        };
        let reply = chunk_release_list(table.for_call(), items, ns, settings, list.pending);
        table.state = reply.state;
        match lent_addresses == addresses && lent_counts == counts {
            true => Ok((reply, answers.to_vec())),
            false => Err("an address or a count was written".into()),
        }
    }
}

impl Fuzz {
    /// One list, on any table.
    pub fn list(&mut self, rng: &mut Rng) {
        let player = Player::new(rng);
        let mut table = self.table_for_list(rng, &player);
        let list = match rng.below(2) {
            0 => player.list(rng, &table.layer()),
            _ => wild_list(rng),
        };
        let (ns, settings) = wild_settings(rng, &player);
        // The other settings decide nothing.
        let moment = Moment {
            ns,
            delay: settings.delay,
            page: settings.page,
            ..QUIET
        };
        let before = table.clone();
        let at_last = rng.percent(50);
        let made = self.lists.make(&mut table, (ns, settings), &list, at_last);
        let judged = made.and_then(|(reply, answers)| {
            judge(&before, &table, moment, &list, &reply, &answers).map(|said| (reply, said))
        });
        match judged {
            Ok((reply, said)) => self.note_list(reply.number, &said, table),
            Err(what) => self.fault(format!(
                "{what}: {list:?} at {moment:?}\n  {:?}",
                before.plain()
            )),
        }
    }

    /// The table that the last list left, or another; it may be damaged, or ask.
    fn table_for_list(&mut self, rng: &mut Rng, player: &Player) -> Table {
        let mut table = match self.lists.table.take() {
            Some(table) if rng.percent(60) => table,
            _ => Table::any(rng, player),
        };
        if rng.percent(20) {
            table.damage(rng);
        }
        if rng.percent(90) || table.is_broken(QUIET.page) {
            return table;
        }
        let mut asks = table.plain();
        edges::ask(rng, &mut asks);
        Table::of(&asks)
    }

    fn note_list(&mut self, number: u32, said: &Said, table: Table) {
        let lists = &mut self.lists;
        lists.numbers[number as usize] += 1;
        if let Said::Answered(numbers) = said {
            for number in numbers {
                lists.items[*number as usize] += 1;
            }
        }
        lists.table = matches!(number, 0 | 19).then_some(table);
    }
}

/// A list with any numbers, and of any lengths.
fn wild_list(rng: &mut Rng) -> List {
    let mut length = || match rng.below(60) {
        0 => rng.pick(&[LIST - 1, LIST, LIST + 1, LONGEST]),
        _ => rng.below(20) as usize,
    };
    let lengths = [length(), length(), length()];
    let lengths = match rng.percent(70) {
        true => [lengths[0]; 3],
        false => lengths,
    };
    let longest = lengths.into_iter().max().unwrap_or(0);
    let drawn: Vec<(u64, u32)> = (0..longest.min(100)).map(|_| wild_item(rng)).collect();
    List {
        items: drawn.iter().copied().cycle().take(longest).collect(),
        lengths,
        pending: rng.percent(50),
    }
}

fn wild_item(rng: &mut Rng) -> (u64, u32) {
    let address = rng.number() << rng.below(40);
    let count = match rng.below(4) {
        0 => rng.pick(&[0, u32::MAX, 1_024, 1_025]),
        1 => rng.number() as u32,
        _ => rng.between(1, 3) as u32,
    };
    (address, count)
}

/// What document 02 says of every list on any table.
fn judge(
    before: &Table,
    after: &Table,
    moment: Moment,
    list: &List,
    reply: &Reply,
    answers: &[u32],
) -> Result<Said, String> {
    if before.fences() != after.fences() {
        return Err("list: written beside the table's slices".into());
    }
    let mut left = before.plain();
    let said = said(&left, moment.page, list);
    said.is(before.state, reply, answers)?;
    if let Said::Answered(_) = said {
        release_each(&mut left, moment, list);
    }
    if after.plain() != left {
        return Err("list: another table than the paper's".into());
    }
    match reply.number != 1 && after.is_broken(moment.page) {
        true => Err("list: a sound table was broken".into()),
        false => Ok(said),
    }
}
