//! Joins of hostile tables.

use crate::fenced::Table;
use crate::wild::wild_settings;
use crate::Fuzz;
use compare_common::layer::document::broken;
use compare_common::layer::draw::Player;
use compare_common::layer::joined::{said, Said};
use compare_common::layer::{edges, plain, QUIET};
use compare_common::rng::Rng;
use sirqobal::lent::{self, Arena, JoinReply};
use sirqobal::Layer;

impl Fuzz {
    /// One join, of the tables that the last one left or of others; either may be changed, damaged,
    /// or of any length.
    pub fn join(&mut self, rng: &mut Rng) {
        let player = Player::new(rng);
        let mut both = match self.both.take() {
            Some(both) if rng.percent(60) => both,
            _ => [(); 2].map(|()| some_table(rng, &player)),
        };
        let (ns, mut settings) = wild_settings(rng, &player);
        let mut moment = QUIET;
        if rng.percent(60) {
            edges::change(rng, &mut both, &mut moment);
        }
        if moment.page != QUIET.page {
            settings.page = moment.page;
        }
        if rng.percent(10) {
            let side = rng.below(2) as usize;
            stretch(rng, &mut both[side]);
        }
        let mut fenced = [Table::of(&both[0]), Table::of(&both[1])];
        if rng.percent(20) {
            fenced[rng.below(2) as usize].damage(rng);
        }
        let before = fenced.clone();
        let [first, second] = &mut fenced;
        let reply = lent::join_tables(first.for_call(), second.for_call(), ns, settings);
        (first.state, second.state) = (reply.first, reply.second);
        if let Err(what) = judge(&before, &fenced, settings.page, &reply) {
            let tables = before.each_ref().map(Table::plain);
            self.fault(format!("join, {what}: {reply:?}\n  {tables:?}"));
        }
        self.joins[(reply.number as usize).min(18)] += 1;
        let goes_on = matches!(reply.number, 0 | 17 | 18);
        self.both = goes_on.then(|| fenced.map(|table| table.plain()));
    }
}

/// Empty, or sound with anything in it.
fn some_table(rng: &mut Rng, player: &Player) -> plain::Table {
    plain::Table::of(&match rng.below(4) {
        0 => Layer::new(),
        _ => player.any_table(rng),
    })
}

/// Other lengths than a table's, up to many times its own.
fn stretch(rng: &mut Rng, table: &mut plain::Table) {
    match rng.below(2) {
        0 => {
            let records = rng.pick(&[0, 1, 31, 33, 64, 1_024]);
            table.records.resize(records, Arena::EMPTY);
        }
        _ => {
            let stamps = rng.pick(&[0, 1, 31, 32, 32_767, 32_769, 65_536, 1 << 20]);
            table.stamps.resize(stamps, 7);
        }
    }
}

/// What document 02 says of every join of any two tables.
fn judge(
    before: &[Table; 2],
    after: &[Table; 2],
    page: u64,
    reply: &JoinReply,
) -> Result<(), &'static str> {
    let [first, second] = before.each_ref().map(Table::plain);
    if before.each_ref().map(Table::fences) != after.each_ref().map(Table::fences) {
        return Err("written beside the slices");
    }
    let said = said(&first, &second, page);
    if reply.number != said.number() {
        return Err("another number than the paper's");
    }
    let (rise, left) = match said {
        Said::Refused(_) => (0, [first, second]),
        Said::Joined(joined) => (joined.rise, [joined.first, joined.second]),
    };
    if (reply.spare, reply.rise) != (0, rise) {
        return Err("another rise than the paper's");
    }
    let is = after.each_ref().map(Table::plain);
    if is != left {
        return Err(match reply.number {
            0 => "another table or state than the paper's",
            _ => "a refusal changed something",
        });
    }
    let breaks = |table: &plain::Table| broken(&table.records, &table.stamps, &table.state, page);
    match reply.number == 0 && is.iter().any(breaks) {
        true => Err("a sound table was broken"),
        false => Ok(()),
    }
}
