//! Layers side by side, each beside an original of its own, which are joined now and then. A join
//! is held against document 02 (`joined`); the joined layer goes on beside an original that got the
//! same, and the emptied one beside an empty original. Between the calls come lists of releases,
//! which the original is given one by one.

use super::counts::Counts;
use super::draw::{turn, Player, Tried};
use super::joined::{self, Joined, Said};
use super::lists;
use super::pair::Pair;
use super::plain::Table;
use super::smallest::{smallest, smallest_join};
use super::{edges, join_states, list_states, never, Made, Moment};
use crate::rng::Rng;
use oracle::layer as rust;
use sirqobal::lent::Call;
use sirqobal::Layer;

/// Some layers, of which one has its original in the statics.
pub struct Beside {
    layers: Vec<One>,
    /// Which one has.
    at: usize,
    /// The clock of the last call.
    ns: u64,
}

struct One {
    player: Player,
    pair: Pair,
    /// Its original, while another's stands in the statics.
    aside: rust::Aside,
    /// What was made since it began, or was joined last.
    made: Vec<Made>,
    /// Of each arena, whether it came by a join.
    came: Vec<bool>,
    /// Joins have emptied it.
    emptied: bool,
    /// A pending release with a negative delay was granted in it, or in one that it was joined from.
    never: bool,
    /// Items that its last list was granted, some of them.
    given_back: Vec<(u64, u32)>,
}

/// So many items of a list are remembered.
const REMEMBERED: usize = 20;

impl One {
    /// A new layer at this clock, or at any. Its original stands in the statics then.
    fn new(rng: &mut Rng, ns: Option<u64>) -> One {
        let mut player = Player::new(rng);
        player.go_on(ns.unwrap_or(player.clock()), &[]);
        let start = player.table(rng);
        One {
            pair: Pair::holding(&start),
            player,
            aside: rust::Aside::default(),
            made: Vec::new(),
            came: vec![false; start.state().count],
            emptied: false,
            never: false,
            given_back: Vec::new(),
        }
    }

    fn ours(&self) -> &Layer {
        &self.pair.ours
    }

    /// A difference, and as little as still shows one.
    fn told(&self, difference: String) -> String {
        let smallest = smallest(&self.pair.start(), &self.made);
        format!("{difference}\n{smallest}")
    }

    /// Nothing past its arenas was written.
    fn rest(&self) -> Result<(), String> {
        match self.pair.rest_is_untouched() {
            true => Ok(()),
            false => Err("records or stamps past the arenas were written".into()),
        }
    }
}

impl Beside {
    /// One, two or three layers.
    pub fn new(rng: &mut Rng) -> Beside {
        let mut layers = vec![One::new(rng, None)];
        let ns = layers[0].player.clock();
        for at in 0..rng.pick(&[0, 1, 2, 2]) {
            layers[at].aside = rust::put_aside();
            layers.push(One::new(rng, Some(ns)));
        }
        let at = layers.len() - 1;
        Beside { layers, at, ns }
    }

    /// The original of this layer stands in the statics.
    fn stand(&mut self, at: usize) {
        if at != self.at {
            self.layers[self.at].aside = rust::put_aside();
            rust::take_back(std::mem::take(&mut self.layers[at].aside));
            self.at = at;
        }
    }

    /// A call on some layer; if there are several, now and then a join.
    pub fn turn(&mut self, rng: &mut Rng, counts: &mut Counts) -> Result<(), String> {
        let several = self.layers.len() > 1;
        if several && rng.percent(20) {
            let at = rng.below(self.layers.len() as u64) as usize;
            self.stand(at);
        }
        self.call(rng, counts)?;
        match rng.below(100) {
            0..=5 if several => self.join(rng, counts),
            6 if several => self.join_copies(rng, counts),
            7..=8 => self.list(rng, counts),
            9 if rng.percent(40) => self.list_on_copy(rng, counts),
            _ => Ok(()),
        }
    }

    fn call(&mut self, rng: &mut Rng, counts: &mut Counts) -> Result<(), String> {
        let (before, rest) = self.layers.split_at_mut(self.at);
        let (one, after) = rest.split_first_mut().expect("it stands");
        let others: Vec<&Layer> = before.iter().chain(&*after).map(One::ours).collect();
        one.player.go_on(self.ns, &others);
        let tried = Tried {
            joins: &others,
            lists: true,
        };
        let (step, agreed) = turn(&mut one.player, rng, &mut one.pair, tried);
        let (moment, call) = (step.moment, step.call);
        one.made.push(Made::Step(step));
        let agreed = agreed.map_err(|difference| one.told(difference))?;
        counts.note(self.ns, &moment, &call, &agreed, &one.pair.ours);
        counts.note_moved(&call, &agreed, &one.pair.ours, &one.came);
        if one.never {
            counts.note_never(&moment, &call, &agreed);
        }
        if !one.given_back.is_empty() {
            counts.note_reached(&list_states::afterwards(&call, &agreed, &one.given_back));
        }
        let releases = matches!(call, Call::ChunkRelease { .. }) && agreed.reply.number == 0;
        one.never |= releases && never::speaks_of(moment.delay, &call);
        one.came.resize(one.pair.ours.state().count, false);
        self.ns = moment.ns;
        Ok(())
    }

    /// A list of releases on the layer that stands.
    fn list(&mut self, rng: &mut Rng, counts: &mut Counts) -> Result<(), String> {
        let moment = self.moment(rng, self.at);
        let one = &mut self.layers[self.at];
        let list = one.player.list(rng, &one.pair.ours);
        one.made.push(Made::List(moment, list.clone()));
        let made = one.pair.list(moment, &list);
        let (said, reached) = made.map_err(|difference| one.told(difference))?;
        counts.note_list("list", &said, &reached);
        if !one.given_back.is_empty() {
            counts.note_reached(&["after a list: another"]);
        }
        if let lists::Said::Answered(numbers) = &said {
            let items = list.items.iter().zip(numbers);
            let granted = items.filter(|(_, number)| **number == 0);
            let granted = granted.map(|(item, _)| *item).take(REMEMBERED);
            one.given_back = granted.collect();
            one.never |= list.pending && moment.delay < 0 && !one.given_back.is_empty();
        }
        Ok(())
    }

    /// A list of releases on a copy of some layer that is broken or asks.
    fn list_on_copy(&mut self, rng: &mut Rng, counts: &mut Counts) -> Result<(), String> {
        let moment = self.moment(rng, self.at);
        let one = &self.layers[self.at];
        let list = one.player.list(rng, one.ours());
        let mut copy = Table::of(one.ours());
        if rng.percent(60) {
            edges::ask(rng, &mut copy);
        }
        if rng.percent(50) {
            edges::damage(rng, &mut copy);
        }
        let said = lists::make_on_copy(lists::by_ours, &copy, moment, &list);
        let said = said.map_err(|difference| {
            format!("{difference}\n  {list:?} at {moment:?}\n  on {copy:?}")
        })?;
        let reached = list_states::reached(&copy, &moment, &list, &said);
        counts.note_list("list on a changed copy", &said, &reached);
        Ok(())
    }

    /// Two of them, the first and the second, in any order.
    fn two(&self, rng: &mut Rng) -> (usize, usize) {
        let count = self.layers.len() as u64;
        let first = rng.below(count);
        let second = (first + rng.between(1, count - 1)) % count;
        (first as usize, second as usize)
    }

    /// Joins two of the layers. A second that is refused may make room for a new layer.
    fn join(&mut self, rng: &mut Rng, counts: &mut Counts) -> Result<(), String> {
        let (first, second) = self.two(rng);
        let moment = self.moment(rng, first);
        let [one, other] = [first, second].map(|at| Table::of(self.layers[at].ours()));
        let said = compared(&one, &other, moment)?;
        let mut reached = join_states::reached(&one, &other, &said, moment.page);
        let number = said.number();
        match said {
            Said::Joined(joined) => {
                reached.extend(self.history(first, second));
                self.go_on(first, second, *joined)?;
                self.stand(rng.pick(&[first, second]));
            }
            Said::Refused(17 | 18) if rng.percent(30) => {
                self.stand(second);
                self.layers[second] = One::new(rng, Some(self.ns));
            }
            Said::Refused(_) => {}
        }
        counts.note_join("join", number, &reached);
        Ok(())
    }

    fn moment(&mut self, rng: &mut Rng, first: usize) -> Moment {
        let player = &mut self.layers[first].player;
        player.go_on(self.ns, &[]);
        let moment = player.next_moment(rng);
        self.ns = moment.ns;
        moment
    }

    /// What the two layers have behind them.
    fn history(&self, first: usize, second: usize) -> Vec<&'static str> {
        let [one, other] = [first, second].map(|at| &self.layers[at]);
        let states = [
            ("joined: into the first again", one.came.contains(&true)),
            (
                "joined: the second once emptied",
                other.emptied && !other.came.is_empty(),
            ),
            (
                "joined: the second itself joined before",
                other.came.contains(&true),
            ),
            (
                "after a list: the layer is joined",
                !one.given_back.is_empty() || !other.given_back.is_empty(),
            ),
        ];
        let reached = states.into_iter().filter(|(_, holds)| *holds);
        reached.map(|(state, _)| state).collect()
    }

    /// Both layers go on from what a join left, beside originals that got the same.
    fn go_on(&mut self, first: usize, second: usize, joined: Joined) -> Result<(), String> {
        self.stand(first);
        rust::join(std::mem::take(&mut self.layers[second].aside));
        let count = joined.first.state.count;
        self.layers[first].came.resize(count, true);
        self.layers[second].came.clear();
        self.layers[second].emptied = true;
        let never = std::mem::take(&mut self.layers[second].never);
        self.layers[first].never |= never;
        let given_back = std::mem::take(&mut self.layers[second].given_back);
        self.layers[first].given_back.extend(given_back);
        self.layers[first].given_back.truncate(2 * REMEMBERED);
        for (at, left) in [(first, joined.first), (second, joined.second)] {
            self.stand(at);
            let layer = &mut self.layers[at];
            layer.rest()?;
            layer.pair.go_on(left);
            let same = layer.pair.is_same();
            same.map_err(|difference| format!("after a join: {difference}"))?;
            layer.made.clear();
        }
        Ok(())
    }

    /// Joins changed copies of two of the layers, which themselves stay as they are.
    fn join_copies(&mut self, rng: &mut Rng, counts: &mut Counts) -> Result<(), String> {
        let (first, second) = self.two(rng);
        let mut moment = self.moment(rng, first);
        let mut both = [first, second].map(|at| Table::of(self.layers[at].ours()));
        edges::change(rng, &mut both, &mut moment);
        let [one, other] = &both;
        let said = compared(one, other, moment)?;
        let reached = join_states::reached(one, other, &said, moment.page);
        counts.note_join("join of changed copies", said.number(), &reached);
        Ok(())
    }

    /// What both sides print of each layer, and what lies past its arenas.
    pub fn end(mut self) -> Result<(), String> {
        for at in 0..self.layers.len() {
            self.stand(at);
            let layer = &self.layers[at];
            let (rust, ours) = (rust::print(), layer.ours().to_string());
            if rust != ours {
                return Err(format!("arenas_print: Rust\n{rust}ours\n{ours}"));
            }
            layer.rest()?;
        }
        Ok(())
    }
}

/// A join held against document 02; a difference is told by as little as still shows it.
fn compared(first: &Table, second: &Table, moment: Moment) -> Result<Said, String> {
    joined::make(first, second, moment).map_err(|_| smallest_join(first, second, moment))
}
