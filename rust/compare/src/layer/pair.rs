//! Makes a call on both sides and compares. Ours stops at each question; the original asks it in the
//! middle of its call. There the two are compared, ours is answered and goes on, and then the
//! original gets the same answer.

use super::lists::{self, List, MakeList};
use super::plain::Table;
use super::{document, join_states, joined, list_states, never, never_states};
use super::{Given, Made, Meanwhile, Other};
use oracle::layer as rust;
use sirqobal::lent::{Call, Reply, State};
use sirqobal::{Ask, Layer, Moment};

/// Says what the host answers.
pub trait Source {
    fn give(&mut self, layer: &Layer, ask: Ask) -> Given;
}

/// Gives from a list, then no.
impl Source for std::vec::IntoIter<Given> {
    fn give(&mut self, _layer: &Layer, _ask: Ask) -> Given {
        self.next().unwrap_or(Given::NO)
    }
}

/// What happened at a call on which both sides agree.
#[derive(Default)]
pub struct Agreed {
    pub reply: Reply,
    /// The state before.
    pub before: State,
    /// The questions, and what was answered.
    pub asked: Vec<(Ask, Option<u64>)>,
    /// The numbers of the calls made while a question was open.
    pub while_open: Vec<u32>,
    /// Of the joins tried meanwhile, the numbers and what they reached.
    pub joins: Vec<(u32, Vec<&'static str>)>,
    /// The same of the lists.
    pub lists: Vec<(u32, Vec<&'static str>)>,
    /// All that was called on ours: the call, calls while it asks, and the answers.
    pub made: Vec<(Moment, Call)>,
    /// Arenas whose deadline was 1 before.
    pub ones: usize,
    /// What was reached of negative delays.
    pub never: Vec<&'static str>,
}

/// Arenas whose deadline is 1: as 0 becomes when it is armed.
pub fn ones(layer: &Layer) -> usize {
    let arenas = document::arenas(layer).iter();
    arenas.filter(|arena| arena.deadline == 1).count()
}

/// Makes a call on our layer.
pub type Make = fn(&mut Layer, Moment, Call) -> Reply;

/// Our layer and the original's, which is static, in the same state.
pub struct Pair {
    pub ours: Layer,
    make: Make,
    make_list: MakeList,
    /// As it was lent first, or left by the last join: what lies past the arenas that stand is not
    /// written by any other call.
    start: Table,
}

impl Pair {
    /// Both in this state, whose table is sound and in which no question is open.
    pub fn holding(layer: &Layer) -> Pair {
        Pair::made_by(layer, Layer::call, lists::by_ours)
    }

    /// The same, with calls or lists on ours made by another: a wrong one is to be found out.
    pub fn made_by(layer: &Layer, make: Make, make_list: MakeList) -> Pair {
        let records: Vec<rust::Record> = document::arenas(layer).iter().map(record).collect();
        rust::load(layer.state().mark == 1, &records, layer.stamps());
        Pair {
            ours: layer.clone(),
            make,
            make_list,
            start: Table::of(layer),
        }
    }

    /// Ours goes on from what a join left. The original is not touched: it gets the same otherwise.
    pub fn go_on(&mut self, left: Table) {
        self.ours = left.layer();
        self.start = left;
    }

    /// The table from which this pair began, or went on after its last join.
    pub fn start(&self) -> Layer {
        self.start.layer()
    }

    /// Whether both are in the same state.
    pub fn is_same(&self) -> Result<(), String> {
        same_state(&self.ours)
    }

    /// Makes one call on both sides; an error says what differs.
    pub fn call(
        &mut self,
        moment: Moment,
        call: Call,
        source: &mut dyn Source,
    ) -> Result<Agreed, String> {
        let refused = document::at_once(&self.ours, &moment, &call);
        let before = self.ours.state();
        let ones = ones(&self.ours);
        let never = never::said(&self.ours, &moment, &call);
        let mut reached = never_states::before(&self.ours, &moment, &call, refused);
        let (rust, agreed) = self.both(moment, call, source, refused)?;
        let reply = agreed.reply;
        if let Some(said) = never {
            said.is(&reply, self.ours.records(), self.ours.stamps())?;
        }
        let said = numbered(refused, rust)?;
        let expected = Reply {
            state: idle(said.number, before, reply.state),
            ..said
        };
        if reply != expected {
            return Err(format!("expected {expected:?}, ours {reply:?}"));
        }
        self.is_right_after()?;
        self.has_no_run_after(&call, reply.number)?;
        reached.extend(never_states::swept(&agreed));
        Ok(Agreed {
            before,
            ones,
            never: reached,
            ..agreed
        })
    }

    /// What every call leaves: the same on both sides, and flags as they were.
    fn is_right_after(&self) -> Result<(), String> {
        same_state(&self.ours)?;
        match self.flags_are_kept() {
            true => Ok(()),
            false => Err("a flag of a record was written, or is not 0 or 1".into()),
        }
    }

    fn has_no_run_after(&self, call: &Call, number: u32) -> Result<(), String> {
        match (number, claims(call)) {
            (10, Some((id, n))) if document::has_run(&self.ours, id, n) => {
                Err("both refused with 10, and there is such a run".into())
            }
            _ => Ok(()),
        }
    }

    /// Makes a list on ours, and on the original as many releases; an error says what differs. What
    /// the paper says of it, and what it reached.
    pub fn list(
        &mut self,
        moment: Moment,
        list: &List,
    ) -> Result<(lists::Said, Vec<&'static str>), String> {
        let before = Table::of(&self.ours);
        let said = lists::said(&before, moment.page, list);
        let mut after = before.clone();
        let (reply, answers) = lists::make(self.make_list, &mut after, moment, list)?;
        said.is(before.state, &reply, &answers)?;
        match &said {
            lists::Said::Answered(numbers) => original_list(&moment, list, numbers)?,
            lists::Said::Refused(_) if after == before => {}
            lists::Said::Refused(_) => return Err("list: refused, and the table moved".into()),
        }
        self.ours = after.layer();
        self.is_right_after()?;
        let reached = list_states::reached(&before, &moment, list, &said);
        Ok((said, reached))
    }

    /// Makes the call on both sides. What the original answers, and what happened on ours.
    fn both(
        &mut self,
        moment: Moment,
        call: Call,
        source: &mut dyn Source,
        refused: Option<u32>,
    ) -> Result<(Reply, Agreed), String> {
        let reply = (self.make)(&mut self.ours, moment, call);
        carry(&moment, &call);
        let mut bridge = Bridge {
            ours: &mut self.ours,
            make: self.make,
            make_list: self.make_list,
            source,
            agreed: Agreed {
                reply,
                made: vec![(moment, call)],
                ..Agreed::default()
            },
            difference: None,
        };
        // With 1, 3 and 6 the original is not called: it knows no such refusal. Nor is it for a sweep whose
        // delay means never.
        let rust = match (refused, never::for_original(moment.delay, call)) {
            (Some(1 | 3 | 6), _) => REFUSED,
            (_, Some(call)) => bridge.rust(call),
            (_, None) => Reply::default(),
        };
        match bridge.difference {
            Some(difference) => Err(difference),
            None => Ok((rust, bridge.agreed)),
        }
    }

    /// Whether the flags of the arenas that were lent, which the original keeps as bits, are the
    /// numbers that they were, and those of an arena that was registered since are 0 or 1.
    fn flags_are_kept(&self) -> bool {
        let lent = self.start.arenas();
        let mut arenas = document::arenas(&self.ours).iter().enumerate();
        arenas.all(|(id, arena)| match lent.get(id) {
            Some(was) => (arena.exclusive, arena.owned) == (was.exclusive, was.owned),
            None => arena.exclusive <= 1 && arena.owned <= 1,
        })
    }

    /// Whether the records and stamps past the arenas that stand are as they were lent.
    pub fn rest_is_untouched(&self) -> bool {
        let count = self.ours.state().count;
        self.ours.records()[count..] == self.start.records[count..]
            && self.ours.stamps()[1_024 * count..] == self.start.stamps[1_024 * count..]
    }

    /// Makes all this; an error says which of it differs, and how.
    pub fn play(&mut self, history: &[Made]) -> Result<(), (usize, String)> {
        for (n, made) in history.iter().enumerate() {
            let same = match made {
                Made::Step(step) => {
                    let mut source = step.given.clone().into_iter();
                    let agreed = self.call(step.moment, step.call, &mut source);
                    agreed.map(|_| ())
                }
                Made::List(moment, list) => self.list(*moment, list).map(|_| ()),
            };
            same.map_err(|difference| (n, difference))?;
        }
        Ok(())
    }
}

/// The id and the length that a claim names.
pub fn claims(call: &Call) -> Option<(i32, usize)> {
    match *call {
        Call::ChunkAlloc { id } | Call::ChunkClaim { id } => Some((id, 1)),
        Call::ChunkAllocN { id, n } => Some((id, n)),
        _ => None,
    }
}

/// The original makes the releases of a list in its order, and refuses those that have a number.
/// With a negative delay it is given them as single releases are.
fn original_list(moment: &Moment, list: &List, numbers: &[u32]) -> Result<(), String> {
    for (place, (item, number)) in list.items.iter().zip(numbers).enumerate() {
        let release = list.release(*item);
        if place == 0 {
            carry(moment, &release);
        }
        let call = never::for_original(moment.delay, release);
        let Some(Call::ChunkRelease {
            address,
            n,
            pending,
            ..
        }) = call
        else {
            unreachable!("a release stays one");
        };
        let granted = rust::chunk_release(address, n, None, pending);
        if granted != (*number == 0) {
            let rust = if granted { "grants" } else { "refuses" };
            return Err(format!(
                "item {place}: document {number}, the Rust {rust} it"
            ));
        }
    }
    Ok(())
}

/// The original's answer with the number that the document gives a refusal.
fn numbered(refused: Option<u32>, rust: Reply) -> Result<Reply, String> {
    match (refused, rust.number) {
        (Some(number), 0) => Err(format!("document {number}, the Rust grants it")),
        (Some(number), _) => Ok(self::refused(number)),
        (None, u32::MAX) => Err("the Rust refuses it, document 01 does not".into()),
        (None, _) => Ok(rust),
    }
}

/// The state that a call leaves: count and mark are compared with the original's, the rest is 0. A
/// refusal with 1 or 3 leaves all of it.
fn idle(number: u32, before: State, after: State) -> State {
    match number {
        1 | 3 => before,
        _ => State {
            count: after.count,
            mark: after.mark,
            ..State::EMPTY
        },
    }
}

/// Gives the original the numbers of the call.
fn carry(moment: &Moment, call: &Call) {
    let (mapped, reserved) = match *call {
        Call::ManageOsMemory {
            mapped, reserved, ..
        } => (mapped, reserved),
        _ => (false, false),
    };
    let script = rust::Script {
        ns: moment.ns,
        delay: moment.delay,
        decommits: moment.decommits,
        off: moment.off,
        reserve: moment.reserve as usize,
        mapped,
        reserved,
    };
    rust::carry(script, moment.page as usize);
}

/// Stands as the original's OS while ours waits for the same answer.
struct Bridge<'a> {
    ours: &'a mut Layer,
    make: Make,
    make_list: MakeList,
    source: &'a mut dyn Source,
    /// What happened; its reply is our last.
    agreed: Agreed,
    difference: Option<String>,
}

impl Bridge<'_> {
    /// Makes the original's call. What it answers, as a reply; its refusals are numbered by the
    /// document.
    fn rust(&mut self, call: Call) -> Reply {
        match call {
            Call::ReserveOsMemory {
                size,
                commit,
                allow_large,
                exclusive,
            } => {
                let id = rust::reserve_os_memory_ex(self, size, commit, allow_large, exclusive);
                id.map_or_else(|| self.reserve_refused(size), registered)
            }
            Call::ManageOsMemory {
                start,
                size,
                flags,
                node,
                exclusive,
                ..
            } => {
                let id = rust::manage_os_memory_ex(start, size, flags, node, exclusive);
                id.map_or(REFUSED, registered)
            }
            Call::AdoptOsBlock { address, size } => {
                rust::adopt_os_block(address, size).map_or(REFUSED, registered)
            }
            Call::ChunkAlloc { id } => self.claimed(|host| rust::chunk_alloc(host, id)),
            Call::ChunkClaim { id } => self.claimed(|host| rust::chunk_claim(host, id)),
            Call::ChunkAllocN { id, n } => self.claimed(|host| rust::chunk_alloc_n(host, id, n)),
            Call::ChunkRelease {
                address,
                n,
                told,
                pending,
            } => {
                let told = (told >= 0).then_some(told > 0);
                match rust::chunk_release(address, n, told, pending) {
                    true => Reply::default(),
                    false => REFUSED,
                }
            }
            Call::PurgeDue { force } => Reply {
                count: rust::purge_due(self, force),
                ..Reply::default()
            },
            Call::Owns { .. } | Call::ArenaArea { .. } => looked(call),
            Call::Answer { .. } => unreachable!("an answer to an idle layer is refused with 3"),
        }
    }

    fn claimed(&mut self, claim: impl FnOnce(&mut Self) -> Option<rust::Run>) -> Reply {
        match (claim(self), self.agreed.asked.last()) {
            (Some(run), _) => Reply {
                address: run.address,
                fresh: run.fresh,
                committed: run.committed.unwrap_or(true),
                ..Reply::default()
            },
            (None, Some((Ask::Commit { .. }, None))) => refused(11),
            (None, _) => refused(10),
        }
    }

    fn reserve_refused(&self, size: u64) -> Reply {
        match self.agreed.asked.last() {
            Some((Ask::Memory { .. }, None)) => refused(14),
            Some((Ask::GiveBack { address, .. }, _)) => {
                document::cannot_register(self.ours, size, *address).map_or(REFUSED, refused)
            }
            _ => REFUSED,
        }
    }

    /// Both sides ask the same in the same state; ours is answered and goes on.
    fn exchange(&mut self, question: rust::Question) -> Result<Option<u64>, String> {
        let ask = same_question(question);
        if Ask::of(&self.agreed.reply) != Some(ask) {
            return Err(format!(
                "the Rust asks {ask:?}, ours {:?}",
                self.agreed.reply
            ));
        }
        only_asks(&self.agreed.reply)?;
        let state = self.ours.state();
        let (begun, first) = self.agreed.made[0];
        waits(self.ours, &ask, &begun, &first)?;
        same_state(self.ours)?;
        let given = self.source.give(self.ours, ask);
        self.meanwhile(&given.before, state)?;
        let answer = |base: Option<u64>| Call::Answer {
            kind: ask.kind(),
            yes: base.is_some(),
            base: base.unwrap_or(0),
        };
        // A base that is refused with 6 leaves our question open, and the original registers it.
        let closes = |base: &u64| {
            let call = answer(Some(*base));
            document::at_once(self.ours, &given.moment, &call).is_none()
        };
        let given_answer = given.answer.filter(closes);
        self.agreed.reply = (self.make)(self.ours, given.moment, answer(given_answer));
        self.agreed.made.push((given.moment, answer(given_answer)));
        self.agreed.asked.push((ask, given_answer));
        Ok(given_answer)
    }

    /// What is tried while a question is open, and leaves this state.
    fn meanwhile(&mut self, tried: &[Meanwhile], state: State) -> Result<(), String> {
        for meanwhile in tried {
            match meanwhile {
                Meanwhile::Call(moment, call) => {
                    self.disturb(moment, *call, state)?;
                    self.agreed.made.push((*moment, *call));
                }
                Meanwhile::Join(moment, other) => self.join_meanwhile(*moment, other)?,
                Meanwhile::List(moment, list) => self.list_meanwhile(*moment, list)?,
            }
        }
        match tried {
            [] => Ok(()),
            _ => same_state(self.ours),
        }
    }

    /// A call on ours while a question is open: a query answers, all else is refused, and nothing
    /// changes.
    fn disturb(&mut self, moment: &Moment, call: Call, state: State) -> Result<(), String> {
        let number = document::at_once(self.ours, moment, &call);
        if let (None, Call::Answer { .. }) = (number, call) {
            return Ok(()); // it would close the question: in a list with calls left out
        }
        let reply = (self.make)(self.ours, *moment, call);
        let looked = match number {
            None => looked(call),
            Some(number) => refused(number),
        };
        let expected = Reply { state, ..looked };
        if reply != expected {
            let during = "while a question is open";
            return Err(format!(
                "{during}, {call:?}: expected {expected:?}, ours {reply:?}"
            ));
        }
        self.agreed.while_open.push(number.unwrap_or(0));
        Ok(())
    }

    /// A join of ours and another table while a question is open, on copies: it is refused.
    fn join_meanwhile(&mut self, moment: Moment, other: &Other) -> Result<(), String> {
        let asking = Table::of(self.ours);
        let (first, second) = match other.is_first {
            true => (&other.table, &asking),
            false => (&asking, &other.table),
        };
        let said = joined::make(first, second, moment)?;
        let reached = join_states::reached(first, second, &said, moment.page);
        self.agreed.joins.push((said.number(), reached));
        Ok(())
    }

    /// A list on ours while a question is open, on a copy: it is refused.
    fn list_meanwhile(&mut self, moment: Moment, list: &List) -> Result<(), String> {
        let asking = Table::of(self.ours);
        let said = lists::make_on_copy(self.make_list, &asking, moment, list)?;
        let reached = list_states::reached(&asking, &moment, list, &said);
        self.agreed.lists.push((said.number(), reached));
        Ok(())
    }
}

impl rust::Host for Bridge<'_> {
    fn answer(&mut self, question: rust::Question) -> Option<u64> {
        if self.difference.is_some() {
            return None; // the two have parted
        }
        let answer = self.exchange(question);
        answer.unwrap_or_else(|difference| {
            self.difference = Some(difference);
            None
        })
    }
}

/// The original refuses and says no more; which number it is stands in the document.
const REFUSED: Reply = refused(u32::MAX);

const fn refused(number: u32) -> Reply {
    Reply {
        number,
        kind: 0,
        address: 0,
        bytes: 0,
        align: 0,
        id: 0,
        count: 0,
        fresh: false,
        committed: false,
        owns: false,
        decommit: false,
        commit: false,
        large: false,
        spare: 0,
        state: State::EMPTY,
    }
}

fn registered(id: i32) -> Reply {
    Reply {
        id: id as usize,
        ..Reply::default()
    }
}

/// What the original answers to a query.
fn looked(call: Call) -> Reply {
    match call {
        Call::Owns { address } => Reply {
            owns: rust::owns(address),
            ..Reply::default()
        },
        Call::ArenaArea { id } => {
            let (address, bytes) = rust::arena_area(id);
            Reply {
                address,
                bytes,
                ..Reply::default()
            }
        }
        other => unreachable!("{other:?} is no query"),
    }
}

fn same_question(question: rust::Question) -> Ask {
    match question {
        rust::Question::Commit { address, bytes } => Ask::Commit { address, bytes },
        rust::Question::Purge {
            address,
            bytes,
            decommit,
        } => Ask::Purge {
            address,
            bytes,
            decommit,
        },
        rust::Question::Memory {
            bytes,
            align,
            commit,
            large,
        } => Ask::Memory {
            bytes,
            align,
            commit,
            large,
        },
        rust::Question::GiveBack { address, bytes } => Ask::GiveBack { address, bytes },
    }
}

/// A reply that asks says nothing else.
fn only_asks(reply: &Reply) -> Result<(), String> {
    let said = (
        reply.id,
        reply.count,
        reply.fresh,
        reply.committed,
        reply.owns,
    );
    match said == (0, 0, false, false, false) {
        true => Ok(()),
        false => Err(format!("beside its question, ours says {reply:?}")),
    }
}

/// The open question in our state is the one that was put, by the call that began with this moment.
fn waits(layer: &Layer, ask: &Ask, begun: &Moment, call: &Call) -> Result<(), String> {
    let state = layer.state();
    let at = |start: usize| layer.records()[state.id].base + start as u64 * super::CHUNK;
    let fits = match *ask {
        Ask::Commit { address, bytes } => {
            address == at(state.start) && bytes == state.n as u64 * super::CHUNK
        }
        Ask::Purge { address, .. } => {
            address == at(state.start) && keeps_sweep(&state, begun, call)
        }
        Ask::Memory { bytes, .. } => bytes == state.bytes,
        Ask::GiveBack { .. } => [7, 12, 13].contains(&state.cause),
    };
    match fits && state.question == ask.kind() {
        true => Ok(()),
        false => Err(format!("ours asks {ask:?} and keeps {state:?}")),
    }
}

/// The state keeps the clock and the settings with which its sweep began. A delay is kept as it counts: a
/// negative one, with which only a forced sweep asks, as 0.
fn keeps_sweep(state: &State, begun: &Moment, call: &Call) -> bool {
    let ms = (begun.ns / 1_000_000) as u32;
    let delay = begun.delay.clamp(0, 1_073_741_823) as u32;
    let force = matches!(call, Call::PurgeDue { force: true });
    let kept = (state.now, state.delay, state.force, state.decommit);
    kept == (ms.max(1), delay, force.into(), begun.decommits.into())
}

fn record(arena: &sirqobal::lent::Arena) -> rust::Record {
    rust::Record {
        base: arena.base,
        chunks: arena.chunks,
        exclusive: arena.is_exclusive(),
        owned: arena.is_owned(),
        node: arena.node,
        deadline: arena.deadline,
        used: arena.used,
        dirty: arena.dirty,
        committed: arena.committed,
        pending: arena.pending,
    }
}

/// Count, mark, every field and word of every record, every stamp.
fn same_state(layer: &Layer) -> Result<(), String> {
    let state = layer.state();
    let (count, mark) = (rust::count(), rust::mark());
    if (count, u32::from(mark)) != (state.count, state.mark) {
        let ours = (state.count, state.mark);
        return Err(format!(
            "count and mark: Rust {:?}, ours {ours:?}",
            (count, mark)
        ));
    }
    for (id, arena) in document::arenas(layer).iter().enumerate() {
        let (rust, ours) = (rust::record(id), record(arena));
        if rust != ours {
            return Err(format!("arena {id}: Rust {rust:?}, ours {ours:?}"));
        }
        let ours = &layer.stamps()[1_024 * id..][..1_024];
        if !rust::stamps_are(id, ours) {
            let rust = rust::stamps(id);
            let chunk = (0..1_024).find(|chunk| rust[*chunk] != ours[*chunk]);
            return Err(format!(
                "arena {id}: the stamps differ, first of chunk {chunk:?}"
            ));
        }
    }
    Ok(())
}
