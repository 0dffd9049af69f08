//! What a run reached.

use super::document::{arenas, has_run};
use super::lists::Said;
use super::pair::{claims, ones, Agreed};
use super::{join_states, list_states, never_states, Moment, CHUNK, PAGES};
use crate::NUMBERS;
use sirqobal::lent::Call;
use sirqobal::{Ask, Layer};
use std::collections::{BTreeMap, BTreeSet};

/// Answers of each call by number, questions by answer, and states that are to be reached.
#[derive(Default)]
pub struct Counts {
    pub calls: u64,
    pub questions: u64,
    pub joins: u64,
    pub lists: u64,
    /// Of the lists that were not refused.
    pub items: u64,
    answers: BTreeMap<&'static str, [u64; NUMBERS]>,
    asked: BTreeMap<String, u64>,
    reached: BTreeMap<&'static str, u64>,
}

/// All that is to be reached, and how often at least.
fn wanted() -> impl Iterator<Item = (&'static str, u64)> {
    let calls = WANTED.iter().map(|what| (*what, 1));
    let joins = join_states::WANTED.iter();
    let others = joins.chain(never_states::WANTED).chain(list_states::WANTED);
    calls.chain(others.copied())
}

/// What the calls are to reach, beside every refusal.
const WANTED: [&str; 20] = [
    "growth",
    "growth, owned a number above 1",
    "claim, exclusive a number above 1",
    "default reserve: yes",
    "default reserve: no",
    "default reserve: unusable base",
    "default reserve: product past 2^64 - 1",
    "commit no, first search",
    "commit no, second search",
    "sweep over several arenas, yes and no",
    "milliseconds wrapped",
    "deadline 0 became 1, release",
    "deadline 0 became 1, sweep",
    "32 arenas",
    "run over a word border",
    "page 4096",
    "page 8192",
    "page 16384",
    "page 32768",
    "page 65536",
];

impl Counts {
    /// Notes a call on which both sides agreed. `last` is the clock of the call before, `layer`
    /// what this one left.
    pub fn note(
        &mut self,
        last: u64,
        moment: &Moment,
        call: &Call,
        agreed: &Agreed,
        layer: &Layer,
    ) {
        self.calls += 1;
        self.questions += agreed.asked.len() as u64;
        self.answers.entry(name(call)).or_default()[agreed.reply.number as usize] += 1;
        self.meanwhile(agreed);
        for (ask, answer) in &agreed.asked {
            let said = if answer.is_some() { "yes" } else { "no" };
            let asked = format!("{} {said}", kind(ask));
            *self.asked.entry(asked).or_default() += 1;
        }
        let turn = |ns: u64| (ns / 1_000_000) >> 32;
        self.reach("milliseconds wrapped", turn(last) != turn(moment.ns));
        self.reach("32 arenas", layer.state().count == 32);
        if let Some(place) = PAGES.iter().position(|page| *page == moment.page) {
            self.reach(WANTED[WANTED.len() - PAGES.len() + place], true);
        }
        let became_one = ones(layer) > agreed.ones;
        match call {
            Call::ChunkRelease { .. } => self.reach("deadline 0 became 1, release", became_one),
            Call::PurgeDue { .. } => self.reach("deadline 0 became 1, sweep", became_one),
            _ => {}
        }
        if let Call::AdoptOsBlock { .. } = call {
            let stays = agreed.before.count == layer.state().count;
            let grows = agreed.reply.number == 0 && stays;
            self.reach("growth", grows);
            let owned = arenas(layer).get(agreed.reply.id).map_or(0, |a| a.owned);
            self.reach("growth, owned a number above 1", grows && owned > 1);
        }
        if let Some((id, n)) = claims(call) {
            self.claim(id, n, agreed, layer);
        }
        self.sweep(agreed, layer);
        self.note_reached(&agreed.never);
    }

    /// Notes what a call reached on a layer on which a negative delay left nothing pending before.
    pub fn note_never(&mut self, moment: &Moment, call: &Call, agreed: &Agreed) {
        if let Some(state) = never_states::afterwards(moment, call, agreed) {
            self.reach(state, true);
        }
    }

    fn meanwhile(&mut self, agreed: &Agreed) {
        let while_open = self.answers.entry("while a question is open").or_default();
        for number in &agreed.while_open {
            while_open[*number as usize] += 1;
        }
        for (number, reached) in &agreed.joins {
            self.note_join("join while a question is open", *number, reached);
        }
        for (number, reached) in &agreed.lists {
            self.note_list(
                "list while a question is open",
                &Said::Refused(*number),
                reached,
            );
        }
    }

    /// Notes a list on which ours, document 02 and the original's single releases agreed.
    pub fn note_list(&mut self, how: &'static str, said: &Said, reached: &[&'static str]) {
        self.lists += 1;
        self.answers.entry(how).or_default()[said.number() as usize] += 1;
        if let Said::Answered(numbers) = said {
            self.items += numbers.len() as u64;
            let items = self.answers.entry("list, its items").or_default();
            numbers
                .iter()
                .for_each(|number| items[*number as usize] += 1);
        }
        self.note_reached(reached);
    }

    /// Notes states that something reached.
    pub fn note_reached(&mut self, reached: &[&'static str]) {
        for state in reached {
            self.reach(state, true);
        }
    }

    /// Notes a join on which ours and document 02 agreed.
    pub fn note_join(&mut self, how: &'static str, number: u32, reached: &[&'static str]) {
        self.joins += 1;
        self.answers.entry(how).or_default()[number as usize] += 1;
        self.note_reached(reached);
    }

    /// Notes what a call did in arenas that came by a join. `came` says it of each.
    pub fn note_moved(&mut self, call: &Call, agreed: &Agreed, layer: &Layer, came: &[bool]) {
        let reply = &agreed.reply;
        let granted = reply.number == 0;
        let came_at = |address: u64| {
            let place = place(layer, address).filter(|(id, _)| came.get(*id) == Some(&true));
            place.map(|(id, _)| &arenas(layer)[id])
        };
        match (*call, claims(call)) {
            (_, Some((named, _))) if granted => {
                let arena = came_at(reply.address);
                let exclusive = arena.is_some_and(|arena| named >= 0 && arena.is_exclusive());
                self.reach("in a joined arena: claim", arena.is_some());
                self.reach(
                    "in a joined arena: claim by its new id, exclusive",
                    exclusive,
                );
            }
            (Call::ChunkRelease { address, .. }, _) if granted => {
                self.reach("in a joined arena: release", came_at(address).is_some());
            }
            (Call::AdoptOsBlock { .. }, _) if granted => {
                let grew = came.get(reply.id) == Some(&true);
                self.reach("in a joined arena: growth", grew);
            }
            _ => {}
        }
        for (ask, answer) in &agreed.asked {
            match (ask, answer) {
                (Ask::Purge { address, .. }, Some(_)) => {
                    self.reach("in a joined arena: purge", came_at(*address).is_some());
                }
                (Ask::Commit { address, .. }, None) => {
                    self.reach("in a joined arena: commit no", came_at(*address).is_some());
                }
                _ => {}
            }
        }
    }

    fn reach(&mut self, what: &'static str, holds: bool) {
        debug_assert!(wanted().any(|(wanted, _)| wanted == what));
        *self.reached.entry(what).or_default() += u64::from(holds);
    }

    fn claim(&mut self, id: i32, n: usize, agreed: &Agreed, layer: &Layer) {
        let reply = &agreed.reply;
        let mut memory = None;
        let mut unusable = false;
        for (ask, answer) in &agreed.asked {
            match ask {
                Ask::Memory { .. } => memory = Some(answer.is_some()),
                Ask::GiveBack { .. } => unusable = true,
                _ => {}
            }
        }
        self.reach("default reserve: yes", memory == Some(true) && !unusable);
        self.reach("default reserve: no", memory == Some(false));
        self.reach("default reserve: unusable base", unusable);
        let marked = agreed.before.mark != layer.state().mark;
        let past = "default reserve: product past 2^64 - 1";
        self.reach(past, memory.is_none() && marked);
        let no = reply.number == 11;
        self.reach("commit no, first search", no && memory.is_none());
        self.reach("commit no, second search", no && memory.is_some());
        let granted = place(layer, reply.address).filter(|_| reply.number == 0);
        let border = granted.is_some_and(|(_, start)| start % 32 + n > 32);
        self.reach("run over a word border", border);
        // A lower arena has such a run too, and is passed over.
        let lower = granted.map_or(0, |(id, _)| id);
        let passed = |id: usize| arenas(layer)[id].exclusive > 1 && has_run(layer, id as i32, n);
        let over = id < 0 && (0..lower).any(passed);
        self.reach("claim, exclusive a number above 1", over);
    }

    fn sweep(&mut self, agreed: &Agreed, layer: &Layer) {
        let mut yes_and_no = [false; 2];
        let mut swept = BTreeSet::new();
        for (ask, answer) in &agreed.asked {
            if let Ask::Purge { address, .. } = ask {
                yes_and_no[usize::from(answer.is_some())] = true;
                swept.extend(place(layer, *address).map(|(id, _)| id));
            }
        }
        let both = yes_and_no == [true; 2] && swept.len() > 1;
        self.reach("sweep over several arenas, yes and no", both);
    }

    /// What was wanted and not reached.
    pub fn missing(&self) -> Vec<String> {
        let seldom = |(what, least): &(&str, u64)| self.reached.get(what).is_none_or(|n| n < least);
        let states = wanted().filter(seldom);
        let states = states.map(|(what, least)| format!("{what} ({least} times)"));
        let numbers = 1..NUMBERS;
        let numbers = numbers.filter(|n| self.answers.values().all(|counts| counts[*n] == 0));
        let numbers = numbers.map(|n| format!("refusal {n}"));
        states.chain(numbers).collect()
    }

    pub fn print(&self) {
        println!("{:<29}   0 is granted, 1 to 19 are the refusals", "call");
        for (name, counts) in &self.answers {
            println!("{name:<29}   {}", crate::by_number(counts));
        }
        for (asked, n) in &self.asked {
            println!("{asked:<29}   {n}");
        }
        for (what, _) in wanted() {
            println!("{what:<52} {}", self.reached.get(what).unwrap_or(&0));
        }
    }
}

/// The arena and the chunk in which an address lies.
fn place(layer: &Layer, address: u64) -> Option<(usize, usize)> {
    let mut arenas = arenas(layer).iter().enumerate();
    arenas.find_map(|(id, arena)| {
        let chunk = (address.checked_sub(arena.base)? / CHUNK) as usize;
        (chunk < arena.chunks).then_some((id, chunk))
    })
}

fn name(call: &Call) -> &'static str {
    match call {
        Call::ReserveOsMemory { .. } => "reserve_os_memory_ex",
        Call::ManageOsMemory { .. } => "manage_os_memory_ex",
        Call::AdoptOsBlock { .. } => "adopt_os_block",
        Call::ChunkAlloc { .. } => "chunk_alloc",
        Call::ChunkClaim { .. } => "chunk_claim",
        Call::ChunkAllocN { .. } => "chunk_alloc_n",
        Call::ChunkRelease { .. } => "chunk_release",
        Call::PurgeDue { .. } => "purge_due",
        Call::Answer { .. } => "answer to an idle layer",
        Call::Owns { .. } => "owns",
        Call::ArenaArea { .. } => "arena_area",
    }
}

fn kind(ask: &Ask) -> &'static str {
    match ask {
        Ask::Commit { .. } => "commit",
        Ask::Purge { .. } => "purge",
        Ask::Memory { .. } => "memory",
        Ask::GiveBack { .. } => "give back",
    }
}
