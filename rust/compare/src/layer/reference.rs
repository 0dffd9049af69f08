//! The layer's calls in plain C (c/reference.c): a yardstick for the benchmark, over lent tables as
//! ours are. Its answers are held against ours by the tests here.

use super::plain::Table;
use super::Moment;
use sirqobal::lent::{self, Arena, Call, Items, JoinReply, Reply, Settings, State};

/// Declares calls of the reference, all of which begin with what is lent and carried.
macro_rules! calls {
    ($($name:ident($($number:ident: $type:ty),*);)*) => {
        extern "C" {
            $(fn $name(
                records: *mut Arena,
                record_count: usize,
                stamps: *mut u32,
                stamp_count: usize,
                state: State,
                ns: u64,
                settings: Settings,
                $($number: $type),*
            ) -> Reply;)*
        }
    };
}

calls! {
    reference_owns(address: u64);
    reference_arena_area(id: i32);
    reference_chunk_alloc(id: i32);
    reference_chunk_claim(id: i32);
    reference_chunk_alloc_n(id: i32, n: usize);
    reference_chunk_release(address: u64, n: usize, told: i32, pending: bool);
    reference_purge_due(force: bool);
    reference_answer(kind: u32, yes: bool, base: u64);
}

extern "C" {
    fn reference_join_tables(
        records: *mut Arena,
        record_count: usize,
        stamps: *mut u32,
        stamp_count: usize,
        second_records: *mut Arena,
        second_record_count: usize,
        second_stamps: *mut u32,
        second_stamp_count: usize,
        state: State,
        second: State,
        ns: u64,
        settings: Settings,
    ) -> JoinReply;
    fn reference_chunk_release_list(
        records: *mut Arena,
        record_count: usize,
        stamps: *mut u32,
        stamp_count: usize,
        addresses: *const u64,
        address_count: usize,
        counts: *const u32,
        count_count: usize,
        answers: *mut u32,
        answer_count: usize,
        state: State,
        ns: u64,
        settings: Settings,
        pending: bool,
    ) -> Reply;
}

/// Makes a list of releases, as `lists::by_ours` does by ours.
pub fn list(table: lent::Table<'_>, items: Items<'_>, moment: Moment, pending: bool) -> Reply {
    // SAFETY: pointers and lengths are those of five slices, lent for the call; with other lengths
    // than a table's, or lists of several lengths, the reference looks at nothing of them.
    unsafe {
        reference_chunk_release_list(
            table.records.as_mut_ptr(),
            table.records.len(),
            table.stamps.as_mut_ptr(),
            table.stamps.len(),
            items.addresses.as_ptr(),
            items.addresses.len(),
            items.counts.as_ptr(),
            items.counts.len(),
            items.answers.as_mut_ptr(),
            items.answers.len(),
            table.state,
            moment.ns,
            moment.settings(),
            pending,
        )
    }
}

/// Joins two tables, as `Table::join` does by ours.
pub fn join(first: &mut Table, second: &mut Table, moment: Moment) -> JoinReply {
    // SAFETY: pointers and lengths are those of four vectors, lent for the call; with other lengths
    // than a table's the reference looks at nothing of them.
    let reply = unsafe {
        reference_join_tables(
            first.records.as_mut_ptr(),
            first.records.len(),
            first.stamps.as_mut_ptr(),
            first.stamps.len(),
            second.records.as_mut_ptr(),
            second.records.len(),
            second.stamps.as_mut_ptr(),
            second.stamps.len(),
            first.state,
            second.state,
            moment.ns,
            moment.settings(),
        )
    };
    (first.state, second.state) = (reply.first, reply.second);
    reply
}

/// Whether the reference has this call. It registers nothing, and answers no question about memory.
pub fn has(call: &Call, state: &State) -> bool {
    match call {
        Call::ReserveOsMemory { .. } | Call::ManageOsMemory { .. } | Call::AdoptOsBlock { .. } => {
            false
        }
        Call::Answer { kind, .. } => !(matches!(kind, 3 | 4) && state.question == *kind),
        _ => true,
    }
}

/// Makes one call on a lent table, as `sirqobal::lent::call` does on ours.
pub fn call(
    records: &mut [Arena],
    stamps: &mut [u32],
    state: State,
    ns: u64,
    settings: Settings,
    call: Call,
) -> Reply {
    macro_rules! make {
        ($name:ident($($number:expr),*)) => {
            // SAFETY: pointers and lengths are those of two slices, lent for the call; with other
            // lengths than a table's the reference looks at nothing of them.
            unsafe {
                $name(
                    records.as_mut_ptr(),
                    records.len(),
                    stamps.as_mut_ptr(),
                    stamps.len(),
                    state,
                    ns,
                    settings,
                    $($number),*
                )
            }
        };
    }
    match call {
        Call::Owns { address } => make!(reference_owns(address)),
        Call::ArenaArea { id } => make!(reference_arena_area(id)),
        Call::ChunkAlloc { id } => make!(reference_chunk_alloc(id)),
        Call::ChunkClaim { id } => make!(reference_chunk_claim(id)),
        Call::ChunkAllocN { id, n } => make!(reference_chunk_alloc_n(id, n)),
        Call::ChunkRelease {
            address,
            n,
            told,
            pending,
        } => make!(reference_chunk_release(address, n, told, pending)),
        Call::PurgeDue { force } => make!(reference_purge_due(force)),
        Call::Answer { kind, yes, base } => make!(reference_answer(kind, yes, base)),
        Call::ReserveOsMemory { .. } | Call::ManageOsMemory { .. } | Call::AdoptOsBlock { .. } => {
            unreachable!("the reference registers nothing")
        }
    }
}

#[cfg(test)]
mod tests {
    use super::*;
    use crate::layer::draw::Player;
    use crate::layer::lists;
    use crate::layer::never::speaks_of;
    use crate::layer::{edges, inside, CHUNK};
    use crate::rng::Rng;
    use crate::SEED;
    use sirqobal::lent::RECORDS;
    use sirqobal::Layer;
    use std::collections::BTreeSet;

    /// Makes the call on both, each on a table of its own: the number that both answer.
    fn same(lent: &Table, moment: Moment, made: Call) -> u32 {
        let [c, ours] = [call, lent::call].map(|side| {
            let mut table = lent.clone();
            let (records, stamps) = (&mut table.records, &mut table.stamps);
            let settings = moment.settings();
            let reply = side(records, stamps, lent.state, moment.ns, settings, made);
            (reply, table)
        });
        assert_eq!(c.0, ours.0, "{made:?} on {:?}", lent.state);
        assert!(c.1 == ours.1, "{made:?} on {:?}: tables", lent.state);
        c.0.number
    }

    impl Table {
        /// One thing in it is changed, so that row 1 mostly turns it down.
        fn damage(&mut self, rng: &mut Rng) {
            let arena = rng.below(self.state.count.clamp(1, RECORDS) as u64) as usize;
            let other = self.records[rng.below(RECORDS as u64) as usize].base;
            let (record, state) = (&mut self.records[arena], &mut self.state);
            let (number, small) = (rng.number(), rng.below(40));
            let bit = 1 << rng.below(32);
            let word = rng.below(32) as usize;
            match rng.below(27) {
                0 => record.base = rng.pick(&[0, other, other.wrapping_add(CHUNK), number]),
                1 => record.base = record.base.wrapping_add(rng.pick(&[1, CHUNK / 2, CHUNK])),
                2 => record.base = u64::MAX - (record.chunks as u64 + small) * CHUNK + 1,
                3 => record.chunks = rng.pick(&[0, 1_024, 1_025, number]) as usize,
                4 => record.used[word] ^= bit,
                5 => record.dirty[word] ^= bit,
                6 => record.committed[word] ^= bit,
                7 => record.pending[word] ^= bit,
                8 => self.records.truncate(31),
                9 => self.stamps.push(0),
                10 => state.count = rng.pick(&[small, 33, number]) as usize,
                11 => state.mark = small as u32,
                12 => state.question = small as u32 / 4,
                13 => state.id = rng.pick(&[small, number]) as usize,
                14 => state.start = rng.pick(&[small, number]) as usize,
                15 => state.n = rng.pick(&[small, number]) as usize,
                16 => state.chunks = small,
                17 => state.bytes = small,
                18 => state.commit = small as u32 / 10,
                19 => state.exclusive = small as u32 / 10,
                20 => state.waiting = small as u32 / 10,
                21 => state.commits = small as u32 / 10,
                22 => state.cause = small as u32 / 2,
                23 => state.force = small as u32 / 10,
                24 => state.decommit = small as u32 / 10,
                25 => (state.now, state.delay) = (small as u32, number as u32),
                _ => state.purged = rng.pick(&[small, number]) as usize,
            }
        }
    }

    /// The empty table, one with anything in it, or such a one whose arenas are all used.
    fn start(rng: &mut Rng, player: &Player) -> Layer {
        let any = player.any_table(rng);
        match rng.below(4) {
            0 => Layer::new(),
            1 => {
                let mut records: [Arena; RECORDS] = *any.records();
                for arena in records.iter_mut().take(any.state().count) {
                    arena.used = std::array::from_fn(|word| inside(arena.chunks, word));
                }
                Layer::from_table(&records, any.stamps(), any.state())
            }
            _ => any,
        }
    }

    /// Mostly the answer to the question that is open, or else any call.
    fn next(rng: &mut Rng, player: &mut Player, layer: &Layer) -> (Moment, Call) {
        let (moment, drawn) = player.call(rng, layer);
        let kind = layer.state().question;
        let answer = Call::Answer {
            kind,
            yes: rng.percent(75),
            base: CHUNK * rng.between(1, 1 << 30),
        };
        match kind {
            1.. if rng.percent(80) => (moment, answer),
            _ => (moment, drawn),
        }
    }

    // What is timed has to do the work: the same replies and tables as ours, which is proved.
    #[test]
    fn answers_as_ours_do() {
        let mut rng = Rng::new(SEED);
        let mut numbers = BTreeSet::new();
        let (mut made, mut never) = (0, 0);
        for _ in 0..200 {
            let mut player = Player::new(&mut rng);
            let mut layer = start(&mut rng, &player);
            for _ in 0..50 {
                let (moment, call) = next(&mut rng, &mut player, &layer);
                if has(&call, &layer.state()) {
                    let table = Table::of(&layer);
                    numbers.insert(same(&table, moment, call));
                    let mut damaged = table;
                    damaged.damage(&mut rng);
                    if has(&call, &damaged.state) {
                        numbers.insert(same(&damaged, moment, call));
                    }
                    made += 1;
                    never += usize::from(speaks_of(moment.delay, &call));
                }
                layer.call(moment, call);
            }
        }
        assert!(made > 5_000, "{made} calls");
        assert!(never > 100, "{never} of negative delays");
        let all = [0, 1, 2, 3, 4, 5, 7, 8, 9, 10, 11, lent::QUESTION];
        assert_eq!(numbers, BTreeSet::from(all));
    }

    #[test]
    fn joins_as_ours_does() {
        let mut rng = Rng::new(SEED);
        let mut numbers = BTreeSet::new();
        for _ in 0..300 {
            let player = Player::new(&mut rng);
            let mut moment = player.any_moment(&mut rng);
            let mut both = [(); 2].map(|()| Table::of(&start(&mut rng, &player)));
            edges::change(&mut rng, &mut both, &mut moment);
            let [c, ours] = [join, Table::join].map(|side| {
                let [mut first, mut second] = both.clone();
                (side(&mut first, &mut second, moment), first, second)
            });
            assert_eq!(c.0, ours.0);
            assert!(c == ours, "the tables differ after {:?}", c.0);
            numbers.insert(c.0.number);
        }
        assert_eq!(numbers, BTreeSet::from([0, 1, 2, 17, 18]));
    }

    #[test]
    fn lists_as_ours_does() {
        let mut rng = Rng::new(SEED);
        let mut numbers = BTreeSet::new();
        for _ in 0..1_000 {
            let mut player = Player::new(&mut rng);
            let mut moment = player.next_moment(&mut rng);
            let layer = start(&mut rng, &player);
            let list = player.list(&mut rng, &layer);
            let mut lent = Table::of(&layer);
            match rng.below(10) {
                0 => lent.damage(&mut rng),
                1 => edges::ask(&mut rng, &mut lent),
                2 => moment.delay = -1,
                _ => {}
            }
            let [c, ours] = [super::list, lists::by_ours].map(|side| {
                let mut table = lent.clone();
                let made = lists::make(side, &mut table, moment, &list);
                (made.expect("nothing beside it"), table)
            });
            assert_eq!(c.0, ours.0);
            assert!(c.1 == ours.1, "the tables differ after {list:?}");
            numbers.insert(c.0 .0.number);
            numbers.extend(c.0 .1);
        }
        let all = [0, 1, 2, 4, 7, 8, 9, 19, lists::UNWRITTEN];
        assert_eq!(numbers, BTreeSet::from(all));
    }
}
