//! The layer that owns its table: what it is and what is read of it; its calls stand by kind.

use crate::lent::{self, Arena, Call, Reply, State, Table, RECORDS, STAMPS};
use crate::{Ask, Open, Outcome, Picture, Question, Refusal};
use std::fmt;

mod claiming;
mod joining;
mod listing;
mod moment;
mod queries;
mod registering;
mod releasing;

pub use claiming::Run;
pub use joining::Rise;
pub use listing::Span;
pub use moment::Moment;
pub use registering::Managed;

use registering::id_of;
use releasing::count_of;

/// Bytes in a chunk.
pub const CHUNK: u64 = 33_554_432;

/// The id that means every arena that is not exclusive.
pub const ANY: i32 = -1;

/// The purge delay that means never, as mimalloc.h has it. Every negative delay means this: a
/// release leaves nothing to a sweep, and a sweep that is not forced asks nothing.
///
/// ```
/// use sirqobal::{Layer, Moment, NotDone, CHUNK, NEVER};
///
/// let now = Moment { delay: NEVER, ..Moment::default() };
/// let mut layer = Layer::new();
/// layer.adopt_os_block(now, 1 << 30, 2 * CHUNK)?;
/// layer.chunk_release(now, 1 << 30, 2, None, true)?;
/// let arena = &layer.records()[0];
/// assert_eq!((arena.pending[0], arena.deadline), (0, 0));
/// assert_eq!(layer.purge_due(now, false).done(), Ok(0));
/// # Ok::<(), NotDone>(())
/// ```
pub const NEVER: i64 = -1;

/// An arena layer that owns its table: at most 32 arenas of 1 to 1,024 chunks of [`CHUNK`] bytes.
/// It keeps the book alone and touches no memory at the addresses in it; `linux::Memory` is a layer
/// over real memory.
///
/// Every call but queries is refused with [`Refusal::Broken`] if the moment's page size is unsound
/// or the table broken, then with [`Refusal::QuestionOpen`] while a question is open; each call's
/// section "Errors" names, in their order, the refusals that come after these.
///
/// ```
/// use sirqobal::{Layer, Moment, NotDone, CHUNK};
///
/// let mut layer = Layer::new();
/// layer.adopt_os_block(Moment::default(), 1 << 30, 4 * CHUNK)?;
/// let run = layer.chunk_alloc_n(Moment::default(), 0, 3).done()?;
/// assert_eq!(run.address, 1 << 30);
/// assert_eq!(layer.to_string(), "arena 0: base 0x40000000 size 128 MiB, 3/4 chunks used\n");
/// # Ok::<(), NotDone>(())
/// ```
#[derive(Clone)]
pub struct Layer {
    records: Box<[Arena; RECORDS]>,
    stamps: Box<[u32; STAMPS]>,
    state: State,
    /// The open question, as it was put or as the table tells it.
    asked: Option<Ask>,
}

impl Layer {
    /// The empty layer.
    ///
    /// ```
    /// assert_eq!(sirqobal::Layer::new().to_string(), "arenas: none\n");
    /// ```
    pub fn new() -> Layer {
        Layer::from_table(&[Arena::EMPTY; RECORDS], &[0; STAMPS], State::EMPTY)
    }

    /// Takes over a table, its open question too: [`open`](Layer::open) gives it, to be answered.
    /// Every table will do; calls on a broken one are refused with [`Refusal::Broken`].
    ///
    /// ```
    /// use sirqobal::{lent::{Arena, State}, Layer, Moment, Refusal};
    ///
    /// let state = State { count: 1, ..State::EMPTY };
    /// let layer = Layer::from_table(&[Arena::EMPTY; 32], &[0; 32_768], state);
    /// assert_eq!(layer.owns(Moment::default(), 0), Err(Refusal::Broken));
    /// ```
    pub fn from_table(records: &[Arena; RECORDS], stamps: &[u32; STAMPS], state: State) -> Layer {
        Layer {
            records: Box::new(*records),
            stamps: Box::new(*stamps),
            state,
            asked: Ask::in_table(records, &state),
        }
    }

    /// Makes any call of numbers on this table alone, and answers as the C surface does.
    ///
    /// ```
    /// use sirqobal::{lent::Call, Layer, Moment};
    ///
    /// let reply = Layer::new().call(Moment::default(), Call::ChunkAllocN { id: 0, n: 0 });
    /// assert_eq!(reply.number, 4);
    /// ```
    pub fn call(&mut self, moment: Moment, call: Call) -> Reply {
        let settings = moment.settings();
        let reply = lent::call(
            &mut self.records[..],
            &mut self.stamps[..],
            self.state,
            moment.ns,
            settings,
            call,
        );
        self.take_back(&reply);
        reply
    }

    fn lend(&mut self) -> Table<'_> {
        Table {
            records: &mut self.records[..],
            stamps: &mut self.stamps[..],
            state: self.state,
        }
    }

    /// The state that a call has left, and the question that is open then.
    fn take_back(&mut self, reply: &Reply) {
        self.state = reply.state;
        self.asked = match self.state.question {
            0 => None,
            _ => Ask::of(reply).or(self.asked),
        };
    }

    fn outcome<T>(&mut self, moment: Moment, call: Call, grant: fn(&Reply) -> T) -> Outcome<'_, T> {
        let reply = self.call(moment, call);
        Outcome::of(self, &reply, grant)
    }

    /// The question that is open: one that was dropped unanswered, or that of a table that was
    /// taken over. None if the table is so broken that it tells no question.
    ///
    /// ```
    /// use sirqobal::{Layer, Moment, NotDone, Open, Question, Refusal, CHUNK};
    ///
    /// let now = Moment::default();
    /// let mut asking = Layer::new();
    /// drop(asking.reserve_os_memory(now, CHUNK, true, false, true));
    /// let refused = asking.purge_due(now, true).done();
    /// assert_eq!(refused, Err(NotDone::Refused(Refusal::QuestionOpen)));
    ///
    /// let mut layer = Layer::from_table(asking.records(), asking.stamps(), asking.state());
    /// let Some(Open::Reserve(Question::GetMemory(memory))) = layer.open() else { panic!() };
    /// let refused = memory.answer(now, None)?.done();
    /// assert_eq!(refused, Err(NotDone::Refused(Refusal::MemoryRefused)));
    /// assert!(layer.open().is_none());
    /// # Ok::<(), NotDone>(())
    /// ```
    pub fn open(&mut self) -> Option<Open<'_>> {
        let ask = self.asked?;
        let claim_waits = self.state.waiting == 1;
        Some(match ask {
            Ask::Purge { .. } => Open::Sweep(Question::new(self, ask, count_of)),
            Ask::Commit { .. } => Open::Claim(Question::new(self, ask, Run::of)),
            _ if claim_waits => Open::Claim(Question::new(self, ask, Run::of)),
            _ => Open::Reserve(Question::new(self, ask, id_of)),
        })
    }

    /// What is asked, if a question is open; as [`open`](Layer::open), but only to look at.
    ///
    /// ```
    /// assert_eq!(sirqobal::Layer::new().asked(), None);
    /// ```
    pub fn asked(&self) -> Option<Ask> {
        self.asked
    }

    /// Whether default reserves are given up: one has failed, and there will be no other for as
    /// long as this table is used, unless it is joined with one where none has failed.
    ///
    /// ```
    /// use sirqobal::{Layer, Moment, NotDone, Outcome, Question, Refusal, ANY, CHUNK};
    ///
    /// let now = Moment { reserve: CHUNK, ..Moment::default() };
    /// let mut layer = Layer::new();
    /// let asks = layer.chunk_alloc(now, ANY);
    /// let Outcome::Asks(Question::GetMemory(memory)) = asks else { panic!() };
    /// let refused = memory.answer(now, None)?.done();
    /// assert_eq!(refused, Err(NotDone::Refused(Refusal::NoRun)));
    /// assert!(layer.has_given_up());
    /// // The next claim asks for nothing.
    /// let refused = layer.chunk_alloc(now, ANY).done();
    /// assert_eq!(refused, Err(NotDone::Refused(Refusal::NoRun)));
    /// # Ok::<(), NotDone>(())
    /// ```
    pub fn has_given_up(&self) -> bool {
        self.state.mark != 0
    }

    /// The 32 records; those from the number of arenas on mean nothing.
    ///
    /// ```
    /// assert!(sirqobal::Layer::new().records().iter().all(|arena| arena.chunks == 0));
    /// ```
    pub fn records(&self) -> &[Arena; RECORDS] {
        &self.records
    }

    /// The 32,768 stamps, 1,024 for each record.
    ///
    /// ```
    /// assert!(sirqobal::Layer::new().stamps().iter().all(|stamp| *stamp == 0));
    /// ```
    pub fn stamps(&self) -> &[u32; STAMPS] {
        &self.stamps
    }

    /// Everything else.
    ///
    /// ```
    /// assert_eq!(sirqobal::Layer::new().state().count, 0);
    /// ```
    pub fn state(&self) -> State {
        self.state
    }

    /// A picture of the arenas, to be told who holds what.
    ///
    /// ```
    /// use sirqobal::{Layer, Moment, NotDone, CHUNK};
    ///
    /// let mut layer = Layer::new();
    /// layer.adopt_os_block(Moment::default(), 1 << 30, 3 * CHUNK)?;
    /// let ring = layer.chunk_alloc_n(Moment::default(), 0, 2).done()?;
    /// let picture = layer.picture().held_by(|chunk| (chunk == ring.address).then_some('G'));
    /// assert_eq!(picture.to_string().lines().nth(1), Some("     0 G#-"));
    /// # Ok::<(), NotDone>(())
    /// ```
    pub fn picture(&self) -> Picture<'_> {
        Picture::new(&self.records[..], self.state.count)
    }
}

impl Default for Layer {
    fn default() -> Layer {
        Layer::new()
    }
}

/// Occupancy, a line for each arena, as the Rust's `arenas_print` has it; [`Layer::picture`] shows
/// more. Of a broken table there are at most 32 lines.
impl fmt::Display for Layer {
    fn fmt(&self, f: &mut fmt::Formatter<'_>) -> fmt::Result {
        if self.state.count == 0 {
            return f.write_str("arenas: none\n");
        }
        for (id, arena) in self.records.iter().take(self.state.count).enumerate() {
            let used: u32 = arena.used.iter().map(|word| word.count_ones()).sum();
            let (base, chunks) = (arena.base, arena.chunks);
            let size = chunks as u128 * 32; // a broken record's too
            let exclusive = match arena.is_exclusive() {
                true => " (exclusive)",
                false => "",
            };
            writeln!(
                f,
                "arena {id}: base {base:#x} size {size} MiB, {used}/{chunks} chunks used{exclusive}"
            )?;
        }
        Ok(())
    }
}

/// How many arenas stand, the give-up mark and the open question.
impl fmt::Debug for Layer {
    fn fmt(&self, f: &mut fmt::Formatter<'_>) -> fmt::Result {
        f.debug_struct("Layer")
            .field("arenas", &self.state.count)
            .field("given_up", &self.has_given_up())
            .field("asked", &self.asked)
            .finish_non_exhaustive()
    }
}

/// The reply of a call that does not ask.
fn granted(reply: &Reply) -> Result<&Reply, Refusal> {
    Refusal::from_number(reply.number).map_or(Ok(reply), Err)
}
