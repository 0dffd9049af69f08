use super::{Layer, Moment};
use crate::lent;
use crate::Refusal;
use std::ops::Range;

/// What became of the second layer's arenas in a join: their ids have risen. It is no number, so
/// that it is not taken for an id nor added to one: [`ANY`](crate::ANY) plus a rise would name an
/// arena of the first.
///
/// ```
/// use sirqobal::{Layer, Moment, ANY, CHUNK};
///
/// let now = Moment::default();
/// let (mut first, mut second) = (Layer::new(), Layer::new());
/// first.adopt_os_block(now, 1 << 30, CHUNK)?;
/// let id = second.adopt_os_block(now, 2 << 30, CHUNK)?;
/// let rise = first.join_tables(now, &mut second)?;
/// let id = rise.id(id).unwrap();
/// assert_eq!(first.arena_area(now, id)?, (2 << 30, CHUNK));
/// assert_eq!(rise.id(ANY), Some(ANY));
/// assert_eq!(rise.id(id), None); // it has risen already
/// # Ok::<(), sirqobal::Refusal>(())
/// ```
#[must_use = "the second's arenas have new ids, which this tells"]
#[derive(Clone, Copy, Debug, PartialEq, Eq)]
pub struct Rise {
    /// The first's arenas before the join.
    by: usize,
    /// The second's.
    arenas: usize,
}

impl Rise {
    /// The id in the first layer of the arena that had this id in the second; none if the second
    /// had no such arena. A negative id, which names no arena, goes on meaning what it means.
    pub fn id(self, id: i32) -> Option<i32> {
        match usize::try_from(id) {
            Err(_) => Some(id),
            Ok(old) if old < self.arenas => Some(self.ids().start + id),
            Ok(_) => None,
        }
    }

    /// The ids of the second's arenas from now on, in their order.
    ///
    /// ```
    /// use sirqobal::{Layer, Moment, CHUNK};
    ///
    /// let now = Moment::default();
    /// let (mut first, mut second) = (Layer::new(), Layer::new());
    /// first.adopt_os_block(now, 1 << 30, CHUNK)?;
    /// second.adopt_os_block(now, 2 << 30, CHUNK)?;
    /// second.adopt_os_block(now, 3 << 30, CHUNK)?;
    /// assert_eq!(first.join_tables(now, &mut second)?.ids(), 1..3);
    /// # Ok::<(), sirqobal::Refusal>(())
    /// ```
    pub fn ids(self) -> Range<i32> {
        self.by as i32..(self.by + self.arenas) as i32
    }
}

/// Joining.
impl Layer {
    /// Joins another layer's table to this one, while both are in use. The second's arenas become
    /// this layer's, with new ids, which the [`Rise`] tells; what is held and what is to be purged
    /// goes along, and this layer's own arenas keep their ids. Default reserves are given up only
    /// if they were in both. The second is the empty layer from then on, to be used anew.
    ///
    /// # Errors
    /// [`Refusal::Broken`] for either side, then [`Refusal::QuestionOpen`] for either side;
    /// [`Refusal::TablesOverlap`] if an arena of one and an arena of the other share an address;
    /// [`Refusal::TooManyArenas`] if more than 32 would result. Each leaves both layers as they
    /// were.
    ///
    /// ```
    /// use sirqobal::{Layer, Moment, NotDone, Refusal, CHUNK};
    ///
    /// let now = Moment::default();
    /// let (mut first, mut second) = (Layer::new(), Layer::new());
    /// first.adopt_os_block(now, 1 << 30, 4 * CHUNK)?;
    /// let id = second.adopt_os_block(now, 2 << 30, 4 * CHUNK)?;
    /// let ring = second.chunk_alloc_n(now, id, 2).done()?;
    ///
    /// let rise = first.join_tables(now, &mut second)?;
    /// let id = rise.id(id).unwrap();
    /// assert_eq!(id, 1);
    /// assert_eq!(first.chunk_alloc(now, id).done()?.address, ring.address + 2 * CHUNK);
    /// first.chunk_release(now, ring.address, 2, None, true)?;
    ///
    /// assert_eq!(second.to_string(), "arenas: none\n");
    /// second.adopt_os_block(now, 1 << 30, CHUNK)?;
    /// let overlap = first.join_tables(now, &mut second);
    /// assert_eq!(overlap, Err(Refusal::TablesOverlap));
    /// # Ok::<(), NotDone>(())
    /// ```
    pub fn join_tables(&mut self, moment: Moment, second: &mut Layer) -> Result<Rise, Refusal> {
        let arenas = second.state.count;
        let settings = moment.settings();
        let reply = lent::join_tables(self.lend(), second.lend(), moment.ns, settings);
        // No question is open where it was granted, and a refusal leaves what is.
        self.state = reply.first;
        second.state = reply.second;
        match Refusal::from_number(reply.number) {
            Some(refusal) => Err(refusal),
            None => Ok(Rise {
                by: reply.rise,
                arenas,
            }),
        }
    }
}
