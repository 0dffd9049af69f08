use super::{granted, Layer, Moment};
use crate::lent::{self, Items, Reply, LIST};
use crate::Refusal;

/// Neighbouring chunks that a list gives back.
#[derive(Clone, Copy, Debug, PartialEq, Eq)]
pub struct Span {
    /// Where the first of them is.
    pub address: u64,
    /// How many there are.
    pub n: u32,
}

/// Lists of releases.
impl Layer {
    /// Releases spans in list order, held or not; `pending` leaves all of them to a later sweep. It
    /// leaves what [`chunk_release`](Layer::chunk_release) of one after the other would leave, at
    /// this moment and with nothing told of commitment, and answers in their order what each would
    /// have answered: [`Refusal::Zero`], [`Refusal::NotInside`], [`Refusal::NotWhole`],
    /// [`Refusal::PastEnd`]. A span that is refused does not stop the list. It never asks.
    ///
    /// The lists that are lent to the library and the answers are allocated, some 20 bytes for each
    /// span. [`call_list`](Layer::call_list) takes lists that the program has and allocates none.
    ///
    /// # Errors
    /// [`Refusal::ListLength`] for more than [`LIST`] spans. A list that is refused as a whole
    /// leaves everything as it was.
    ///
    /// ```
    /// use sirqobal::{Layer, Moment, NotDone, Refusal, Span, CHUNK};
    ///
    /// let now = Moment::default();
    /// let mut layer = Layer::new();
    /// layer.adopt_os_block(now, 1 << 30, 4 * CHUNK)?;
    /// layer.chunk_alloc_n(now, 0, 4).done()?;
    ///
    /// let ring = [
    ///     Span { address: 1 << 30, n: 1 },
    ///     Span { address: 5 << 30, n: 1 }, // in no arena
    ///     Span { address: (1 << 30) + 2 * CHUNK, n: 2 },
    /// ];
    /// let released = layer.chunk_release_list(now, &ring, true)?;
    /// assert_eq!(released, [Ok(()), Err(Refusal::NotInside), Ok(())]);
    /// assert_eq!(layer.records()[0].used[0], 0b0010);
    /// # Ok::<(), NotDone>(())
    /// ```
    pub fn chunk_release_list(
        &mut self,
        moment: Moment,
        spans: &[Span],
        pending: bool,
    ) -> Result<Vec<Result<(), Refusal>>, Refusal> {
        // One more than a list may have is refused as all of them would be.
        let spans = &spans[..spans.len().min(LIST + 1)];
        let addresses: Vec<u64> = spans.iter().map(|span| span.address).collect();
        let counts: Vec<u32> = spans.iter().map(|span| span.n).collect();
        let mut answers = vec![0; spans.len()];
        let items = Items {
            addresses: &addresses,
            counts: &counts,
            answers: &mut answers,
        };
        granted(&self.call_list(moment, items, pending))?;
        Ok(answers.into_iter().map(answered).collect())
    }

    /// Makes a list of releases over lists that the program has, and answers as the C surface does.
    ///
    /// ```
    /// use sirqobal::{lent::Items, Layer, Moment};
    ///
    /// let mut answers = [99; 2];
    /// let items = Items {
    ///     addresses: &[1 << 30, 2 << 30],
    ///     counts: &[1, 0],
    ///     answers: &mut answers,
    /// };
    /// let reply = Layer::new().call_list(Moment::default(), items, false);
    /// assert_eq!((reply.number, answers), (0, [8, 4]));
    /// ```
    pub fn call_list(&mut self, moment: Moment, items: Items<'_>, pending: bool) -> Reply {
        let settings = moment.settings();
        let reply = lent::chunk_release_list(self.lend(), items, moment.ns, settings, pending);
        self.take_back(&reply);
        reply
    }
}

/// What an item's number says.
fn answered(number: u32) -> Result<(), Refusal> {
    Refusal::from_number(number).map_or(Ok(()), Err)
}
