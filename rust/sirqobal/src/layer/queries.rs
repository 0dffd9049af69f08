use super::{granted, Layer, Moment};
use crate::lent;
use crate::Refusal;

/// Queries: they change nothing, and are answered while a question is open, too.
impl Layer {
    /// Whether an address lies in an arena.
    ///
    /// # Errors
    /// [`Refusal::Broken`] alone: a query is answered while a question is open, too.
    ///
    /// ```
    /// use sirqobal::{Layer, Moment, CHUNK};
    ///
    /// let now = Moment::default();
    /// let mut layer = Layer::new();
    /// layer.adopt_os_block(now, 1 << 30, CHUNK)?;
    /// assert!(layer.owns(now, (1 << 30) + 5)?);
    /// assert!(!layer.owns(now, (1 << 30) + CHUNK)?);
    /// # Ok::<(), sirqobal::Refusal>(())
    /// ```
    pub fn owns(&self, moment: Moment, address: u64) -> Result<bool, Refusal> {
        let (records, stamps, settings) = (&self.records[..], &self.stamps[..], moment.settings());
        let reply = lent::owns(records, stamps, self.state, moment.ns, settings, address);
        granted(&reply).map(|reply| reply.owns)
    }

    /// The base and the bytes of an arena; 0 and 0 if there is none with this id.
    ///
    /// # Errors
    /// [`Refusal::Broken`] alone.
    ///
    /// ```
    /// use sirqobal::{Layer, Moment};
    ///
    /// assert_eq!(Layer::new().arena_area(Moment::default(), 3), Ok((0, 0)));
    /// ```
    pub fn arena_area(&self, moment: Moment, id: i32) -> Result<(u64, u64), Refusal> {
        let (records, stamps, settings) = (&self.records[..], &self.stamps[..], moment.settings());
        let reply = lent::arena_area(records, stamps, self.state, moment.ns, settings, id);
        granted(&reply).map(|reply| (reply.address, reply.bytes))
    }
}
