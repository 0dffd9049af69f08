use crate::lent;

/// The clock and the settings that a call carries.
#[derive(Clone, Copy, Debug, PartialEq, Eq)]
pub struct Moment {
    /// The clock, in nanoseconds.
    pub ns: u64,
    /// The purge delay in milliseconds; above 1,073,741,823 it counts as that. Negative: never
    /// ([`NEVER`](crate::NEVER)). Only a release and a sweep read it.
    pub delay: i64,
    /// A purge decommits.
    pub decommits: bool,
    /// Arenas serve only claims that name them.
    pub off: bool,
    /// The default reserve: what a claim of [`ANY`](crate::ANY) that finds nothing reserves, in
    /// bytes; nothing below [`CHUNK`](crate::CHUNK). The first such reserve that fails, because
    /// the host says no or because no more arenas fit, is the last: the layer gives up
    /// ([`Layer::has_given_up`](crate::Layer::has_given_up)), and no setting brings it back.
    pub reserve: u64,
    /// The page size: 4,096 .. 65,536, a power of two.
    pub page: u64,
}

impl Default for Moment {
    /// Clock 0; purges after 10 ms, which decommit; no default reserve; pages of 4,096 bytes.
    fn default() -> Moment {
        Moment {
            ns: 0,
            delay: 10,
            decommits: true,
            off: false,
            reserve: 0,
            page: 4_096,
        }
    }
}

impl Moment {
    /// What it carries beside the clock, for a lent table.
    ///
    /// ```
    /// assert_eq!(sirqobal::Moment::default().settings().page, 4_096);
    /// ```
    pub fn settings(self) -> lent::Settings {
        lent::Settings {
            delay: self.delay,
            decommits: self.decommits.into(),
            off: self.off.into(),
            reserve: self.reserve,
            page: self.page,
        }
    }
}
