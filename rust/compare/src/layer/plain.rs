//! A lent table in plain vectors, as a C program keeps it.

use super::Moment;
use sirqobal::lent::{self, Arena, Call, JoinReply, Reply, State, RECORDS, STAMPS};
use sirqobal::Layer;
use std::fmt;

#[derive(Clone, PartialEq)]
pub struct Table {
    pub records: Vec<Arena>,
    pub stamps: Vec<u32>,
    pub state: State,
}

impl Table {
    /// The empty layer's: zeros.
    pub fn empty() -> Table {
        Table {
            records: vec![Arena::EMPTY; RECORDS],
            stamps: vec![0; STAMPS],
            state: State::EMPTY,
        }
    }

    pub fn of(layer: &Layer) -> Table {
        Table {
            records: layer.records().to_vec(),
            stamps: layer.stamps().to_vec(),
            state: layer.state(),
        }
    }

    /// A layer that owns this table, which has as many records and stamps as a layer.
    pub fn layer(&self) -> Layer {
        let records = self.records.first_chunk().expect("32 records");
        let stamps = self.stamps.first_chunk().expect("32,768 stamps");
        Layer::from_table(records, stamps, self.state)
    }

    /// The arenas that stand, in a table that row 1 lets pass.
    pub fn arenas(&self) -> &[Arena] {
        &self.records[..self.state.count]
    }

    /// The table keeps the state that it had.
    pub fn call(&mut self, moment: Moment, call: Call) -> Reply {
        let (records, stamps) = (&mut self.records, &mut self.stamps);
        let settings = moment.settings();
        lent::call(records, stamps, self.state, moment.ns, settings, call)
    }

    /// Ours joins the second to this one. Both have the states of the reply then.
    pub fn join(&mut self, second: &mut Table, moment: Moment) -> JoinReply {
        let settings = moment.settings();
        let reply = lent::join_tables(self.lend(), second.lend(), moment.ns, settings);
        (self.state, second.state) = (reply.first, reply.second);
        reply
    }

    /// What is lent of it.
    pub fn lend(&mut self) -> lent::Table<'_> {
        lent::Table {
            records: &mut self.records,
            stamps: &mut self.stamps,
            state: self.state,
        }
    }
}

/// What is not 0: the arenas that stand, and how much there is elsewhere.
impl fmt::Debug for Table {
    fn fmt(&self, f: &mut fmt::Formatter<'_>) -> fmt::Result {
        let (records, stamps) = (self.records.len(), self.stamps.len());
        write!(f, "{records} records, {stamps} stamps, {:?}", self.state)?;
        let (standing, past) = self.records.split_at(self.state.count.min(records));
        for (id, arena) in standing.iter().enumerate() {
            write!(f, "\n    {id}: {arena:?}")?;
        }
        let past = past.iter().filter(|arena| **arena != Arena::EMPTY).count();
        let stamps = self.stamps.iter().filter(|stamp| **stamp != 0).count();
        write!(
            f,
            "\n    past them {past} records and in all {stamps} stamps are not 0"
        )
    }
}
