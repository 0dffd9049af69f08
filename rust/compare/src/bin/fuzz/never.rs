//! Calls with a negative delay, on any table.

use crate::fenced::Table;
use crate::Fuzz;
use compare_common::layer::never::{said, speaks_of};
use compare_common::layer::{Moment, QUIET};
use compare_common::{by_number, NUMBERS};
use sirqobal::lent::{Call, Reply, Settings, QUESTION};

/// How often each number was answered to a negative delay.
#[derive(Default)]
pub struct Counts {
    releases: [u64; NUMBERS],
    sweeps: [u64; NUMBERS],
    /// Forced sweeps that asked.
    forced: u64,
}

impl Counts {
    pub fn print(&self) {
        let (releases, sweeps) = (by_number(&self.releases), by_number(&self.sweeps));
        println!("pending releases with a negative delay by number: {releases}");
        println!("unforced sweeps with a negative delay by number: {sweeps}");
        println!(
            "forced sweeps with a negative delay that asked: {}",
            self.forced
        );
    }

    fn note(&mut self, call: Call, number: u32) {
        let counts = match call {
            Call::ChunkRelease { .. } => &mut self.releases,
            _ => &mut self.sweeps,
        };
        if let Some(count) = counts.get_mut(number as usize) {
            *count += 1;
        }
    }
}

impl Fuzz {
    /// What document 02 says of a negative delay, where it says something of this call. Which tables are
    /// refused with 1 is judged of every call.
    pub fn never(&mut self, tables: [&Table; 2], settings: &Settings, call: Call, reply: &Reply) {
        let forced = call == Call::PurgeDue { force: true };
        let asks = forced && settings.delay < 0 && reply.number == QUESTION;
        self.never.forced += u64::from(asks);
        if !speaks_of(settings.delay, &call) {
            return;
        }
        self.never.note(call, reply.number);
        let [before, after] = tables.map(Table::plain);
        if tables[0].is_broken(settings.page) {
            return;
        }
        let moment = Moment {
            delay: settings.delay,
            page: settings.page,
            ..QUIET
        };
        let said = said(&before.layer(), &moment, &call).expect("it speaks of this call");
        if let Err(what) = said.is(reply, &after.records, &after.stamps) {
            self.fault(format!("{what}: {call:?} at {settings:?} on {before:?}"));
        }
    }
}
