//! Runs random sequences of layer calls through the original and through the proved library, and
//! compares every answer, every question with all its numbers, and all state, after every call and
//! while each question is open. Refusals 1, 2, 3 and 6, which the original does not have, are
//! compared with document 01 by a table of cases first.
//!
//! Delays are of both kinds. The original takes a negative one for 0; document 02 says otherwise of pending releases
//! and unforced sweeps: these are compared, all of the table, with a model written from that paper, and the
//! original goes on beside them by the same release not pending, or no sweep.
//!
//! Up to three layers stand side by side and are joined now and then. The original has no join: each is
//! compared with a model written from document 02, all of both tables, and the joined layer goes on
//! beside an original with the same arenas.
//!
//! Lists of releases come between the calls. The original has none: it is given the single
//! releases, one by one, and each answer, and what a list refused as a whole leaves, is compared
//! with a model written from document 02.

use compare_common::layer::beside::Beside;
use compare_common::layer::counts::Counts;
use compare_common::layer::table::{self, Cases};
use compare_common::layer::{join_cases, list_cases};
use compare_common::rng::Rng;
use compare_common::{args, SEED};
use std::process::ExitCode;

/// From so many sequences on, all that is wanted has to be reached.
const ENOUGH: u64 = 2_000;

fn main() -> ExitCode {
    let [seed, sequences, calls] =
        args::read(["--seed", "--sequences", "--calls"], [SEED, ENOUGH, 500]);
    println!("seed {seed}, {sequences} sequences of {calls} calls");
    let mut counts = Counts::default();
    let mut differences = show("table of refusals 1, 2, 3 and 6", table::run());
    differences += show("table of joins", join_cases::run());
    differences += show("table of lists", list_cases::run());
    for n in 0..sequences {
        // Each sequence has a seed of its own, so that one alone can be run again.
        let mut rng = Rng::new(seed.wrapping_add(n));
        if let Err(difference) = sequence(&mut rng, calls, &mut counts) {
            println!("DIFFERENT with seed {}: {difference}", seed.wrapping_add(n));
            differences += 1;
            if differences >= 5 {
                break;
            }
        }
    }
    counts.print();
    let missing = counts.missing();
    if !missing.is_empty() {
        println!("not reached: {}", missing.join(", "));
    }
    let Counts {
        calls,
        questions,
        joins,
        lists,
        items,
        ..
    } = counts;
    println!(
        "compared: {calls} calls, {questions} questions, {joins} joins, {lists} lists with {items} items, \
         {differences} differences"
    );
    let failed = differences != 0 || (sequences >= ENOUGH && !missing.is_empty());
    ExitCode::from(u8::from(failed))
}

/// Shows what a table of cases found: how many are wrong.
fn show(what: &str, found: Cases) -> usize {
    for wrong in found.wrong.iter().take(10) {
        println!("DIFFERENT {wrong}");
    }
    println!("{what}: {} cases", found.cases);
    found.wrong.len()
}

fn sequence(rng: &mut Rng, calls: u64, counts: &mut Counts) -> Result<(), String> {
    let mut layers = Beside::new(rng);
    for _ in 0..calls {
        layers.turn(rng, counts)?;
    }
    layers.end()
}
