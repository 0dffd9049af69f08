//! The arena layer of both sides, call by call.

pub mod beside;
pub mod counts;
pub mod document;
pub mod draw;
pub mod edges;
pub mod join_cases;
pub mod join_states;
pub mod joined;
pub mod list_cases;
pub mod list_draw;
pub mod list_states;
pub mod lists;
pub mod never;
pub mod never_states;
pub mod pair;
pub mod plain;
pub mod reference;
pub mod smallest;
pub mod table;

pub use sirqobal::{Moment, CHUNK};

use lists::List;
use plain::Table;
use sirqobal::lent::Call;

/// The bits of a map's word that are chunks of an arena with so many.
pub fn inside(chunks: usize, word: usize) -> u32 {
    match chunks.saturating_sub(32 * word) {
        n @ 0..32 => (1 << n) - 1,
        _ => u32::MAX,
    }
}

/// The page sizes that row 1 lets pass.
pub const PAGES: [u64; 5] = [4_096, 8_192, 16_384, 32_768, 65_536];

/// What was made on both sides.
#[derive(Clone, Debug)]
pub enum Made {
    Step(Step),
    List(Moment, List),
}

/// One call with all that the host says.
#[derive(Clone, Debug)]
pub struct Step {
    pub moment: Moment,
    pub call: Call,
    pub given: Vec<Given>,
}

/// The answer to one question.
#[derive(Clone, Debug)]
pub struct Given {
    /// Made on ours alone while the question is open.
    pub before: Vec<Meanwhile>,
    /// What the answer carries, which decides nothing.
    pub moment: Moment,
    /// None is no; yes carries the base, if memory was asked for.
    pub answer: Option<u64>,
}

/// What is tried while a question is open: all is refused, or only looks.
#[derive(Clone, Debug)]
pub enum Meanwhile {
    Call(Moment, Call),
    Join(Moment, Box<Other>),
    List(Moment, List),
}

/// The other table of a join with a layer that asks.
#[derive(Clone, Debug)]
pub struct Other {
    pub table: Table,
    /// It is the first, and the layer that asks the second.
    pub is_first: bool,
}

impl Given {
    pub const NO: Given = Given {
        before: Vec::new(),
        moment: QUIET,
        answer: None,
    };
}

/// Sound settings with nothing in them.
pub const QUIET: Moment = Moment {
    ns: 0,
    delay: 0,
    decommits: false,
    off: false,
    reserve: 0,
    page: 4_096,
};
