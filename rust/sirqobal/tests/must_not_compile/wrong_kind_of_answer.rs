// error[E0308]: mismatched types
// A question for memory is answered as if it were one to commit.
#![forbid(unsafe_code)]

use sirqobal::{Layer, Moment, Outcome, Question, CHUNK};

fn main() {
    let mut layer = Layer::new();
    let asks = layer.reserve_os_memory(Moment::default(), CHUNK, true, false, true);
    if let Outcome::Asks(Question::GetMemory(memory)) = asks {
        let _ = memory.answer(Moment::default(), true);
    }
}
