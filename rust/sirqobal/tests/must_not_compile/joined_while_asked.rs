// error[E0499]: `second`
// A layer is joined while its question is in hand; the answer would then come to another's table.
#![forbid(unsafe_code)]

use sirqobal::{Layer, Moment, Outcome, Question, CHUNK};

fn main() {
    let now = Moment::default();
    let (mut first, mut second) = (Layer::new(), Layer::new());
    let asks = second.reserve_os_memory(now, CHUNK, true, false, true);
    if let Outcome::Asks(Question::GetMemory(memory)) = asks {
        println!("{:?}", first.join_tables(now, &mut second));
        let _ = memory.answer(now, Some(1 << 30));
    }
}
