use crate::lent::{Arena, RECORDS};
use crate::CHUNK;
use std::fmt;

/// Chunks that an arena has at most; a broken record may say more.
const MOST_CHUNKS: usize = 1_024;

/// Cells in a row.
const ROW: usize = 64;

const LEGEND: &str = "  A..Z held, a..z held and not committed, # + the same by others, \
                      ~ to be purged, - free and committed, . free";

/// A picture of a table's arenas: a line for each, then rows of 64 cells, one for a chunk. Printed
/// by `Display`; C prints the same, byte for byte.
///
/// A broken table is drawn as far as it goes: at most 32 arenas, at most 1,024 chunks of each.
///
/// ```
/// use sirqobal::{lent::Arena, Picture};
///
/// let mut arena = Arena { base: 1 << 30, chunks: 70, owned: 1, ..Arena::EMPTY };
/// arena.used[0] = 0b0011;
/// arena.committed[0] = 0b1101;
/// arena.pending[0] = 0b1000;
/// let records = [arena];
/// let picture = Picture::new(&records, 1).held_by(|_| Some('G'));
/// assert_eq!(
///     picture.to_string(),
///     "arena 0: base 0x0000000040000000, 70 chunks, 68 free, owned, shared\n     0 \
///      Gg-~............................................................\n    64 \
///      ......\n  A..Z held, a..z held and not committed, # + the same by others, \
///      ~ to be purged, - free and committed, . free\n",
/// );
/// ```
pub struct Picture<'a> {
    arenas: &'a [Arena],
    holder: Box<dyn Fn(u64) -> Option<char> + 'a>,
}

impl<'a> Picture<'a> {
    /// A picture of the first `count` records, or of as many as there are.
    pub fn new(records: &'a [Arena], count: usize) -> Picture<'a> {
        let shown = count.min(records.len()).min(RECORDS);
        Picture {
            arenas: &records[..shown],
            holder: Box::new(|_| None),
        }
    }

    /// Tells who holds the chunk at an address: a letter from A to Z. Another character, or none,
    /// is somebody that is not known.
    pub fn held_by(self, holder: impl Fn(u64) -> Option<char> + 'a) -> Picture<'a> {
        Picture {
            holder: Box::new(holder),
            ..self
        }
    }

    /// The cell of a chunk.
    fn cell(&self, arena: &Arena, chunk: usize) -> char {
        let is = |map: &[u32; 32]| map[chunk / 32] >> (chunk % 32) & 1 == 1;
        let committed = is(&arena.committed);
        if is(&arena.used) {
            let address = arena.base.wrapping_add(chunk as u64 * CHUNK);
            let known = (self.holder)(address).filter(char::is_ascii_uppercase);
            return match (known, committed) {
                (Some(letter), true) => letter,
                (Some(letter), false) => letter.to_ascii_lowercase(),
                (None, true) => '#',
                (None, false) => '+',
            };
        }
        match (is(&arena.pending), committed) {
            (true, _) => '~',
            (false, true) => '-',
            (false, false) => '.',
        }
    }
}

impl fmt::Display for Picture<'_> {
    fn fmt(&self, f: &mut fmt::Formatter<'_>) -> fmt::Result {
        if self.arenas.is_empty() {
            return f.write_str("arenas: none\n");
        }
        for (id, arena) in self.arenas.iter().enumerate() {
            let drawn = arena.chunks.min(MOST_CHUNKS);
            let free = |chunk: &usize| arena.used[chunk / 32] >> (chunk % 32) & 1 == 0;
            writeln!(
                f,
                "arena {id}: base 0x{:016x}, {} chunks, {} free, {}, {}",
                arena.base,
                arena.chunks,
                (0..drawn).filter(free).count(),
                if arena.is_owned() { "owned" } else { "managed" },
                if arena.is_exclusive() {
                    "exclusive"
                } else {
                    "shared"
                },
            )?;
            for first in (0..drawn).step_by(ROW) {
                let row = first..drawn.min(first + ROW);
                let cells: String = row.map(|chunk| self.cell(arena, chunk)).collect();
                writeln!(f, "{first:>6} {cells}")?;
            }
        }
        writeln!(f, "{LEGEND}")
    }
}

/// How many arenas it shows.
impl fmt::Debug for Picture<'_> {
    fn fmt(&self, f: &mut fmt::Formatter<'_>) -> fmt::Result {
        f.debug_struct("Picture")
            .field("arenas", &self.arenas.len())
            .finish_non_exhaustive()
    }
}

#[cfg(test)]
mod tests {
    use super::*;
    use crate::lent::{State, STAMPS};
    use crate::{Layer, Moment, Open, Question, Refusal};

    #[test]
    fn every_cell_has_its_sign() {
        let mut arena = Arena {
            base: CHUNK,
            chunks: 8,
            exclusive: 1,
            ..Arena::EMPTY
        };
        arena.used[0] = 0b0000_1111;
        arena.committed[0] = 0b0101_0101;
        arena.pending[0] = 0b1100_0011;
        let known = |address: u64| match address / CHUNK {
            1 | 2 => Some('R'),
            3 => Some('r'),
            _ => None,
        };
        let text = Picture::new(&[arena], 1).held_by(known).to_string();
        let lines: Vec<&str> = text.lines().collect();
        assert_eq!(
            lines[0],
            "arena 0: base 0x0000000002000000, 8 chunks, 4 free, managed, exclusive"
        );
        assert_eq!(lines[1], "     0 Rr#+-.~~");
        assert_eq!(lines[2..], [LEGEND]);
    }

    #[test]
    fn an_arena_of_1024_chunks_is_16_rows() {
        let arena = Arena {
            chunks: 1_024,
            ..Arena::EMPTY
        };
        let text = Picture::new(&[arena], 1).to_string();
        let rows: Vec<&str> = text.lines().skip(1).take(16).collect();
        assert!(rows.iter().all(|row| row.len() == 7 + 64));
        assert!(rows[15].starts_with("   960 ...."));
        assert_eq!(text.lines().count(), 18);
    }

    #[test]
    fn broken_tables_are_drawn_as_far_as_they_go() {
        let broken = Arena {
            base: u64::MAX,
            chunks: usize::MAX,
            used: [u32::MAX; 32],
            ..Arena::EMPTY
        };
        let state = State {
            count: usize::MAX,
            mark: 7,
            question: 9,
            id: usize::MAX,
            start: usize::MAX,
            n: usize::MAX,
            ..State::EMPTY
        };
        for question in 0..6 {
            let state = State { question, ..state };
            let mut layer = Layer::from_table(&[broken; RECORDS], &[0; STAMPS], state);
            assert_eq!(layer.to_string().lines().count(), 32);
            assert_eq!(layer.picture().to_string().lines().count(), 32 * 17 + 1);
            assert!(format!("{layer:?} {:?}", layer.picture()).contains("arenas"));
            // A question that such a table tells is answered with 1.
            if let Some(Open::Reserve(Question::GiveBack(question))) = layer.open() {
                let kept = question.answer(Moment::default()).unwrap_err();
                assert_eq!(kept.refusal, Refusal::Broken);
            }
        }
        assert_eq!(Picture::new(&[broken], 5).to_string().lines().count(), 18);
        assert_eq!(Picture::new(&[], 5).to_string(), "arenas: none\n");
    }
}
