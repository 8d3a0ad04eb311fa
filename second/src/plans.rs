//! Table 4: the plans of batches drawn at random, in both modes.

use crate::counts::{Count, Counts};
use crate::mode::Mode;
use crate::numbering::{Numbering, Update};
use crate::pairs::Pairs;
use std::io::{self, Write};

/// How many batches are drawn.
const BATCHES: usize = 2_000;

/// A batch has 1 to this many frames.
const MOST_FRAMES: usize = 16;

/// A frame: a read or an update, each told by what the verdict needs of it.
#[derive(Clone, Copy)]
pub enum Frame<R, U> {
    Read(R),
    Update(U),
}

/// A drawn frame: a read by its pattern's number, or a numbered update.
pub type Drawn = Frame<usize, Update>;

/// The row of numbers that draws come from.
pub struct Draws {
    state: u64,
}

impl Draws {
    /// The row from its start.
    pub fn start() -> Draws {
        Draws { state: 20_261_115 }
    }

    /// The next number below `limit`.
    fn below(&mut self, limit: usize) -> usize {
        self.state = (self.state * 1_103_515_245 + 12_345) % 2_147_483_648;
        (self.state / 65_536) as usize % limit
    }

    /// The next batch: its number of frames, then frame by frame.
    pub fn batch(&mut self, numbering: &Numbering) -> Vec<Drawn> {
        let frames = self.below(MOST_FRAMES) + 1;
        (0..frames).map(|_| self.frame(numbering)).collect()
    }

    /// The next frame: its kind, its pattern, and an insert's tree.
    fn frame(&mut self, numbering: &Numbering) -> Drawn {
        let patterns = numbering.patterns.len();
        let single = numbering.single_steps;
        match self.below(3) {
            0 => Frame::Read(self.below(patterns)),
            1 => {
                let pattern = self.below(patterns);
                let inserted = self.below(numbering.inserted.len());
                Frame::Update(Update::Insert { pattern, inserted })
            }
            _ => {
                let pattern = single + self.below(patterns - single);
                Frame::Update(Update::Delete { pattern })
            }
        }
    }
}

/// Writes table 4, a line a batch: its node plan and its deep plan.
pub fn write(numbering: &Numbering, pairs: &Pairs, out: &mut dyn Write) -> io::Result<Counts> {
    let mut draws = Draws::start();
    let (mut batches, mut frames, mut apart) = (0, 0, 0);
    for _ in 0..BATCHES {
        let batch = draws.batch(numbering);
        batches += 1;
        frames += batch.len();
        let [node, deep] =
            [Mode::Node, Mode::Deep].map(|mode| text(&drawn_plan(&batch, pairs, mode)));
        apart += usize::from(node != deep);
        writeln!(out, "{node} {deep}")?;
    }
    Ok(vec![
        Count::new("random-batches", batches),
        Count::new("random-frames", frames),
        Count::new("plans-apart", apart),
    ])
}

/// The plan of a drawn batch by what table 1 has of each pair.
pub fn drawn_plan(batch: &[Drawn], pairs: &Pairs, mode: Mode) -> Vec<usize> {
    plan(batch, |update, read| {
        mode.keeps(pairs.verdict(update, read))
    })
}

/// A word a frame: an update's number among the updates, a read's slot.
pub fn plan<R: Copy, U: Copy>(batch: &[Frame<R, U>], keeps: impl Fn(U, R) -> bool) -> Vec<usize> {
    let mut earlier: Vec<U> = Vec::new();
    let mut words = Vec::with_capacity(batch.len());
    for &frame in batch {
        match frame {
            Frame::Update(update) => {
                earlier.push(update);
                words.push(earlier.len());
            }
            Frame::Read(read) => words.push(slot(&earlier, |update| keeps(update, read))),
        }
    }
    words
}

/// The number of the last of the earlier updates that keeps the read behind it, or 0.
fn slot<U: Copy>(earlier: &[U], keeps: impl Fn(U) -> bool) -> usize {
    let found = earlier.iter().rposition(|&update| keeps(update));
    found.map_or(0, |place| place + 1)
}

/// Two upper-case hexadecimal digits a word.
fn text(words: &[usize]) -> String {
    words.iter().map(|word| format!("{word:02X}")).collect()
}

#[cfg(test)]
mod tests {
    use super::*;
    use crate::examples::pattern;

    /// The plans of a batch in node mode and in deep mode, by trying trees.
    fn both(batch: impl Fn(&Numbering) -> Vec<Drawn>) -> [String; 2] {
        let numbering = Numbering::up_to(2, 1);
        let pairs = Pairs::tried(&numbering);
        let batch = batch(&numbering);
        [Mode::Node, Mode::Deep].map(|mode| text(&drawn_plan(&batch, &pairs, mode)))
    }

    /// The number of a pattern by its text.
    fn number(numbering: &Numbering, text: &str) -> usize {
        numbering.pattern_number(&pattern(text)).unwrap()
    }

    /// A read.
    fn read(numbering: &Numbering, text: &str) -> Drawn {
        Frame::Read(number(numbering, text))
    }

    /// A delete.
    fn delete(numbering: &Numbering, text: &str) -> Drawn {
        let pattern = number(numbering, text);
        Frame::Update(Update::Delete { pattern })
    }

    /// An insert of a single node with label 1.
    fn insert(numbering: &Numbering, text: &str) -> Drawn {
        let pattern = number(numbering, text);
        Frame::Update(Update::Insert {
            pattern,
            inserted: 0,
        })
    }

    #[test]
    fn where_nodes_conflict_both_modes_agree() {
        let plans = both(|n| {
            vec![
                delete(n, "a/b"),
                insert(n, "b"),
                read(n, "a//b"),
                read(n, "b/*"),
                read(n, "*/b"),
            ]
        });
        assert_eq!(plans, ["0102010201", "0102010201"]);
    }

    #[test]
    fn an_update_below_the_read_counts_in_deep_mode_only() {
        let plans = both(|n| vec![read(n, "a"), delete(n, "a/b"), read(n, "a"), read(n, "b")]);
        assert_eq!(plans, ["00010000", "00010100"]);
    }

    #[test]
    fn an_insert_right_at_the_read_counts_in_deep_mode_only() {
        let plans = both(|n| vec![insert(n, "a/b"), read(n, "a/b"), read(n, "a/a")]);
        assert_eq!(plans, ["010000", "010100"]);
    }

    #[test]
    fn both_slots_may_be_there_and_differ() {
        let plans = both(|n| vec![delete(n, "a/b"), insert(n, "a/*"), read(n, "a/*")]);
        assert_eq!(plans, ["010201", "010202"]);
    }

    #[test]
    fn a_read_gets_the_nearest_earlier_update_that_keeps_it() {
        let delete = |pattern| Frame::Update(Update::Delete { pattern });
        let batch = [
            Frame::Read(5),
            delete(5),
            delete(6),
            delete(5),
            delete(7),
            Frame::Read(5),
            Frame::Read(6),
            Frame::Read(8),
        ];
        let words = plan(&batch, |update, read| update.pattern() == read);
        assert_eq!(words, [0, 1, 2, 3, 4, 3, 2, 0]);
        assert_eq!(text(&words), "0001020304030200");
    }

    #[test]
    fn the_first_draws_follow_the_rule() {
        let mut draws = Draws::start();
        let first = (20_261_115u64 * 1_103_515_245 + 12_345) % 2_147_483_648;
        assert_eq!(draws.below(16) as u64, first / 65_536 % 16);
        let second = (first * 1_103_515_245 + 12_345) % 2_147_483_648;
        assert_eq!(draws.below(129) as u64, second / 65_536 % 129);
    }
}
