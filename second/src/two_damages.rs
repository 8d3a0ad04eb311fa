//! Table 3, two words at once: which of two faults a batch is refused for.

use crate::batch::frames;
use crate::digest::Digest;
use crate::word_damages::{damages, harmed, Damage};
use std::io::{self, Write};

/// Writes a line for every two words of a batch; gives the number of batches tried.
pub fn write(out: &mut dyn Write, batch: usize, words: &[u16]) -> io::Result<usize> {
    let mut tried = 0;
    for first in 0..words.len() {
        for second in first + 1..words.len() {
            let mut digest = Digest::default();
            for (one, other) in pairs() {
                tried += 1;
                take_answer(&mut digest, &damaged(words, (first, one), (second, other)));
            }
            writeln!(out, "{batch} {first} {second} {}", digest.text())?;
        }
    }
    Ok(tried)
}

/// Every two damages; that of the later word changes fastest.
fn pairs() -> impl Iterator<Item = (Damage, Damage)> {
    damages().flat_map(|one| damages().map(move |other| (one, other)))
}

/// The words with two of them damaged.
fn damaged(words: &[u16], first: (usize, Damage), second: (usize, Damage)) -> Vec<u16> {
    harmed(&harmed(words, second), first)
}

/// Takes the number of frames, or the refusal.
fn take_answer(digest: &mut Digest, batch: &[u16]) {
    match frames(batch) {
        Ok(frames) => digest.take(frames),
        Err(refusal) => digest.take_refusal(refusal),
    }
}

#[cfg(test)]
mod tests {
    use super::*;
    use Damage::{Lost, Replaced, Twice};

    /// An insert of three nodes, then a read.
    const WORDS: [u16; 15] = [2, 1, 0, 0, 3, 0, 1, 0, 2, 1, 3, 1, 1, 0, 1];

    #[test]
    fn two_words_are_damaged_in_place() {
        let of = |one, other| damaged(&[4, 5, 6, 7], (1, one), (2, other));
        assert_eq!(of(Replaced(0), Replaced(9)), [4, 0, 9, 7]);
        assert_eq!(of(Lost, Replaced(9)), [4, 9, 7]);
        assert_eq!(of(Replaced(9), Twice), [4, 9, 6, 6, 7]);
        assert_eq!(of(Lost, Lost), [4, 7]);
        assert_eq!(of(Twice, Twice), [4, 5, 5, 6, 6, 7]);
        assert_eq!(of(Twice, Lost), [4, 5, 5, 7]);
    }

    #[test]
    fn every_two_words_have_a_line() {
        let mut out = Vec::new();
        let tried = write(&mut out, 3, &[1, 1, 0, 1]).unwrap();
        assert_eq!(tried, 6 * 23 * 23);
        let text = String::from_utf8(out).unwrap();
        let places: Vec<&str> = text.lines().map(|line| &line[..6]).collect();
        assert_eq!(
            places,
            ["3 0 1 ", "3 0 2 ", "3 0 3 ", "3 1 2 ", "3 1 3 ", "3 2 3 "]
        );
    }

    #[test]
    fn faults_at_two_nodes_go_node_by_node() {
        let refused = |first, second| {
            let batch = damaged(&WORDS, first, second);
            frames(&batch).map_err(|refusal| (refusal.number, refusal.place))
        };
        assert_eq!(refused((8, Replaced(0)), (9, Replaced(2))), Err((5, 8)));
        assert_eq!(refused((7, Replaced(1)), (10, Replaced(0))), Err((4, 7)));
        assert_eq!(refused((7, Replaced(1)), (8, Replaced(0))), Err((4, 7)));
    }
}
