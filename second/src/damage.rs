//! Table 3: what a damaged word does to a batch, and what two of them do.

use crate::batch::frames;
use crate::counts::{Count, Counts};
use crate::refusal::Refusal;
use crate::two_damages;
use crate::word_damages::{harmed, Damage};
use std::io::{self, Write};

/// The batches that are damaged, frame by frame; the first is document 01's listing.
pub const BATCHES: [&[&[u16]]; 4] = [
    &[
        &[3, 2, 0, 1, 1, 2],
        &[2, 2, 0, 1, 1, 2, 1, 0, 3],
        &[1, 2, 0, 1, 2, 4],
        &[1, 2, 0, 1, 2, 3],
        &[1, 1, 0, 1],
    ],
    &[
        &[2, 1, 0, 0, 3, 0, 1, 0, 2, 1, 3],
        &[1, 3, 0, 1, 1, 0, 2, 2],
    ],
    &[&[1, 1, 0, 1]],
    &[
        &[3, 3, 0, 0, 2, 1, 1, 0],
        &[3, 2, 0, 2, 2, 0],
        &[1, 2, 0, 2, 1, 1],
    ],
];

/// What planning a batch answers: its number of frames or a refusal.
type Answer = Result<usize, Refusal>;

/// Writes table 3: for each batch each word's values, its loss and its
/// doubling, then every two words.
pub fn write(out: &mut dyn Write) -> io::Result<Counts> {
    let (mut damaged, mut doubly) = (0, 0);
    for (batch, frames) in (1..).zip(BATCHES) {
        let words = frames.concat();
        for word in 0..words.len() {
            let at = format!("{batch} {word}");
            damaged += write_values(out, &at, &words, word)?;
            damaged += write_one(out, &at, "lost", &harmed(&words, (word, Damage::Lost)))?;
            damaged += write_one(out, &at, "twice", &harmed(&words, (word, Damage::Twice)))?;
        }
        doubly += two_damages::write(out, batch, &words)?;
    }
    Ok(vec![
        Count::new("damaged-batches", damaged),
        Count::new("doubly-damaged-batches", doubly),
    ])
}

/// Tries every value of a word and writes a line for each run of equal
/// answers; gives the number of batches tried.
fn write_values(out: &mut dyn Write, at: &str, words: &[u16], word: usize) -> io::Result<usize> {
    let mut batch = words.to_vec();
    let mut tried = 0;
    let mut run: Option<(u16, Answer)> = None;
    for value in 0..=u16::MAX {
        batch[word] = value;
        tried += 1;
        let answer = frames(&batch);
        match run {
            Some((_, same)) if same == answer => {}
            Some((from, other)) => {
                write_run(out, at, from, value - 1, other)?;
                run = Some((value, answer));
            }
            None => run = Some((value, answer)),
        }
    }
    if let Some((from, last)) = run {
        write_run(out, at, from, u16::MAX, last)?;
    }
    Ok(tried)
}

/// Writes the line of one run of values.
fn write_run(out: &mut dyn Write, at: &str, from: u16, to: u16, answer: Answer) -> io::Result<()> {
    writeln!(out, "{at} {from} {to} {}", text(answer))
}

/// Writes the line of one batch with a named damage; gives 1, the batch tried.
fn write_one(out: &mut dyn Write, at: &str, name: &str, batch: &[u16]) -> io::Result<usize> {
    writeln!(out, "{at} {name} {}", text(frames(batch)))?;
    Ok(1)
}

/// An answer as the table shows it.
fn text(answer: Answer) -> String {
    match answer {
        Ok(frames) => format!("ok {frames}"),
        Err(refusal) => refusal.to_string(),
    }
}

#[cfg(test)]
mod tests {
    use super::*;

    #[test]
    fn the_undamaged_batches_are_accepted() {
        let found: Vec<Answer> = BATCHES
            .iter()
            .map(|batch| frames(&batch.concat()))
            .collect();
        assert_eq!(found, [Ok(5), Ok(2), Ok(1), Ok(3)]);
    }

    /// The lines of every value of a word of a batch.
    fn runs(batch: usize, word: usize) -> Vec<String> {
        let mut out = Vec::new();
        let tried = write_values(&mut out, "", &BATCHES[batch - 1].concat(), word).unwrap();
        assert_eq!(tried, 65_536);
        let text = String::from_utf8(out).unwrap();
        text.lines().map(|line| line.trim().to_string()).collect()
    }

    #[test]
    fn runs_cover_every_value() {
        let kinds = [
            "0 0 8 6 0",
            "1 1 ok 1",
            "2 2 9 6 4",
            "3 3 6 6 1",
            "4 65535 8 6 0",
        ];
        assert_eq!(runs(3, 0), kinds);
    }

    #[test]
    fn places_are_offsets_in_the_whole_batch() {
        let steps = [
            "0 0 1 6 22",
            "1 1 9 6 31",
            "2 2 ok 5",
            "3 3 8 6 29",
            "4 4 3 6 29",
            "5 255 9 6 31",
            "256 65535 2 6 22",
        ];
        assert_eq!(runs(1, 22), steps);
    }
}
