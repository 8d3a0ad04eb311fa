//! Table 12: identity rows, right and wrong. Here are the checks of small rows and
//! of rows with wide numbers; `id_orders.rs` and `id_edges.rs` have the other parts.

use crate::counts::{Count, Counts};
use crate::digest::Digest;
use crate::document::Document;
use crate::document_calls::check;
use crate::refusal::Refusal;
use crate::rows::{rows, rows_to};
use crate::{id_edges, id_orders};
use std::io::{self, Write};

/// The tree whose first nodes are used.
const WORDS: [u16; 6] = [0, 1, 0, 2, 1, 3];

/// What small rows are made of.
const SMALL: [u32; 5] = [0, 1, 2, 3, 4];

/// Small rows have at most this many identities.
const MOST_IDS: usize = 4;

/// What rows with wide numbers are made of.
const WIDE: [u32; 7] = [
    0,
    0xFFFF,
    0x1_0000,
    0x7FFF_FFFF,
    0x8000_0000,
    0xFFFF_FFFE,
    0xFFFF_FFFF,
];

/// How many documents were checked, how many were right, and the digest of the answers.
#[derive(Default)]
struct Tally {
    calls: usize,
    right: usize,
    digest: Digest,
}

/// Writes table 12.
pub fn write(out: &mut dyn Write) -> io::Result<Counts> {
    Ok(vec![
        Count::new("small-id-rows", write_small(out)?),
        Count::new("wide-id-rows", write_wide(out)?),
        Count::new("id-orders", id_orders::write(out)?),
        Count::new("id-edges", id_edges::write(out)?),
    ])
}

/// Writes a line for each used count and next identity; the number of documents.
fn write_small(out: &mut dyn Write) -> io::Result<usize> {
    let mut calls = 0;
    for used in 1..=WORDS.len() / 2 {
        for next in 0..=SMALL.len() as u32 {
            let tally = Tally::of(rows_to(&SMALL, MOST_IDS), used, next);
            let digest = tally.digest.text();
            let right = tally.right;
            writeln!(
                out,
                "id-rows {used} {next} {} {right} {digest}",
                tally.calls
            )?;
            calls += tally.calls;
        }
    }
    Ok(calls)
}

/// Writes a line for each next identity; the number of documents.
fn write_wide(out: &mut dyn Write) -> io::Result<usize> {
    let mut calls = 0;
    for next in WIDE {
        let tally = Tally::of(rows(&WIDE, 2), 2, next);
        let digest = tally.digest.text();
        writeln!(
            out,
            "id-wide {next} {} {} {digest}",
            tally.calls, tally.right
        )?;
        calls += tally.calls;
    }
    Ok(calls)
}

impl Tally {
    /// Every one of some identity rows.
    fn of(rows: impl Iterator<Item = Vec<u32>>, used: usize, next: u32) -> Tally {
        let mut tally = Tally::default();
        for ids in rows {
            tally.take(check(&Document {
                words: WORDS.to_vec(),
                marks: vec![0; WORDS.len() / 2],
                used,
                ids,
                next,
            }));
        }
        tally
    }

    /// Takes an answer: 0, or the refusal.
    fn take(&mut self, answer: Result<(), Refusal>) {
        self.calls += 1;
        match answer {
            Ok(()) => {
                self.right += 1;
                self.digest.take(0);
            }
            Err(refusal) => self.digest.take_refusal(refusal),
        }
    }
}

#[cfg(test)]
mod tests {
    use super::*;

    /// The number of ways to choose so many of so many.
    fn chosen(few: usize, of: usize) -> usize {
        (0..few).fold(1, |ways, i| ways * (of - i) / (i + 1))
    }

    #[test]
    fn right_rows_are_choices_below_the_next() {
        for used in 1..=3 {
            for next in 0..=5 {
                let tally = Tally::of(rows_to(&SMALL, MOST_IDS), used, next as u32);
                let behind: usize = (used..=MOST_IDS)
                    .map(|n| 5usize.pow((n - used) as u32))
                    .sum();
                let expected = match next < used {
                    true => 0,
                    false => chosen(used, next) * behind,
                };
                assert_eq!(tally.right, expected);
                assert_eq!(tally.calls, 781);
            }
        }
    }

    #[test]
    fn wide_numbers_are_compared_whole() {
        let right = WIDE.map(|next| Tally::of(rows(&WIDE, 2), 2, next).right);
        assert_eq!(right, [0, 0, 1, 3, 6, 10, 15]);
    }
}
