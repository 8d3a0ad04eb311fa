//! Table 13, plans: a read of a drawn batch is made wider, and its slot never moves
//! towards 0.

use crate::digest::Digest;
use crate::mode::Mode;
use crate::numbering::Numbering;
use crate::pairs::Pairs;
use crate::plans::{drawn_plan, Drawn, Draws, Frame};
use crate::widening::{widened, Part};
use std::cmp::Ordering;
use std::io::{self, Write};

/// How many batches are drawn, the first ones of table 4.
const BATCHES: usize = 500;

/// What widening one read does to the plans of a line.
#[derive(Default)]
struct Tally {
    tried: usize,
    same: usize,
    away: usize,
    towards: usize,
    others: usize,
    digest: Digest,
}

impl Tally {
    /// Takes the plans before and after the read at this place was made wider.
    fn take(&mut self, narrow: &[usize], wider: &[usize], place: usize) {
        self.tried += 1;
        match wider[place].cmp(&narrow[place]) {
            Ordering::Equal => self.same += 1,
            Ordering::Greater => self.away += 1,
            Ordering::Less => self.towards += 1,
        }
        let apart = |k: usize| k != place && wider[k] != narrow[k];
        self.others += usize::from((0..wider.len()).any(apart));
        self.digest.take_all(wider);
    }
}

/// Writes a line for each mode; gives the number of widened batches that were planned.
pub fn write(numbering: &Numbering, pairs: &Pairs, out: &mut dyn Write) -> io::Result<usize> {
    let mut planned = 0;
    for (name, mode) in [("node", Mode::Node), ("deep", Mode::Deep)] {
        let tally = tally(numbering, pairs, mode);
        let (tried, digest) = (tally.tried, tally.digest.text());
        let (same, away, towards, others) = (tally.same, tally.away, tally.towards, tally.others);
        writeln!(
            out,
            "wider-plans {name} {tried} {same} {away} {towards} {others} {digest}"
        )?;
        planned += tried;
    }
    Ok(planned)
}

/// What every single change of every read does, in this mode.
fn tally(numbering: &Numbering, pairs: &Pairs, mode: Mode) -> Tally {
    let mut draws = Draws::start();
    let mut tally = Tally::default();
    for _ in 0..BATCHES {
        let batch = draws.batch(numbering);
        let narrow = drawn_plan(&batch, pairs, mode);
        for (place, wider) in widened_batches(&batch, numbering) {
            tally.take(&narrow, &drawn_plan(&wider, pairs, mode), place);
        }
    }
    tally
}

/// The batches with one read wider in one step's axis or label, each with the place of that read.
fn widened_batches(batch: &[Drawn], numbering: &Numbering) -> Vec<(usize, Vec<Drawn>)> {
    let mut found = Vec::new();
    for (place, &frame) in batch.iter().enumerate() {
        let Frame::Read(read) = frame else { continue };
        let reads = widened(&numbering.patterns[read], &[Part::Axis, Part::Label]);
        for wider in reads.iter().filter_map(|p| numbering.pattern_number(p)) {
            let mut changed = batch.to_vec();
            changed[place] = Frame::Read(wider);
            found.push((place, changed));
        }
    }
    found
}

#[cfg(test)]
mod tests {
    use super::*;

    #[test]
    fn each_read_is_widened_alone() {
        let numbering = Numbering::full();
        let number = |text| numbering.pattern_number(&crate::examples::pattern(text));
        let read = |text| Frame::Read(number(text).unwrap());
        let batch = [read("a/b"), read("*//*"), read("b")];
        let reads = |batch: &[Drawn]| -> Vec<Option<usize>> {
            let number = |frame: &Drawn| match *frame {
                Frame::Read(read) => Some(read),
                Frame::Update(_) => None,
            };
            batch.iter().map(number).collect()
        };
        let found = widened_batches(&batch, &numbering);
        let expected = [
            (0, ["*/b", "*//*", "b"]),
            (0, ["a//b", "*//*", "b"]),
            (0, ["a/*", "*//*", "b"]),
            (2, ["a/b", "*//*", "*"]),
        ];
        assert_eq!(found.len(), expected.len());
        for ((place, wider), (at, texts)) in found.iter().zip(expected) {
            assert_eq!(*place, at);
            assert_eq!(reads(wider), texts.map(number));
        }
    }

    #[test]
    fn slots_are_compared_at_the_read_and_words_elsewhere() {
        let mut tally = Tally::default();
        tally.take(&[1, 0], &[1, 0], 1);
        tally.take(&[1, 0], &[1, 1], 1);
        tally.take(&[1, 2, 1], &[1, 2, 0], 2);
        tally.take(&[1, 1, 0], &[1, 1, 1], 1);
        let counts = (tally.same, tally.away, tally.towards, tally.others);
        assert_eq!((tally.tried, counts), (4, (2, 1, 1, 1)));
    }
}
