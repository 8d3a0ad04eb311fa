//! Table 12, the edges of an insert: as many identities left as it needs, or one fewer,
//! and as much room in each row, or one node less.

use crate::digest::Digest;
use crate::document::Document;
use crate::document_calls::insert;
use crate::documents::take_rows;
use crate::refusal::{number, Refusal};
use std::io::{self, Write};

/// Patterns that select as many nodes of the document as their place says.
const PATTERNS: [&[u16]; 4] = [&[0, 2], &[0, 1], &[0, 0, 1, 2], &[0, 0, 1, 0]];

/// The inserted trees are the first nodes of this one.
const INSERTED: [u16; 6] = [0, 1, 0, 2, 1, 3];

/// The document's nodes.
const WORDS: [u16; 8] = [0, 1, 0, 2, 0, 2, 0, 3];

/// Up to this many identities are left, and up to this many nodes have room.
const MOST_LEFT: usize = 10;

/// What stands behind the used nodes.
const SPARE: u8 = 9;

/// How the inserts of a line end.
#[derive(Default)]
struct Tally {
    calls: usize,
    given: usize,
    without_ids: usize,
    without_room: usize,
    digest: Digest,
}

/// Writes a line for each number of copies and of inserted nodes; the number of inserts.
pub fn write(out: &mut dyn Write) -> io::Result<usize> {
    let mut calls = 0;
    for (copies, pattern) in PATTERNS.iter().enumerate() {
        for nodes in 1..=INSERTED.len() / 2 {
            let tally = Tally::of(pattern, &INSERTED[..2 * nodes]);
            writeln!(
                out,
                "id-edges {copies} {nodes} {} {} {} {} {}",
                tally.calls,
                tally.given,
                tally.without_ids,
                tally.without_room,
                tally.digest.text()
            )?;
            calls += tally.calls;
        }
    }
    Ok(calls)
}

/// The document with so many identities left and room for so many nodes in one of its
/// rows: 0 the words, of which there is one more, 1 the marks, 2 the identities.
fn document(left: usize, room: usize, row: usize) -> Document {
    let used = WORDS.len() / 2;
    let length = |this: usize| used + if row == this { room } else { MOST_LEFT };
    let mut words = WORDS.to_vec();
    words.resize(2 * length(0) + 1, u16::from(SPARE));
    let mut marks = vec![0; used];
    marks.resize(length(1), SPARE);
    let mut ids: Vec<u32> = (0..used).map(|v| u32::MAX - 40 + 9 * v as u32).collect();
    ids.resize(length(2), u32::from(SPARE));
    Document {
        words,
        marks,
        used,
        ids,
        next: u32::MAX - left as u32,
    }
}

impl Tally {
    /// The insert into every document, identities left changing fastest.
    fn of(pattern: &[u16], inserted: &[u16]) -> Tally {
        let mut tally = Tally::default();
        for row in 0..3 {
            for room in 0..=MOST_LEFT {
                for left in 0..=MOST_LEFT {
                    let mut document = document(left, room, row);
                    let answer = insert(&mut document, pattern, inserted);
                    tally.take(answer, &document);
                }
            }
        }
        tally
    }

    /// Takes an answer and the document after it.
    fn take(&mut self, answer: Result<usize, Refusal>, after: &Document) {
        self.calls += 1;
        match answer {
            Ok(copies) => {
                self.given += 1;
                self.digest.take(copies);
                self.digest.take(after.used);
                self.digest.take_id(after.next);
            }
            Err(refusal) => {
                self.without_ids += usize::from(refusal.number == number::NO_IDENTITY);
                self.without_room += usize::from(refusal.number == number::NO_ROOM);
                self.digest.take_refusal(refusal);
            }
        }
        take_rows(&mut self.digest, after);
    }
}

#[cfg(test)]
mod tests {
    use super::*;

    #[test]
    fn both_edges_are_where_the_new_nodes_just_fit() {
        for (copies, pattern) in PATTERNS.iter().enumerate() {
            for nodes in 1..=3 {
                let new = copies * nodes;
                let tally = Tally::of(pattern, &INSERTED[..2 * nodes]);
                let fits = MOST_LEFT + 1 - new;
                assert_eq!(tally.without_ids, 3 * new * (MOST_LEFT + 1));
                assert_eq!(tally.without_room, 3 * fits * new);
                assert_eq!(tally.given, 3 * fits * fits);
            }
        }
    }
}
