//! Table 14: mending. Here are all small documents with all small marks, and lists of every
//! length; `mend_orders.rs` and `large_mends.rs` have the other parts.

use crate::counts::{Count, Counts};
use crate::digest::Digest;
use crate::document::Document;
use crate::document_calls::{check, mend};
use crate::documents::take_rows;
use crate::id_orders::take_answer;
use crate::numbering::trees_of;
use crate::rows::rows;
use crate::tree::{words_of, Row};
use crate::{large_mends, mend_orders};
use std::io::{self, Write};

/// Small documents have 1 to this many used nodes.
pub const MOST_NODES: usize = 4;

/// What their marks are made of.
const MARKS: [u8; 4] = [0, 1, 2, 3];

/// The identities of their used nodes.
const IDS: [u32; MOST_NODES] = [2, 4, 9, 11];

/// Their next identity.
const NEXT: u32 = 20;

/// The words of the one node that is not used.
const SPARE_WORDS: [u16; 2] = [7, 7];

/// Its mark.
const SPARE_MARK: u8 = 9;

/// Its identity.
const SPARE_ID: u32 = 99_999;

/// The list is this many words longer than what all used nodes need.
const SPARE_ROOM: usize = 2;

/// The longest list where lists of every length are tried, one word more than any mending needs.
const MOST_ROOM: usize = 3 * MOST_NODES + 1;

/// What stands in a list before a mending.
pub const FILLING: u16 = 777;

/// How many mendings a line has, how many of them are not refused, how many marks these change
/// together, and the digest.
#[derive(Default)]
pub struct Tally {
    pub calls: usize,
    pub fits: usize,
    pub changes: usize,
    pub digest: Digest,
}

/// Writes table 14.
pub fn write(out: &mut dyn Write) -> io::Result<Counts> {
    Ok(vec![
        Count::new("small-mends", write_small(out)?),
        Count::new("mend-rooms", write_rooms(out)?),
        Count::new("mend-orders", mend_orders::write(out)?),
        Count::new("large-mends", large_mends::write(out)?),
    ])
}

/// Writes a line for each number of nodes; the number of mendings.
fn write_small(out: &mut dyn Write) -> io::Result<usize> {
    let mut calls = 0;
    for nodes in 1..=MOST_NODES {
        let sound = documents_of(nodes).filter(|document| check(document).is_ok());
        let sound = sound.count();
        let tally = Tally::of(nodes, 3 * nodes + SPARE_ROOM);
        let (count, changes, digest) = (tally.calls, tally.changes, tally.digest.text());
        writeln!(out, "mends {nodes} {count} {sound} {changes} {digest}")?;
        calls += count;
    }
    Ok(calls)
}

/// Writes a line for each length of the list; the number of mendings.
fn write_rooms(out: &mut dyn Write) -> io::Result<usize> {
    let mut calls = 0;
    for room in 0..=MOST_ROOM {
        let tally = Tally::of(MOST_NODES, room);
        let (count, fits, digest) = (tally.calls, tally.fits, tally.digest.text());
        writeln!(out, "mend-room {room} {count} {fits} {digest}")?;
        calls += count;
    }
    Ok(calls)
}

/// The documents of so many used nodes: every tree with label 1, and each with every marking,
/// which changes fastest.
pub fn documents_of(nodes: usize) -> impl Iterator<Item = Document> {
    trees_of(nodes, 1)
        .flat_map(move |table| rows(&MARKS, nodes).map(move |marks| document(&table, marks)))
}

/// The document of a tree and its marks, with a node behind that is not used.
fn document(table: &[Row], mut marks: Vec<u8>) -> Document {
    let mut words = words_of(table);
    words.extend(SPARE_WORDS);
    marks.push(SPARE_MARK);
    let mut ids = IDS[..table.len()].to_vec();
    ids.push(SPARE_ID);
    Document {
        words,
        marks,
        used: table.len(),
        ids,
        next: NEXT,
    }
}

impl Tally {
    /// Every document of so many nodes, mended with a list of so many words.
    fn of(nodes: usize, room: usize) -> Tally {
        let mut tally = Tally::default();
        for mut document in documents_of(nodes) {
            tally.mend_whole(&mut document, room);
        }
        tally
    }

    /// Mends with a list of so many words, and takes the answer, all rows after it and the list.
    pub fn mend_whole(&mut self, document: &mut Document, room: usize) {
        let list = self.mend(document, room);
        take_rows(&mut self.digest, document);
        self.digest.take_all(&list);
    }

    /// Mends with a list of so many words, and takes the answer; the list after it.
    pub fn mend(&mut self, document: &mut Document, room: usize) -> Vec<u16> {
        let mut list = vec![FILLING; room];
        let answer = mend(document, &mut list);
        self.calls += 1;
        self.fits += usize::from(answer.is_ok());
        self.changes += answer.unwrap_or(0);
        take_answer(&mut self.digest, answer.map(|changes| [changes, 0, 0]));
        list
    }
}

#[cfg(test)]
mod tests {
    use super::*;
    use crate::tally::lines;
    use crate::tree::rows_of;

    #[test]
    fn trees_and_marks_are_numbered_as_described() {
        for (nodes, trees) in [(1, 1), (2, 1), (3, 2), (4, 6)] {
            let markings = 4usize.pow(nodes as u32);
            assert_eq!(documents_of(nodes).count(), trees * markings);
            for (number, document) in documents_of(nodes).enumerate() {
                let (tree, marking) = (number / markings, number % markings);
                let parents = [0, 0, tree % 2, tree / 2 % 3];
                for (v, row) in rows_of(&document.words[..2 * nodes]).iter().enumerate() {
                    assert_eq!((row.parent, row.label), (parents[v], 1));
                    let mark = marking / 4usize.pow(v as u32) % 4;
                    assert_eq!(usize::from(document.marks[v]), mark);
                }
            }
        }
    }

    #[test]
    fn the_digest_takes_the_answer_and_all_rows() {
        let mut digest = Digest::default();
        for mark in 0..4u16 {
            let changed = u16::from(mark > 0);
            digest.take_all(&[changed, 0, 0, 0]);
            digest.take_all(&[0u16, 1, 7, 7, 0, 9, 0, 2, 1, 34_463]);
            match mark {
                0 => digest.take_all(&[777u16; 5]),
                _ => digest.take_all(&[0, mark, 0, 777, 777]),
            }
        }
        let expected = format!("mends 1 4 1 3 {}", digest.text());
        assert_eq!(lines(write_small)[0], expected);
    }

    #[test]
    fn a_mending_fits_exactly_where_its_whole_list_does() {
        for document in documents_of(MOST_NODES) {
            let changes = mend(&mut document.clone(), &mut [0; MOST_ROOM]).unwrap();
            for room in 0..=MOST_ROOM {
                let mut after = document.clone();
                let mut list = vec![FILLING; room];
                match mend(&mut after, &mut list) {
                    Ok(again) => assert!(again == changes && 3 * changes <= room),
                    Err(refusal) => {
                        assert_eq!(refusal.to_string(), "7 4 0");
                        assert!(3 * changes > room);
                        assert_eq!(after, document);
                        assert_eq!(list, vec![FILLING; room]);
                    }
                }
            }
        }
    }
}
