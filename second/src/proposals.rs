//! Table 10: the first node that is lost or new on a proposed tree. First all small
//! trees, with some updates and reads, and with updates drawn for each read.

use crate::counts::{Count, Counts};
use crate::damaged_proposals;
use crate::digest::Digest;
use crate::draws::Draws;
use crate::evidence;
use crate::large_proposals;
use crate::numbering::{trees_of, Numbering, TREE_LABELS};
use crate::refusal::Refusal;
use crate::tree::words_of;
use std::io::{self, Write};

/// Small proposed trees have at most this many nodes.
const MOST_NODES: usize = 4;

/// The reads of small trees, by pattern number.
const READS: [usize; 12] = [3, 6, 12, 18, 16, 24, 57, 114, 69, 123, 102, 50];

/// The deletes, by pattern number.
const DELETES: [usize; 6] = [9, 15, 24, 48, 19, 75];

/// The inserts, by pattern number and tree number.
const INSERTS: [(usize, usize); 10] = [
    (0, 1),
    (0, 50),
    (3, 0),
    (6, 1),
    (12, 4),
    (12, 17),
    (18, 0),
    (15, 6),
    (33, 1),
    (13, 5),
];

/// How many inserts are drawn for a read and a tree.
const DRAWN_INSERTS: usize = 3;

/// What a check of a proposed tree answers.
pub type Answer = Result<usize, Refusal>;

/// What the calls of a line answer.
#[derive(Default)]
pub struct Tally {
    pub calls: usize,
    pub yes: usize,
    pub refused: usize,
    pub digest: Digest,
}

impl Tally {
    /// Takes one answer more.
    pub fn take(&mut self, answer: Answer) {
        self.calls += 1;
        match answer {
            Ok(node) => {
                self.yes += usize::from(node > 0);
                self.digest.take(node);
            }
            Err(refusal) => {
                self.refused += 1;
                self.digest.take_refusal(refusal);
            }
        }
    }
}

/// Writes table 10.
pub fn write(numbering: &Numbering, out: &mut dyn Write) -> io::Result<Counts> {
    let trees = small_trees();
    let shown = write_shown(numbering, &trees, out)?;
    let drawn = write_drawn(numbering, &trees, out)?;
    let (marked, along) = large_proposals::write(out)?;
    let damaged = damaged_proposals::write(out)?;
    Ok(vec![
        Count::new("shown-evidence", shown),
        Count::new("drawn-evidence", drawn),
        Count::new("marked-evidence", marked),
        Count::new("along-evidence", along),
        Count::new("damaged-evidence", damaged),
    ])
}

/// The words of all small trees in order.
fn small_trees() -> Vec<Vec<u16>> {
    let tables = (1..=MOST_NODES).flat_map(|n| trees_of(n, TREE_LABELS));
    tables.map(|table| words_of(&table)).collect()
}

/// A line for each small tree; gives the number of calls.
fn write_shown(
    numbering: &Numbering,
    trees: &[Vec<u16>],
    out: &mut dyn Write,
) -> io::Result<usize> {
    let pattern = |number: usize| numbering.patterns[number].words();
    let reads = READS.map(pattern);
    let deletes = DELETES.map(pattern);
    let inserts = INSERTS.map(|(p, x)| (pattern(p), words_of(&numbering.inserted[x])));
    let mut calls = 0;
    for tree in trees {
        let mut line = String::new();
        for (p, r) in each(&deletes, &reads) {
            line.push(character(evidence::delete(r, p, tree)));
        }
        for ((p, x), r) in each(&inserts, &reads) {
            line.push(character(evidence::insert(r, p, x, tree)));
        }
        calls += line.len();
        writeln!(out, "{line}")?;
    }
    Ok(calls)
}

/// Every update with every read, which changes fastest.
fn each<'a, U, R>(updates: &'a [U], reads: &'a [R]) -> impl Iterator<Item = (&'a U, &'a R)> {
    updates
        .iter()
        .flat_map(|update| reads.iter().map(move |read| (update, read)))
}

/// A node's number as a hexadecimal digit; nothing here is refused.
fn character(answer: Answer) -> char {
    let digit = answer
        .ok()
        .and_then(|node| char::from_digit(node as u32, 16));
    digit.map_or('?', |digit| digit.to_ascii_uppercase())
}

/// A line for each read, with a delete and some inserts drawn for each small tree;
/// gives the number of calls.
fn write_drawn(
    numbering: &Numbering,
    trees: &[Vec<u16>],
    out: &mut dyn Write,
) -> io::Result<usize> {
    let patterns: Vec<Vec<u16>> = numbering.patterns.iter().map(|p| p.words()).collect();
    let inserted: Vec<Vec<u16>> = numbering.inserted.iter().map(|x| words_of(x)).collect();
    let single = numbering.single_steps;
    let mut calls = 0;
    for (number, read) in patterns.iter().enumerate() {
        let mut draws = Draws::from_state(number);
        let mut tally = Tally::default();
        for tree in trees {
            let points = &patterns[single + draws.below(patterns.len() - single)];
            tally.take(evidence::delete(read, points, tree));
            for _ in 0..DRAWN_INSERTS {
                let points = &patterns[draws.below(patterns.len())];
                let inserted = &inserted[draws.below(inserted.len())];
                tally.take(evidence::insert(read, points, inserted, tree));
            }
        }
        let (yes, digest) = (tally.yes, tally.digest.text());
        writeln!(out, "drawn {number} {} {yes} {digest}", tally.calls)?;
        calls += tally.calls;
    }
    Ok(calls)
}

#[cfg(test)]
mod tests {
    use super::*;
    use crate::examples::pattern;
    use std::collections::HashSet;

    #[test]
    fn the_lists_are_as_described() {
        let numbering = Numbering::full();
        let check = |numbers: &[usize], texts: &[&str]| {
            let named: Vec<_> = texts.iter().map(|text| pattern(text)).collect();
            let listed = numbers.iter().map(|&k| numbering.patterns[k].clone());
            assert_eq!(listed.collect::<Vec<_>>(), named);
        };
        let reads = "*/* */a *//* *//b a//a */a/* */*/b */a//b *//a/b *//a//b *//*//a b//*/a";
        check(&READS, &reads.split(' ').collect::<Vec<_>>());
        let deletes = "*/b *//a */a/* *//*/a a//b */*//*";
        check(&DELETES, &deletes.split(' ').collect::<Vec<_>>());
        let points = "* * */* */a *//* *//* *//b *//a *//a/* a//*";
        let points = points.split(' ').collect::<Vec<_>>();
        check(&INSERTS.map(|(p, _)| p), &points);
        let words = INSERTS.map(|(_, x)| words_of(&numbering.inserted[x]));
        let trees: [&[u16]; 10] = [
            &[0, 2],
            &[0, 3, 0, 1, 1, 2],
            &[0, 1],
            &[0, 2],
            &[0, 2, 0, 1],
            &[0, 3, 0, 2, 0, 1],
            &[0, 1],
            &[0, 1, 0, 2],
            &[0, 2],
            &[0, 3, 0, 1],
        ];
        assert_eq!(words, trees);
    }

    #[test]
    fn each_small_tree_shows_its_nodes() {
        let mut out = Vec::new();
        let numbering = Numbering::full();
        let calls = write_shown(&numbering, &small_trees(), &mut out).unwrap();
        assert_eq!(calls, 552 * 192);
        let text = String::from_utf8(out).unwrap();
        assert!(text.lines().all(|line| line.len() == 192));
        let shown: HashSet<char> = text.lines().flat_map(str::chars).collect();
        assert_eq!(shown, "012345678AB".chars().collect());
    }

    #[test]
    fn only_a_read_of_one_step_finds_nothing() {
        let mut out = Vec::new();
        let calls = write_drawn(&Numbering::full(), &small_trees(), &mut out).unwrap();
        assert_eq!(calls, 129 * 552 * 4);
        let text = String::from_utf8(out).unwrap();
        for (read, line) in text.lines().enumerate() {
            let words: Vec<&str> = line.split(' ').collect();
            assert_eq!(words[3] == "0", read < 3, "{line}");
        }
    }
}
