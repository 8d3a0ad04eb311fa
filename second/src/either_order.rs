//! Table 6: two deletes in either order, on every small document. No delete is
//! run here: what each removes is told by the sets of nodes that the patterns
//! cover in the document as it stands before both.

use crate::counts::{Count, Counts};
use crate::digest::Digest;
use crate::document::Document;
use crate::documents::{documents_of, MOST_NODES};
use crate::node_set::NodeSet;
use crate::numbering::Numbering;
use std::io::{self, Write};

/// The patterns of the deletes have this many steps.
const STEPS: usize = 2;

/// What two deletes, one after the other, report and leave.
#[derive(Debug, PartialEq, Eq)]
struct Told {
    first: usize,
    second: usize,
    marks: Vec<u8>,
}

/// How many pairs were asked about, and for how many of them both orders agree:
/// in the marks, in the two numbers together, and in each number alone.
#[derive(Default)]
struct Tally {
    pairs: usize,
    marks: usize,
    totals: usize,
    each: usize,
    digest: Digest,
}

/// Writes table 6, a line for each number of nodes.
pub fn write(numbering: &Numbering, out: &mut dyn Write) -> io::Result<Counts> {
    let mut pairs = 0;
    for nodes in 1..=MOST_NODES {
        let tally = tally_of(numbering, nodes);
        writeln!(
            out,
            "deletes {nodes} {} {} {} {} {}",
            tally.pairs,
            tally.marks,
            tally.totals,
            tally.each,
            tally.digest.text()
        )?;
        pairs += tally.pairs;
    }
    Ok(vec![Count::new("delete-pairs", pairs)])
}

/// Every pair of deletes, each with itself too, on every document of so many
/// nodes.
fn tally_of(numbering: &Numbering, nodes: usize) -> Tally {
    let mut tally = Tally::default();
    for document in documents_of(nodes) {
        let of_two = numbering.patterns.iter().filter(|p| p.size() == STEPS);
        let covered: Vec<NodeSet> = of_two.map(|p| document.covered(p)).collect();
        for (number, &q) in covered.iter().enumerate() {
            for &p in &covered[..=number] {
                tally.take(&told(&document, p, q), &told(&document, q, p));
            }
        }
    }
    tally
}

/// The first delete removes all that its pattern covers, the second what its
/// pattern covers and the first one's does not.
fn told(document: &Document, first: NodeSet, second: NodeSet) -> Told {
    let mut marks = document.marks.clone();
    for v in first.with(second).rising() {
        marks[v] = 1;
    }
    Told {
        first: first.size(),
        second: second.without(first).size(),
        marks,
    }
}

impl Tally {
    /// Takes a pair: what is told of the one order and of the other.
    fn take(&mut self, one: &Told, other: &Told) {
        self.pairs += 1;
        self.marks += usize::from(one.marks == other.marks);
        self.totals += usize::from(one.first + one.second == other.first + other.second);
        self.each += usize::from(one.first == other.second && one.second == other.first);
        for told in [one, other] {
            self.digest.take(told.first);
            self.digest.take(told.second);
            self.digest.take_all(&told.marks);
        }
    }
}

#[cfg(test)]
mod tests {
    use super::*;
    use crate::examples::pattern;
    use crate::pattern::Pattern;

    /// The same by running one delete and then the other.
    fn run(document: &Document, first: &Pattern, second: &Pattern) -> Told {
        let mut changed = document.clone();
        let first = changed.delete(first).unwrap();
        let second = changed.delete(second).unwrap();
        Told {
            first,
            second,
            marks: changed.marks,
        }
    }

    #[test]
    fn the_sets_tell_what_running_shows() {
        let numbering = Numbering::full();
        let deletes = &numbering.patterns[numbering.single_steps..];
        for document in (1..=3).flat_map(documents_of) {
            let covered: Vec<NodeSet> = deletes.iter().map(|p| document.covered(p)).collect();
            for (p, first) in deletes.iter().zip(&covered) {
                for (q, second) in deletes.iter().zip(&covered) {
                    assert_eq!(run(&document, p, q), told(&document, *first, *second));
                }
            }
        }
    }

    #[test]
    fn each_number_alone_depends_on_the_order() {
        let document = Document {
            words: vec![0, 1, 0, 2, 1, 3],
            marks: vec![0, 0, 0],
            used: 3,
            ids: vec![0, 1, 2],
            next: 3,
        };
        let (above, below) = (pattern("a/b"), pattern("a//c"));
        let one = run(&document, &above, &below);
        let other = run(&document, &below, &above);
        assert_eq!((one.first, one.second), (2, 0));
        assert_eq!((other.first, other.second), (1, 1));
        assert_eq!(one.marks, other.marks);
    }
}
