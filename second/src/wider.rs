//! Table 13: wider never means safer. Here pairs before and after a single change: a
//! named label becomes the wildcard, a child step a descendant step, or the inserted
//! tree gets one node more behind its last.

use crate::counts::{Count, Counts};
use crate::digest::Digest;
use crate::numbering::{Numbering, Update};
use crate::pairs::Pairs;
use crate::verdict::Verdict;
use crate::widening::{Changes, Part};
use crate::wider_plans;
use std::io::{self, Write};

/// The inserted trees of pairs that are made wider have at most this many nodes.
const MOST_NODES: usize = 2;

/// What of a pair is made wider.
#[derive(Clone, Copy)]
enum Kind {
    Read(Part),
    Update(Part),
    Tree,
}

/// The kinds in the order of the lines, with their names.
const KINDS: [(&str, Kind); 5] = [
    ("read-label", Kind::Read(Part::Label)),
    ("read-axis", Kind::Read(Part::Axis)),
    ("update-label", Kind::Update(Part::Label)),
    ("update-axis", Kind::Update(Part::Axis)),
    ("tree", Kind::Tree),
];

/// For how many changes there is a yes before and after, after only, and before only.
#[derive(Default)]
struct Kept {
    both: usize,
    new: usize,
    lost: usize,
}

impl Kept {
    /// Takes one change more.
    fn take(&mut self, narrow: bool, wider: bool) {
        self.both += usize::from(narrow && wider);
        self.new += usize::from(!narrow && wider);
        self.lost += usize::from(narrow && !wider);
    }

    /// The three numbers with a space between.
    fn text(&self) -> String {
        format!("{} {} {}", self.both, self.new, self.lost)
    }
}

/// What the changes of a line do.
#[derive(Default)]
struct Tally {
    tried: usize,
    node: Kept,
    smaller: usize,
    larger: usize,
    deep: Kept,
    digest: Digest,
}

impl Tally {
    /// Takes the verdicts before and after one change more.
    fn take(&mut self, narrow: Verdict, wider: Verdict) {
        let conflict = narrow.witness > 0 && wider.witness > 0;
        self.tried += 1;
        self.node.take(narrow.witness > 0, wider.witness > 0);
        self.smaller += usize::from(conflict && wider.witness < narrow.witness);
        self.larger += usize::from(conflict && wider.witness > narrow.witness);
        self.deep.take(narrow.deep, wider.deep);
        self.digest.take_all(&[narrow.witness, wider.witness]);
        self.digest.take_all(&[narrow.deep, wider.deep]);
    }
}

/// A pair: an update, and a read by its pattern's number.
#[derive(Clone, Copy)]
struct Pair {
    update: Update,
    read: usize,
}

impl Pair {
    /// What the pair becomes by each change of this kind.
    fn wider(self, changes: &Changes, kind: Kind) -> Vec<Pair> {
        match (kind, self.update) {
            (Kind::Read(part), _) => {
                let reads = changes.of_pattern(part, self.read).iter();
                reads.map(|&read| Pair { read, ..self }).collect()
            }
            (Kind::Update(part), update) => {
                let patterns = changes.of_pattern(part, update.pattern()).iter();
                let updates = patterns.map(|&pattern| update.at(pattern));
                updates.map(|update| Pair { update, ..self }).collect()
            }
            (Kind::Tree, Update::Insert { pattern, inserted }) => {
                let trees = changes.of_tree(inserted).iter();
                let updates = trees.map(|&inserted| Update::Insert { pattern, inserted });
                updates.map(|update| Pair { update, ..self }).collect()
            }
            (Kind::Tree, Update::Delete { .. }) => Vec::new(),
        }
    }
}

/// All pairs with deletes, or with inserts of small trees; the read changes fastest.
fn all_pairs(numbering: &Numbering, inserts: bool) -> impl Iterator<Item = Pair> + '_ {
    let is_wanted = move |update: &Update| match *update {
        Update::Delete { .. } => !inserts,
        Update::Insert { inserted, .. } => {
            inserts && numbering.inserted[inserted].len() <= MOST_NODES
        }
    };
    let updates = numbering.updates().into_iter().filter(is_wanted);
    let reads = 0..numbering.patterns.len();
    updates.flat_map(move |update| reads.clone().map(move |read| Pair { update, read }))
}

/// Writes table 13.
pub fn write(numbering: &Numbering, pairs: &Pairs, out: &mut dyn Write) -> io::Result<Counts> {
    let tried = write_pairs(numbering, pairs, out)?;
    let planned = wider_plans::write(numbering, pairs, out)?;
    Ok(vec![
        Count::new("wider-pairs", tried),
        Count::new("wider-plans", planned),
    ])
}

/// A line for each kind of change and of update; gives the number of changes.
fn write_pairs(numbering: &Numbering, pairs: &Pairs, out: &mut dyn Write) -> io::Result<usize> {
    let changes = Changes::of(numbering);
    let mut tried = 0;
    for (name, kind) in KINDS {
        for (update, inserts) in [("delete", false), ("insert", true)] {
            if matches!(kind, Kind::Tree) && !inserts {
                continue;
            }
            let mut tally = Tally::default();
            for pair in all_pairs(numbering, inserts) {
                let narrow = pairs.verdict(pair.update, pair.read);
                for wider in pair.wider(&changes, kind) {
                    tally.take(narrow, pairs.verdict(wider.update, wider.read));
                }
            }
            write_line(&tally, name, update, out)?;
            tried += tally.tried;
        }
    }
    Ok(tried)
}

/// Writes a line.
fn write_line(tally: &Tally, name: &str, update: &str, out: &mut dyn Write) -> io::Result<()> {
    let (tried, smaller, larger) = (tally.tried, tally.smaller, tally.larger);
    let (node, deep, digest) = (tally.node.text(), tally.deep.text(), tally.digest.text());
    writeln!(
        out,
        "wider {name} {update} {tried} {node} {smaller} {larger} {deep} {digest}"
    )
}

#[cfg(test)]
mod tests {
    use super::*;
    use crate::examples::{chain, pattern};
    use crate::verdict::{self, Operation};
    use crate::widening::covers;

    #[test]
    fn what_is_lost_and_what_is_larger_would_be_counted() {
        let mut tally = Tally::default();
        let verdict = |witness, deep| Verdict { witness, deep };
        tally.take(verdict(2, true), verdict(0, true));
        tally.take(verdict(2, true), verdict(3, true));
        tally.take(verdict(3, true), verdict(2, true));
        tally.take(verdict(2, true), verdict(2, true));
        tally.take(verdict(0, false), verdict(4, true));
        tally.take(verdict(0, true), verdict(0, false));
        let mut line = Vec::new();
        write_line(&tally, "kind", "update", &mut line).unwrap();
        let expected = format!(
            "wider kind update 6 3 1 1 1 1 4 1 1 {}\n",
            tally.digest.text()
        );
        assert_eq!(line, expected.into_bytes());
    }

    /// The updates that are wider than this one in any number of places, and itself.
    fn wider_updates(numbering: &Numbering, narrow: Update) -> Vec<Update> {
        let pattern = |update: Update| &numbering.patterns[update.pattern()];
        let is_wider = |&wide: &Update| match (wide, narrow) {
            (Update::Delete { .. }, Update::Delete { .. }) => {
                covers(pattern(wide), pattern(narrow))
            }
            (Update::Insert { inserted: x, .. }, Update::Insert { inserted: y, .. }) => {
                let longer = numbering.inserted[x].starts_with(&numbering.inserted[y]);
                longer && covers(pattern(wide), pattern(narrow))
            }
            _ => false,
        };
        numbering.updates().into_iter().filter(is_wider).collect()
    }

    /// The reads that are wider than this one in any number of places, and itself.
    fn wider_reads(numbering: &Numbering, narrow: usize) -> Vec<usize> {
        let patterns = &numbering.patterns;
        let all = 0..patterns.len();
        all.filter(|&wide| covers(&patterns[wide], &patterns[narrow]))
            .collect()
    }

    /// Holds when no yes is lost and no witness grows by any changes of both sides at
    /// once; gives how many there were.
    fn check_any_changes(numbering: &Numbering) -> usize {
        let pairs = Pairs::tried(numbering);
        let reads = 0..numbering.patterns.len();
        let reads: Vec<Vec<usize>> = reads.map(|read| wider_reads(numbering, read)).collect();
        let mut tried = 0;
        for update in numbering.updates() {
            for over in wider_updates(numbering, update) {
                for (read, wider) in reads.iter().enumerate() {
                    let narrow = pairs.verdict(update, read);
                    for wide in wider.iter().map(|&wide| pairs.verdict(over, wide)) {
                        let (nodes, most) = (wide.witness, narrow.witness);
                        assert!(most == 0 || (1..=most).contains(&nodes));
                        assert!(!narrow.deep || wide.deep);
                        tried += 1;
                    }
                }
            }
        }
        tried
    }

    #[test]
    fn several_changes_keep_a_conflict_too() {
        // A first step is the same or wider in 5 ways and a later one in 15. Of 3, 9 and 54 trees each is the same as
        // itself, and the smaller ones get 1 node more in 9 and 54 ways, or 2 in 54.
        let tried = check_any_changes(&Numbering::up_to(2, 3));
        assert_eq!(tried, 80 * 75 + 80 * 80 * (66 + 9 + 54 + 54));
    }

    #[test]
    #[cfg_attr(debug_assertions, ignore = "takes long without optimization")]
    fn several_changes_of_longer_patterns_keep_a_conflict_too() {
        let tried = check_any_changes(&Numbering::up_to(3, 1));
        assert_eq!(tried, 1205 * 1200 + 1205 * 1205 * 3);
    }

    #[test]
    fn each_kind_of_change_can_make_a_conflict() {
        let delete = |read: &str, points: &str| {
            verdict::of(&pattern(read), Operation::Delete(&pattern(points))).witness
        };
        let insert = |read: &str, inserted: &str, points: &str| {
            let (points, inserted) = (pattern(points), chain(inserted));
            verdict::of(&pattern(read), Operation::Insert(&points, &inserted)).witness
        };
        assert_eq!([delete("a/b", "a/c"), delete("a/*", "a/c")], [0, 2]);
        assert_eq!(
            [insert("a/c", "c", "a/b"), insert("a//c", "c", "a/b")],
            [0, 2]
        );
        assert_eq!([delete("a/b", "a/c"), delete("a/b", "a/*")], [0, 2]);
        assert_eq!([delete("a/b/c", "a/c"), delete("a/b/c", "a//c")], [0, 3]);
        assert_eq!(
            [insert("a//d", "c", "a/b"), insert("a//d", "cd", "a/b")],
            [0, 2]
        );
    }
}
