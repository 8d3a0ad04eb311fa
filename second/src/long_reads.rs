//! Table 7: reads of 1 to 255 steps on documents of 1,024 nodes, drawn at random,
//! and compactions of these documents.

use crate::carrying::answer;
use crate::counts::{Count, Counts};
use crate::digest::Digest;
use crate::document::Document;
use crate::document_calls::insert;
use crate::documents::take_rows;
use crate::draws::Draws;
use crate::pattern::{Axis, Pattern, Step, WILDCARD};
use crate::tree::{Node, Row, Tree, ROOT};
use std::io::{self, Write};

/// How many steps the patterns have.
const LENGTHS: [usize; 17] = [
    1, 2, 31, 32, 33, 62, 63, 64, 65, 127, 128, 129, 191, 192, 193, 254, 255,
];

/// How many documents there are.
const DOCUMENTS: usize = 8;

/// How many patterns of one length a document is read with.
const PATTERNS: usize = 64;

/// The nodes of a document.
const NODES: usize = 1_024;

/// The labels of the nodes, which have bytes in common.
pub const LABELS: [u16; 6] = [0x0001, 0x0100, 0x0101, 0x0201, 0xFF01, 0xFFFF];

/// From this document on there are removed nodes.
const FIRST_MARKED: usize = 4;

/// They begin at this node.
const FIRST_REMOVED: usize = 512;

/// From this document on, up to `COMPACTED`, documents are only compacted. They are bushy.
const FIRST_BUSHY: usize = 8;

/// How many documents are compacted.
const COMPACTED: usize = 12;

/// After a compaction every so manieth of the patterns is read with again.
const KEPT_EVERY: usize = 8;

/// From one identity to that of the next node.
const ID_DISTANCE: u32 = 4_000_000;

/// What is inserted at the root before the compaction and after it.
const INSERTED: [u16; 6] = [0, 1, 0, 256, 1, 257];

/// What the reads by patterns of one length answer.
#[derive(Default)]
struct Tally {
    reads: usize,
    selected: usize,
    digest: Digest,
}

/// Writes table 7, a line for each number of steps.
pub fn write(out: &mut dyn Write) -> io::Result<Counts> {
    let documents: Vec<Tree> = (0..DOCUMENTS).map(document).collect();
    let mut reads = 0;
    for steps in LENGTHS {
        let tally = tally_of(&documents, steps);
        let digest = tally.digest.text();
        writeln!(
            out,
            "reads {steps} {} {} {digest}",
            tally.reads, tally.selected
        )?;
        reads += tally.reads;
    }
    let mut kept = 0;
    for steps in LENGTHS {
        let tally = kept_of(&documents, steps);
        let digest = tally.digest.text();
        let (reads, selected) = (tally.reads, tally.selected);
        writeln!(out, "kept {steps} {reads} {selected} {digest}")?;
        kept += reads;
    }
    for d in 0..COMPACTED {
        write_compaction(&whole(&document(d), d), d, out)?;
    }
    Ok(vec![
        Count::new("long-reads", reads),
        Count::new("long-reads-after", kept),
        Count::new("large-compactions", COMPACTED),
    ])
}

/// Every document read again with some of its patterns of so many steps: the
/// identities that these select, which are those of before the compaction.
fn kept_of(documents: &[Tree], steps: usize) -> Tally {
    let mut tally = Tally::default();
    for (d, tree) in documents.iter().enumerate() {
        for k in (0..PATTERNS).step_by(KEPT_EVERY) {
            let row = answer(tree, &pattern(tree, steps, d, k));
            let selected = (0..NODES).filter(|&v| row[v] == 1);
            let ids: Vec<u32> = selected.map(|v| id(v, d)).collect();
            tally.reads += 1;
            tally.selected += ids.len();
            tally.digest.take(ids.len());
            tally.digest.take_ids(&ids);
        }
    }
    tally
}

/// The identity of a node of document d.
fn id(node: usize, d: usize) -> u32 {
    ID_DISTANCE * node as u32 + d as u32
}

/// A document as its rows, without room.
fn whole(tree: &Tree, d: usize) -> Document {
    let words = |node: &Node| [node.parent.unwrap_or(ROOT) as u16, node.label];
    Document {
        words: tree.nodes().iter().flat_map(words).collect(),
        marks: tree.nodes().iter().map(|n| u8::from(n.removed)).collect(),
        used: NODES,
        ids: (0..NODES).map(|v| id(v, d)).collect(),
        next: id(NODES, d),
    }
}

/// Writes the line of a compaction, then that of an insert at the root before it and after it.
fn write_compaction(document: &Document, d: usize, out: &mut dyn Write) -> io::Result<()> {
    let mut compacted = document.clone();
    let dropped = compacted.compact();
    let digest = rows_digest(&compacted);
    writeln!(out, "compaction {d} {} {dropped} {digest}", compacted.used)?;
    let before = grown(document);
    let after = grown(&compacted);
    writeln!(out, "grown {d} {before} {after}")
}

/// The digest of all rows.
fn rows_digest(document: &Document) -> String {
    let mut digest = Digest::default();
    take_rows(&mut digest, document);
    digest.text()
}

/// The refusal's number of an insert at the root, 0 for none, the used count, the next
/// identity and the digest of all rows after it.
fn grown(document: &Document) -> String {
    let mut changed = document.clone();
    let answer = insert(&mut changed, &[0, WILDCARD], &INSERTED);
    let refusal = answer.map_or_else(|refusal| refusal.number, |_| 0);
    let digest = rows_digest(&changed);
    format!("{refusal} {} {} {digest}", changed.used, changed.next)
}

/// Every document read with its patterns of so many steps.
fn tally_of(documents: &[Tree], steps: usize) -> Tally {
    let mut tally = Tally::default();
    for (d, tree) in documents.iter().enumerate() {
        for k in 0..PATTERNS {
            let row = answer(tree, &pattern(tree, steps, d, k));
            tally.reads += 1;
            tally.selected += row.iter().filter(|&&byte| byte == 1).count();
            tally.digest.take_all(&row);
        }
    }
    tally
}

/// Document d.
fn document(d: usize) -> Tree {
    let mut draws = Draws::from_state(d);
    let mut table = vec![Row {
        parent: ROOT,
        label: LABELS[0],
    }];
    let mut marked = Vec::new();
    for v in 1..NODES {
        let parent = match d >= FIRST_BUSHY {
            true => draws.below(v),
            false => (v - 1).saturating_sub(draws.below(3)),
        };
        let label = LABELS[draws.below(LABELS.len())];
        table.push(Row { parent, label });
        let removed = match d {
            FIRST_BUSHY.. => draws.below(8) == 0,
            _ => draws.below(32) == 0 && d >= FIRST_MARKED && v >= FIRST_REMOVED,
        };
        if removed {
            marked.push(v);
        }
    }
    let mut tree = Tree::linked(&table);
    for v in marked {
        tree.remove(v);
    }
    tree
}

/// Pattern k of so many steps for document d. It is drawn along a way up from a
/// node; one step may then have a label of its own.
fn pattern(tree: &Tree, size: usize, d: usize, k: usize) -> Pattern {
    let mut draws = Draws::from_state(1000 * size + 100 * d + k);
    let strange = (PATTERNS * d + k) % (2 * size);
    let node = 2 * size + draws.below(NODES - 2 * size);
    along(tree, size, strange, node, &mut draws)
}

/// A pattern of so many steps along a way up from a node, the last step drawn
/// first. The step `strange`, if there is one, has a label of its own.
pub fn along(tree: &Tree, size: usize, strange: usize, node: usize, draws: &mut Draws) -> Pattern {
    let mut node = node;
    let mut steps = Vec::with_capacity(size);
    for step in (0..size).rev() {
        let choice = draws.below(LABELS.len());
        let far = draws.below(4) == 0;
        let label = match choice {
            _ if step == strange => LABELS[choice],
            0 | 1 => tree.node(node).label,
            _ => WILDCARD,
        };
        let parent = above(tree, node);
        let (axis, next) = match step {
            0 => (Axis::Root, ROOT),
            1 if parent == ROOT => (Axis::Child, ROOT),
            1 => (Axis::Descendant, ROOT),
            _ if far => (Axis::Descendant, above(tree, parent)),
            _ => (Axis::Child, parent),
        };
        steps.push(Step { axis, label });
        node = next;
    }
    steps.reverse();
    Pattern { steps }
}

/// The parent of a node, and the root itself for the root.
fn above(tree: &Tree, node: usize) -> usize {
    tree.node(node).parent.unwrap_or(ROOT)
}

#[cfg(test)]
mod tests {
    use super::*;
    use std::collections::HashSet;

    #[test]
    fn each_length_selects_nodes_and_has_a_digest_of_its_own() {
        let documents: Vec<Tree> = (0..DOCUMENTS).map(document).collect();
        let tallies = LENGTHS.map(|steps| tally_of(&documents, steps));
        assert!(tallies.iter().all(|tally| tally.selected > 0));
        let digests: HashSet<String> = tallies.iter().map(|tally| tally.digest.text()).collect();
        assert_eq!(digests.len(), LENGTHS.len());
    }

    #[test]
    fn of_the_longest_reads_some_select_and_some_do_not() {
        let selects = |d: usize, k: usize| {
            let tree = document(d);
            answer(&tree, &pattern(&tree, 255, d, k)).contains(&1)
        };
        let reads = (0..DOCUMENTS).flat_map(|d| (0..PATTERNS).map(move |k| (d, k)));
        let some = reads.filter(|&(d, k)| selects(d, k)).count();
        assert!((64..=448).contains(&some), "{some} of 512");
    }

    #[test]
    fn the_later_documents_have_removed_nodes() {
        for d in 0..DOCUMENTS {
            let removed = document(d).nodes().iter().any(|node| node.removed);
            assert_eq!(removed, d >= FIRST_MARKED);
        }
    }

    #[test]
    fn a_compaction_makes_room_where_nodes_were_removed() {
        for d in 0..COMPACTED {
            let document = whole(&document(d), d);
            let mut compacted = document.clone();
            let dropped = compacted.compact();
            assert_eq!(dropped > 0, d >= FIRST_MARKED);
            assert!(grown(&document).starts_with("11 1024 "));
            let refused = grown(&compacted).starts_with("11 ");
            assert_eq!(refused, d < FIRST_MARKED);
        }
    }

    #[test]
    fn in_bushy_documents_nodes_are_dropped_from_between() {
        for d in FIRST_BUSHY..COMPACTED {
            let document = whole(&document(d), d);
            let changes = document.marks.windows(2).filter(|two| two[0] != two[1]);
            assert!(changes.count() > 200);
        }
    }

    #[test]
    fn reading_after_the_compaction_selects_the_same_identities() {
        for d in 0..DOCUMENTS {
            let tree = document(d);
            let mut compacted = whole(&tree, d);
            compacted.compact();
            let ids = |row: Vec<u8>, ids: &[u32]| -> Vec<u32> {
                let both = row.iter().zip(ids);
                both.filter(|(&byte, _)| byte == 1)
                    .map(|(_, &id)| id)
                    .collect()
            };
            for k in 0..PATTERNS {
                let pattern = pattern(&tree, 33, d, k);
                let before = ids(answer(&tree, &pattern), &whole(&tree, d).ids);
                let after = ids(answer(&compacted.linked(), &pattern), &compacted.ids);
                assert_eq!(before, after);
            }
        }
    }
}
