//! Table 2: six digests for every small document.

use crate::counts::{Count, Counts};
use crate::digest::Digest;
use crate::document::Document;
use crate::numbering::{trees_of, Numbering, TREE_LABELS};
use crate::pattern::Pattern;
use crate::tree::{words_of, Row};
use std::io::{self, Write};

/// Documents have 1 to this many nodes.
pub const MOST_NODES: usize = 4;

/// Inserts are tried on documents of at most this many nodes.
const MOST_FOR_INSERT: usize = 3;

/// A document's tables are this many nodes longer than its used count.
const SPARE_NODES: usize = 4;

/// What stands in the mark row behind the used nodes.
const SPARE_MARK: u8 = 9;

/// What stands in the identity row behind the used nodes.
const SPARE_ID: u32 = 99_999;

/// The next identity is at, shortly behind or, for the last of these, shortly before one of these.
const NEXT: [u32; 4] = [24, 65_534, 2_147_483_646, u32::MAX];

/// How much has been run.
#[derive(Default)]
struct Tally {
    documents: usize,
    reads: usize,
    deletes: usize,
    inserts: usize,
    later_reads: usize,
    later_inserts: usize,
}

/// Writes table 2, a line a document.
pub fn write(numbering: &Numbering, out: &mut dyn Write) -> io::Result<Counts> {
    let mut tally = Tally::default();
    for document in (1..=MOST_NODES).flat_map(documents_of) {
        tally.documents += 1;
        let reads = reads(numbering, &document, &mut tally);
        let deletes = deletes(numbering, &document, &mut tally);
        let inserts = inserts(numbering, &document, &mut tally);
        let compaction = compaction(&document);
        let kept = kept(numbering, &document, &mut tally);
        let later = later(numbering, &document, &mut tally);
        let line = [reads, deletes, inserts, compaction, kept, later].map(|digest| digest.text());
        writeln!(out, "{}", line.join(" "))?;
    }
    Ok(vec![
        Count::new("documents", tally.documents),
        Count::new("reads", tally.reads),
        Count::new("deletes", tally.deletes),
        Count::new("inserts", tally.inserts),
        Count::new("compactions", tally.documents),
        Count::new("reads-after", tally.later_reads),
        Count::new("inserts-after", tally.later_inserts),
    ])
}

/// All documents of so many nodes in order: trees, then their sound markings.
pub fn documents_of(nodes: usize) -> impl Iterator<Item = Document> {
    trees_of(nodes, TREE_LABELS)
        .enumerate()
        .flat_map(|(code, table)| {
            markings(&table).map(move |marking| document(&table, code, marking))
        })
}

/// The sound markings of a tree in rising order; bit v is the mark of node v.
fn markings(table: &[Row]) -> impl Iterator<Item = usize> {
    let table = table.to_vec();
    (0..1usize << table.len()).filter(move |&marking| is_sound(&table, marking))
}

/// True when the root is present and nothing present is under a removed node.
fn is_sound(table: &[Row], marking: usize) -> bool {
    let removed = |v: usize| marking >> v & 1 == 1;
    let kept_together = |v: usize| removed(v) || !removed(table[v].parent);
    !removed(0) && (1..table.len()).all(kept_together)
}

/// The document of a tree with its code and a marking, with its spare room.
fn document(table: &[Row], code: usize, marking: usize) -> Document {
    let used = table.len();
    let mut words = words_of(table);
    words.resize(2 * (used + SPARE_NODES), 0);
    let mut marks: Vec<u8> = (0..used).map(|v| (marking >> v & 1) as u8).collect();
    marks.resize(used + SPARE_NODES, SPARE_MARK);
    let next = next_of(code, marking);
    let mut ids: Vec<u32> = (0..used).map(|v| id_of(next, marking, used - v)).collect();
    ids.resize(used + id_room(code, marking), SPARE_ID);
    Document {
        words,
        marks,
        used,
        ids,
        next,
    }
}

/// The next identity of a document.
fn next_of(code: usize, marking: usize) -> u32 {
    let turn = (code + marking) % NEXT.len();
    let further = (code % 5) as u32;
    match NEXT[turn] {
        u32::MAX => u32::MAX - further,
        near => near + further,
    }
}

/// The identity of the node that is so many before the end of the used ones, 1 for the last.
fn id_of(next: u32, marking: usize, back: usize) -> u32 {
    next - (back * (back + marking % 3)) as u32
}

/// How much longer than the used count the identity row is: as much as the others, or one less.
fn id_room(code: usize, marking: usize) -> usize {
    SPARE_NODES - (code + marking) / NEXT.len() % 2
}

/// The digest of every read of a document.
fn reads(numbering: &Numbering, document: &Document, tally: &mut Tally) -> Digest {
    let mut digest = Digest::default();
    for pattern in &numbering.patterns {
        tally.reads += 1;
        digest.take_all(&document.read(pattern));
    }
    digest
}

/// The digest of every delete on the unchanged document.
fn deletes(numbering: &Numbering, document: &Document, tally: &mut Tally) -> Digest {
    let mut digest = Digest::default();
    for pattern in &numbering.patterns {
        tally.deletes += 1;
        let mut changed = document.clone();
        match changed.delete(pattern) {
            Ok(removed) => {
                digest.take(removed);
                digest.take_all(&changed.marks);
            }
            Err(refusal) => digest.take_refusal(refusal),
        }
    }
    digest
}

/// The digest of every insert on the unchanged document; 0 for a large one.
fn inserts(numbering: &Numbering, document: &Document, tally: &mut Tally) -> Digest {
    let mut digest = Digest::default();
    if document.used > MOST_FOR_INSERT {
        return digest;
    }
    for pattern in &numbering.patterns {
        for inserted in &numbering.inserted {
            tally.inserts += 1;
            take_inserted(&mut digest, document, pattern, inserted);
        }
    }
    digest
}

/// Takes an insert's copies and all of the changed document.
fn take_insert(digest: &mut Digest, copies: usize, changed: &Document) {
    digest.take(copies);
    digest.take(changed.used);
    digest.take_id(changed.next);
    take_rows(digest, changed);
}

/// Takes all words, all marks and all identities of a document.
pub fn take_rows(digest: &mut Digest, document: &Document) {
    digest.take_all(&document.words);
    digest.take_all(&document.marks);
    digest.take_ids(&document.ids);
}

/// The digest of the compaction: the new used count, how many nodes it dropped, and all rows.
fn compaction(document: &Document) -> Digest {
    let mut digest = Digest::default();
    let mut changed = document.clone();
    let dropped = changed.compact();
    digest.take(changed.used);
    digest.take(dropped);
    take_rows(&mut digest, &changed);
    digest
}

/// The digest of the identities that every read selects, how many they are before each.
/// They are those of the document as it stands, which a compaction has to keep.
fn kept(numbering: &Numbering, document: &Document, tally: &mut Tally) -> Digest {
    let mut digest = Digest::default();
    for pattern in &numbering.patterns {
        tally.later_reads += 1;
        let ids = document.selected_ids(pattern);
        digest.take(ids.len());
        digest.take_ids(&ids);
    }
    digest
}

/// The digest of an insert by each pattern on the compacted document, the inserted trees taking turns.
fn later(numbering: &Numbering, document: &Document, tally: &mut Tally) -> Digest {
    let mut digest = Digest::default();
    let mut compacted = document.clone();
    compacted.compact();
    let turns = numbering.inserted.iter().cycle();
    for (pattern, inserted) in numbering.patterns.iter().zip(turns) {
        tally.later_inserts += 1;
        take_inserted(&mut digest, &compacted, pattern, inserted);
    }
    digest
}

/// Takes what an insert into a copy of the document answers, with all rows after it.
fn take_inserted(digest: &mut Digest, document: &Document, pattern: &Pattern, inserted: &[Row]) {
    let mut changed = document.clone();
    match changed.insert(pattern, inserted) {
        Ok(copies) => take_insert(digest, copies, &changed),
        Err(refusal) => digest.take_refusal(refusal),
    }
}

#[cfg(test)]
mod tests {
    use super::*;
    use crate::examples::chain;
    use crate::refusal::refused;

    #[test]
    fn a_chain_is_removed_from_below() {
        let found: Vec<usize> = markings(&chain("abc")).collect();
        assert_eq!(found, [0b000, 0b100, 0b110]);
    }

    #[test]
    fn spare_room_is_filled_as_described() {
        let document = document(&chain("ab"), 3, 0b10);
        assert_eq!(document.words, [0, 1, 0, 2, 0, 0, 0, 0, 0, 0, 0, 0]);
        assert_eq!(document.marks, [0, 1, 9, 9, 9, 9]);
        assert_eq!(document.used, 2);
        assert_eq!(document.next, 65_537);
        let spare = 99_999;
        assert_eq!(document.ids, [65_529, 65_534, spare, spare, spare]);
    }

    #[test]
    fn an_insert_is_refused_for_each_row_and_for_identities() {
        let numbering = Numbering::full();
        let (mut by_ids, mut by_row) = (0, 0);
        for document in (1..=MOST_FOR_INSERT).flat_map(documents_of) {
            let mut longer = document.clone();
            longer.ids.resize(document.marks.len(), SPARE_ID);
            for pattern in &numbering.patterns {
                for inserted in &numbering.inserted {
                    let answer = document.clone().insert(pattern, inserted);
                    by_ids += usize::from(answer == Err(refused(16, 5, 0)));
                    let fits = longer.clone().insert(pattern, inserted).is_ok();
                    by_row += usize::from(answer == Err(refused(11, 4, 0)) && fits);
                }
            }
        }
        assert!(by_ids > 500 && by_row > 500, "{by_ids} {by_row}");
    }
}
