//! Table 14, large documents: each is mended, and what is left is mended once more.

use crate::document::Document;
use crate::mends::Tally;
use crate::tree::{words_of, Row};
use std::io::{self, Write};

/// How many nodes the documents have.
const SIZES: [usize; 2] = [4_096, 1_000];

/// A number for each node.
type ByNode = fn(usize) -> usize;

/// The forms by name: the parent of each node behind the root.
const FORMS: [(&str, ByNode); 3] = [
    ("chain", |v| v - 1),
    ("star", |_| 0),
    ("halves", |v| (v - 1) / 2),
];

/// The markings by name: the mark of each node.
const MARKINGS: [(&str, ByNode); 6] = [
    ("all", |_| 255),
    ("top", |v| usize::from(v == 1)),
    ("root", |v| usize::from(v == 0)),
    ("thirds", |v| v % 3),
    ("every", |v| (v * 7 + 3) % 256),
    ("fifths", |v| usize::from(v % 5 == 4)),
];

/// The label of every node.
const LABEL: u16 = 1;

/// The next identity.
const NEXT: u32 = 20_000;

/// Writes a line for each size, form and marking, which changes fastest; the number of mendings.
pub fn write(out: &mut dyn Write) -> io::Result<usize> {
    let mut calls = 0;
    for nodes in SIZES {
        for (form, parent) in FORMS {
            for (marking, mark) in MARKINGS {
                let tally = mended_twice(document(nodes, parent, mark));
                let (count, changes, digest) = (tally.calls, tally.changes, tally.digest.text());
                writeln!(
                    out,
                    "mend-large {nodes} {form} {marking} {count} {changes} {digest}"
                )?;
                calls += count;
            }
        }
    }
    Ok(calls)
}

/// Two mendings of a document; the digest takes each answer, all marks after it and the list.
fn mended_twice(mut document: Document) -> Tally {
    let mut tally = Tally::default();
    for _ in 0..2 {
        let room = 3 * document.used;
        let list = tally.mend(&mut document, room);
        tally.digest.take_all(&document.marks);
        tally.digest.take_all(&list);
    }
    tally
}

/// A document of so many nodes, all used, with no room behind them.
fn document(nodes: usize, parent: ByNode, mark: ByNode) -> Document {
    let row = |v: usize| Row {
        parent: if v == 0 { 0 } else { parent(v) },
        label: LABEL,
    };
    let table: Vec<Row> = (0..nodes).map(row).collect();
    Document {
        words: words_of(&table),
        marks: (0..nodes).map(|v| mark(v) as u8).collect(),
        used: nodes,
        ids: (0..nodes).map(|v| 3 * v as u32 + 1).collect(),
        next: NEXT,
    }
}

/// Every document of this part, for the tests of mending.
#[cfg(test)]
pub fn documents() -> impl Iterator<Item = Document> {
    SIZES.into_iter().flat_map(|nodes| {
        FORMS.into_iter().flat_map(move |(_, parent)| {
            MARKINGS
                .into_iter()
                .map(move |(_, mark)| document(nodes, parent, mark))
        })
    })
}

#[cfg(test)]
mod tests {
    use super::*;
    use crate::document_calls::{check, mend};

    #[test]
    fn the_second_mending_changes_nothing() {
        for mut document in documents() {
            let mut list = vec![0; 3 * document.used];
            mend(&mut document, &mut list).unwrap();
            assert_eq!(check(&document), Ok(()));
            assert_eq!(mend(&mut document, &mut []), Ok(0));
        }
    }

    #[test]
    fn one_mark_near_the_root_may_change_a_whole_chain() {
        let changes = |form: usize, marking: usize| {
            let document = document(1_000, FORMS[form].1, MARKINGS[marking].1);
            mended_twice(document).changes
        };
        let all = [0, 1, 2].map(|form| changes(form, 0));
        assert_eq!(all, [1_000, 1_000, 1_000]);
        let root = [0, 1, 2].map(|form| changes(form, 2));
        assert_eq!(root, [1, 1, 1]);
        assert_eq!(changes(0, 1), 998);
        assert_eq!(changes(1, 1), 0);
    }

    #[test]
    fn fifths_leave_a_part_of_every_form() {
        let removed = |form: usize| {
            let mut document = document(1_000, FORMS[form].1, MARKINGS[5].1);
            mend(&mut document, &mut [0; 3_000]).unwrap();
            document.marks.iter().filter(|&&mark| mark == 1).count()
        };
        assert_eq!([0, 1].map(removed), [996, 200]);
        assert!((201..996).contains(&removed(2)));
    }
}
