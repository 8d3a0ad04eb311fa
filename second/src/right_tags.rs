//! Right texts of trees, all that there are to a length, each with the tree that it was made from.

use crate::made_texts::MadeTexts;
use crate::read_trees::Meaning;
use crate::tree::{Row, ROOT};
use std::slice;

/// An element: its label, and the elements inside it.
#[derive(Clone)]
struct Element {
    label: u16,
    inside: Vec<Element>,
}

/// A text with what it was made from.
type Made<T> = (String, T);

/// Every right text to a length, with the rows of its tree.
pub struct RightTags {
    texts: MadeTexts<Vec<Row>>,
}

impl RightTags {
    /// Every right text with labels of these digits that answers for texts of at most so many bytes.
    pub fn over(digits: &[u8], most: usize) -> RightTags {
        let roots = elements(&labels(digits), most + missing(most));
        let mut texts = MadeTexts::default();
        texts.extend(roots.map(|(text, root)| (text.into_bytes(), rows_of(&root))));
        RightTags { texts }
    }

    /// What a text means.
    pub fn meaning(&self, text: &[u8]) -> Meaning {
        self.texts.find(text).cloned()
    }
}

/// A start of at most so many bytes that some right text has becomes one with at most this many more. An
/// open start tag has at least 4 bytes, and its end tag one more; `<n1/>` is the most for the tag that comes next.
fn missing(most: usize) -> usize {
    most + most / 4 + 5
}

/// The labels of these digits.
fn labels(digits: &[u8]) -> Vec<u16> {
    let made = |label: &u16| label.to_string().bytes().all(|d| digits.contains(&d));
    (1..=u16::MAX).filter(made).collect()
}

/// Every element of at most so many bytes.
fn elements(labels: &[u16], most: usize) -> impl Iterator<Item = Made<Element>> {
    let (mut single, mut beside) = (Vec::new(), Vec::new());
    for bytes in 0..=most {
        single.push(elements_of(bytes, labels, &beside));
        beside.push(elements_beside(bytes, &single, &beside));
    }
    single.into_iter().flatten()
}

/// Every element of so many bytes, by the elements beside each other of every number of bytes below.
fn elements_of(
    bytes: usize,
    labels: &[u16],
    beside: &[Vec<Made<Vec<Element>>>],
) -> Vec<Made<Element>> {
    let mut made = Vec::new();
    for &label in labels {
        let (short, inside) = (format!("<n{label}/>"), Vec::new());
        if short.len() == bytes {
            made.push((short, Element { label, inside }));
        }
        let (start, end) = (format!("<n{label}>"), format!("</n{label}>"));
        let Some(left) = bytes.checked_sub(start.len() + end.len()) else {
            continue;
        };
        made.extend(beside[left].iter().map(|(text, inside)| {
            let inside = inside.clone();
            (format!("{start}{text}{end}"), Element { label, inside })
        }));
    }
    made
}

/// All elements beside each other that have so many bytes together, by the first of them and those behind it.
fn elements_beside(
    bytes: usize,
    single: &[Vec<Made<Element>>],
    beside: &[Vec<Made<Vec<Element>>>],
) -> Vec<Made<Vec<Element>>> {
    if bytes == 0 {
        return vec![(String::new(), Vec::new())];
    }
    let mut made = Vec::new();
    for length in 1..=bytes {
        for (text, first) in &single[length] {
            made.extend(beside[bytes - length].iter().map(|(texts, others)| {
                let all = [slice::from_ref(first), others].concat();
                (format!("{text}{texts}"), all)
            }));
        }
    }
    made
}

/// The rows of a tree, nodes in the order of their start tags.
fn rows_of(root: &Element) -> Vec<Row> {
    let mut rows = Vec::new();
    hang(root, ROOT, &mut rows);
    rows
}

/// Hangs an element below a node, behind all nodes so far.
fn hang(element: &Element, parent: usize, rows: &mut Vec<Row>) {
    let (number, label) = (rows.len(), element.label);
    rows.push(Row { parent, label });
    for below in &element.inside {
        hang(below, number, rows);
    }
}

#[cfg(test)]
mod tests {
    use super::*;
    use crate::rows::rows_to;
    use crate::tree::words_of;

    #[test]
    fn a_right_text_has_its_tree() {
        let right = RightTags::over(b"12", 7);
        let words = |text: &[u8]| right.meaning(text).map(|rows| words_of(&rows));
        assert_eq!(words(b"<n1/>"), Ok(vec![0, 1]));
        assert_eq!(words(b"<n1></n1>"), Ok(vec![0, 1]));
        assert_eq!(words(b"<n12><n2/></n12>"), Ok(vec![0, 12, 0, 2]));
    }

    #[test]
    fn the_place_of_a_wrong_text_is_its_longest_start() {
        let right = RightTags::over(b"12", 10);
        let place = |text: &[u8]| right.meaning(text).unwrap_err();
        assert_eq!(place(b""), 0);
        assert_eq!(place(b"<n1"), 3);
        assert_eq!(place(b"<n01/>"), 2);
        assert_eq!(place(b"</n1>"), 1);
        assert_eq!(place(b"<n1/><"), 5);
        assert_eq!(place(b"<n1/ >"), 4);
        assert_eq!(place(b"<n12></n1>"), 9);
        assert_eq!(place(b"<n1></n12>"), 8);
        assert_eq!(place(b"<n1></n2>"), 7);
    }

    #[test]
    fn bytes_further_past_the_bound_change_nothing() {
        let near = RightTags::over(b"1", 5);
        let far = RightTags::over(b"1", 10);
        for text in rows_to(b"</>n1", 5) {
            assert_eq!(near.meaning(&text), far.meaning(&text), "{text:?}");
        }
    }
}
