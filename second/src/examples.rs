//! The marked examples of document 01, P15's deep verdict as document 02 has
//! it, and short ways to write them down.

use crate::pattern::{Axis, Pattern, Step, WILDCARD};
use crate::tree::Row;
use crate::verdict::{self, Operation, Verdict};

/// The label of a name: a is 1, b is 2 and so on; `*` is the wildcard.
fn label(name: char) -> u16 {
    match name {
        '*' => WILDCARD,
        _ => name as u16 - 'a' as u16 + 1,
    }
}

/// A pattern from its text, with `/` for a child and `//` for a descendant.
pub fn pattern(text: &str) -> Pattern {
    let mut steps = Vec::new();
    let mut axis = Axis::Root;
    for sign in text.chars() {
        match (sign, axis) {
            ('/', Axis::Child) => axis = Axis::Descendant,
            ('/', _) => axis = Axis::Child,
            _ => {
                let label = label(sign);
                steps.push(Step { axis, label });
                axis = Axis::Root;
            }
        }
    }
    Pattern { steps }
}

/// The chain with these names from the root down.
pub fn chain(names: &str) -> Vec<Row> {
    let row = |(number, name): (usize, char)| Row {
        parent: number.saturating_sub(1),
        label: label(name),
    };
    names.chars().enumerate().map(row).collect()
}

/// The verdict on a read and a delete.
fn delete(read: &str, points: &str) -> Verdict {
    verdict::of(&pattern(read), Operation::Delete(&pattern(points)))
}

/// The verdict on a read and the insert of a chain.
fn insert(read: &str, inserted: &str, points: &str) -> Verdict {
    let inserted = chain(inserted);
    let points = pattern(points);
    verdict::of(&pattern(read), Operation::Insert(&points, &inserted))
}

#[test]
fn p1() {
    assert_eq!(insert("a//c", "c", "a/b").witness, 2);
}

#[test]
fn p2() {
    assert_eq!(insert("a//d", "c", "a/b").witness, 0);
}

#[test]
fn p3() {
    assert_eq!(insert("*/*/a", "c", "*/b").witness, 0);
}

#[test]
fn p4() {
    assert_eq!(delete("a//c", "a/b").witness, 3);
}

#[test]
fn p5() {
    assert_eq!(delete("a/b", "a//b").witness, 2);
}

#[test]
fn p6() {
    assert_eq!(delete("a", "a//*").witness, 0);
}

#[test]
fn p7() {
    let verdict = delete("a/b", "a/b/c");
    assert_eq!(verdict.witness, 0);
    assert!(verdict.deep);
}

#[test]
fn p8() {
    assert_eq!(delete("a/b", "b/c").witness, 0);
}

#[test]
fn p9() {
    assert_eq!(insert("*/*", "e", "*").witness, 1);
}

#[test]
fn p10() {
    assert_eq!(insert("a//c", "bc", "a/b").witness, 2);
}

#[test]
fn p11() {
    assert_eq!(insert("a/b/c", "bc", "a/b").witness, 0);
}

#[test]
fn p12() {
    assert_eq!(insert("a/c", "c", "a//b").witness, 0);
}

#[test]
fn p13() {
    assert_eq!(delete("a/*/b", "a/b//*").witness, 3);
}

#[test]
fn p14() {
    assert_eq!(delete("a//b//c", "a//d//e").witness, 5);
}

#[test]
fn p15() {
    let verdict = insert("a/b", "c", "a/b");
    assert_eq!(verdict.witness, 0);
    assert!(verdict.deep);
}

/// An update point at the read node, below it, above it and beside it.
#[test]
fn deep_looks_at_the_read_node_and_below() {
    let deep = |read, points| insert(read, "e", points).deep;
    assert!(deep("a", "a") && deep("a", "*") && deep("a/*", "a/b"));
    assert!(deep("a/b", "a/b/c") && deep("a", "a//b"));
    assert!(!deep("a/b", "a") && !deep("a/b/c", "a/b"));
    assert!(!deep("a", "b") && !deep("a/b", "a/c"));
}

/// The slots of document 01's listing: a delete, an insert, and three reads.
#[test]
fn the_listing() {
    let both = |read| {
        let first = delete(read, "a/b").witness > 0;
        let second = insert(read, "c", "a/b").witness > 0;
        (first, second)
    };
    assert_eq!(both("a//d"), (true, false));
    assert!(both("a//c").1);
    assert_eq!(both("a"), (false, false));
}
