//! A tree as nested tags: each node's first child and next sibling, the bytes counted, then the nodes written one inside the other.

use super::{checks, first, label, Counted, TREE_NODES};

/// Each node's first child and next sibling; 0 where there is none.
struct Links {
    first: [u16; TREE_NODES],
    next: [u16; TREE_NODES],
}

impl Links {
    fn of(tree: &[u16]) -> Links {
        let mut links = Links {
            first: [0; TREE_NODES],
            next: [0; TREE_NODES],
        };
        for v in (1..tree.len() / 2).rev() {
            let parent = first(tree, v);
            links.next[v] = links.first[parent];
            links.first[parent] = v as u16;
        }
        links
    }
}

/// How many digits a label has.
fn digits(label: u16) -> usize {
    match label {
        0..=9 => 1,
        10..=99 => 2,
        100..=999 => 3,
        1000..=9999 => 4,
        _ => 5,
    }
}

/// How many bytes the tags take.
fn bytes(tree: &[u16], links: &Links) -> usize {
    let own = |v: usize| match (links.first[v], digits(label(tree, v))) {
        (0, digits) => 4 + digits,
        (_, digits) => 7 + 2 * digits,
    };
    (0..tree.len() / 2).map(own).sum()
}

/// Puts bytes at a place; the place behind them.
fn put(text: &mut [u8], at: usize, bytes: &[u8]) -> usize {
    let end = at + bytes.len();
    text[at..end].copy_from_slice(bytes);
    end
}

/// Puts a label's digits at a place; the place behind them.
fn put_label(text: &mut [u8], at: usize, label: u16) -> usize {
    let end = at + digits(label);
    let mut rest = label;
    for byte in text[at..end].iter_mut().rev() {
        *byte = b'0' + (rest % 10) as u8;
        rest /= 10;
    }
    end
}

/// Puts a node at a place, with all that is below it; the place behind it.
fn put_node(tree: &[u16], links: &Links, v: usize, text: &mut [u8], at: usize) -> usize {
    let name = label(tree, v);
    let at = put(text, at, b"<n");
    let at = put_label(text, at, name);
    let mut child = usize::from(links.first[v]);
    if child == 0 {
        return put(text, at, b"/>");
    }
    let mut at = put(text, at, b">");
    while child != 0 {
        at = put_node(tree, links, child, text, at);
        child = usize::from(links.next[child]);
    }
    let at = put(text, at, b"</n");
    let at = put_label(text, at, name);
    put(text, at, b">")
}

/// Writes a tree as tags; the number of bytes.
pub fn write_tree(tree: &[u16], text: &mut [u8]) -> Counted {
    checks::tree(tree)?;
    let links = Links::of(tree);
    if text.len() < bytes(tree, &links) {
        return Err(7);
    }
    Ok(put_node(tree, &links, 0, text, 0))
}
