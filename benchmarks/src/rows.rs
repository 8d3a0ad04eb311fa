//! The rows at full size.

use crate::documents::{read, Document, Read};
use crate::inputs::{batch, chain, chain_to, depth, descending, descending_to, random_tree};
use crate::measure::{fastest, text};
use crate::{peer, proved};
use std::hint::black_box;

/// Labels of the trees that are written as tags.
pub const LABELS: usize = 65535;

/// Room for any witness.
pub const WITNESS: usize = 1018;

/// A row's name and its times: the library's, the peer's and, where there is one, libxml2's.
fn print_row(name: &str, times: &[f64]) {
    let ratio = times[0] / times[1];
    println!(
        "| {name} | {} | {} | {ratio:.2} | {} |",
        text(times[0]),
        text(times[1]),
        beside(times.get(2), times[0])
    );
}

/// libxml2's time, and how many times ours it is; nothing where it gave no answer.
pub fn beside(time: Option<&f64>, ours: f64) -> String {
    match time {
        Some(time) => format!("{} | {:.0}", text(*time), time / ours),
        None => "– | –".to_string(),
    }
}

/// A delete verdict of so many steps each, whose witness is as long as the bound.
pub fn delete_verdict(steps: usize) -> Vec<f64> {
    let (read, update) = (descending(steps, 1, 2), descending(steps, 1, 3));
    let (mut a, mut b) = ([0; WITNESS], [0; WITNESS]);
    let found = proved::delete_verdict(&read, &update, &mut a);
    assert_eq!(found, peer::verdict::delete_verdict(&read, &update, &mut b));
    assert_eq!((found, a), (Ok(2 * steps - 1), b));
    let mut ours = || {
        let _ = black_box(proved::delete_verdict(black_box(&read), &update, &mut a));
    };
    let mut theirs = || {
        let _ = black_box(peer::verdict::delete_verdict(black_box(&read), &update, &mut b));
    };
    fastest(&mut [&mut ours, &mut theirs])
}

/// An insert verdict of so many steps each and an inserted tree of so many nodes.
pub fn insert_verdict(steps: usize, nodes: usize) -> Vec<f64> {
    let (read, update) = (descending(steps, 1, 2), descending(steps, 1, 3));
    let tree = random_tree(nodes, 4);
    let (mut a, mut b) = ([0; WITNESS], [0; WITNESS]);
    let found = proved::insert_verdict(&read, &update, &tree, &mut a);
    assert_eq!(found, peer::verdict::insert_verdict(&read, &update, &tree, &mut b));
    assert_eq!(a, b);
    let mut ours = || {
        let _ = black_box(proved::insert_verdict(black_box(&read), &update, &tree, &mut a));
    };
    let mut theirs = || {
        let _ = black_box(peer::verdict::insert_verdict(black_box(&read), &update, &tree, &mut b));
    };
    fastest(&mut [&mut ours, &mut theirs])
}

/// A delete on a proposed chain of so many nodes, both patterns of so many steps. It removes the last node alone; the read
/// selects that, or only nodes before it.
pub fn delete_evidence(steps: usize, nodes: usize, shown: bool) -> Vec<f64> {
    let read = descending_to(steps, 1, 0, if shown { 0 } else { 2 });
    let update = descending_to(steps, 1, 0, 3);
    let proposed = chain_to(nodes, 3);
    let found = proved::delete_evidence(&read, &update, &proposed);
    assert_eq!(found, peer::evidence::delete_evidence(&read, &update, &proposed));
    assert_eq!(found, Ok(if shown { nodes - 1 } else { 0 }));
    let mut ours = || {
        let _ = black_box(proved::delete_evidence(black_box(&read), &update, &proposed));
    };
    let mut theirs = || {
        let _ = black_box(peer::evidence::delete_evidence(black_box(&read), &update, &proposed));
    };
    fastest(&mut [&mut ours, &mut theirs])
}

/// An insert of a chain of so many nodes at every node below the root of a proposed chain of as many, and a read of so many steps.
/// It selects the last node of the last copy alone, or none: then the proposed chain's last node has another name.
pub fn insert_evidence(steps: usize, nodes: usize, shown: bool) -> Vec<f64> {
    let mut read = descending_to(steps, 1, 0, 4);
    read[3] = 3;
    let update = descending(2, 1, 0);
    let (tree, proposed) = (chain_to(nodes, 4), chain_to(nodes, if shown { 3 } else { 2 }));
    let found = proved::insert_evidence(&read, &update, &tree, &proposed);
    assert_eq!(found, peer::evidence::insert_evidence(&read, &update, &tree, &proposed));
    assert_eq!(found, Ok(if shown { nodes * nodes - 1 } else { 0 }));
    let mut ours = || {
        let _ = black_box(proved::insert_evidence(black_box(&read), &update, &tree, &proposed));
    };
    let mut theirs = || {
        let _ = black_box(peer::evidence::insert_evidence(
            black_box(&read),
            &update,
            &tree,
            &proposed,
        ));
    };
    fastest(&mut [&mut ours, &mut theirs])
}

/// A plan in a mode of so many frames, half updates and half reads, of so many steps.
pub fn plan(mode: usize, inserts: bool, frames: usize, steps: usize) -> Vec<f64> {
    let words = batch(inserts, frames, steps);
    let (mut a, mut b) = (vec![0; frames], vec![0; frames]);
    assert_eq!(proved::plan(mode, &words, &mut a), Ok(frames));
    assert_eq!(peer::plan::plan(mode, &words, &mut b), Ok(frames));
    assert_eq!(a, b);
    let mut ours = || {
        let _ = black_box(proved::plan(mode, black_box(&words), &mut a));
    };
    let mut theirs = || {
        let _ = black_box(peer::plan::plan(mode, black_box(&words), &mut b));
    };
    fastest(&mut [&mut ours, &mut theirs])
}

/// A read of a document, beside the peer and libxml2.
pub fn read_document(document: &Document, read: &Read) -> Vec<f64> {
    let Document { rows, marks, used, .. } = document;
    let (mut a, mut b) = (vec![2; *used], vec![2; *used]);
    assert_eq!(proved::read(&read.words, rows, marks, *used, &mut a), Ok(0));
    assert_eq!(
        peer::read::read(&read.words, rows, marks, *used, &proved::IDENTITIES, &mut b),
        Ok(0)
    );
    assert_eq!(a, b);
    let mut times = {
        let mut ours = || {
            let _ = black_box(proved::read(black_box(&read.words), rows, marks, *used, &mut a));
        };
        let mut theirs = || {
            let _ = black_box(peer::read::read(
                black_box(&read.words),
                rows,
                marks,
                *used,
                &proved::IDENTITIES,
                &mut b,
            ));
        };
        fastest(&mut [&mut ours, &mut theirs])
    };
    times.extend(xpath(document, read, &a));
    times
}

/// The rows of a document that a call works on, again and again.
struct Copied {
    rows: Vec<u16>,
    marks: Vec<u8>,
    ids: Vec<u32>,
}

impl Copied {
    fn of(document: &Document) -> Copied {
        Copied {
            rows: document.rows.clone(),
            marks: document.marks.clone(),
            ids: proved::IDENTITIES[..document.used].to_vec(),
        }
    }

    /// The document as it was.
    fn restore(&mut self, document: &Document) {
        self.rows.copy_from_slice(&document.rows);
        self.marks.copy_from_slice(&document.marks);
        self.ids.copy_from_slice(&proved::IDENTITIES[..document.used]);
    }
}

/// A compaction of a document, which is copied anew before each.
pub fn compact(document: &Document) -> Vec<f64> {
    let used = document.used;
    let (mut a, mut b) = (Copied::of(document), Copied::of(document));
    let found = proved::compact(&mut a.rows, &mut a.marks, used, &mut a.ids, used as u32);
    assert_eq!(
        found,
        peer::compact::compact(&mut b.rows, &mut b.marks, used, &mut b.ids, used as u32)
    );
    assert_eq!((&a.rows, &a.marks, &a.ids), (&b.rows, &b.marks, &b.ids));
    let mut ours = || {
        a.restore(document);
        let _ = black_box(proved::compact(
            &mut a.rows,
            &mut a.marks,
            used,
            &mut a.ids,
            used as u32,
        ));
    };
    let mut theirs = || {
        b.restore(document);
        let _ = black_box(peer::compact::compact(
            &mut b.rows,
            &mut b.marks,
            used,
            &mut b.ids,
            used as u32,
        ));
    };
    fastest(&mut [&mut ours, &mut theirs])
}

/// A mending of a document, which is copied anew before each.
pub fn mend(document: &Document) -> Vec<f64> {
    let used = document.used;
    let (mut a, mut b) = (Copied::of(document), Copied::of(document));
    let (mut a_list, mut b_list) = (vec![0; 3 * used], vec![0; 3 * used]);
    let found = proved::mend(&a.rows, &mut a.marks, used, &a.ids, used as u32, &mut a_list);
    assert_eq!(
        found,
        peer::mend::mend(&b.rows, &mut b.marks, used, &b.ids, used as u32, &mut b_list)
    );
    assert_eq!((&a.marks, &a_list), (&b.marks, &b_list));
    let mut ours = || {
        a.restore(document);
        let _ = black_box(proved::mend(
            &a.rows,
            &mut a.marks,
            used,
            &a.ids,
            used as u32,
            &mut a_list,
        ));
    };
    let mut theirs = || {
        b.restore(document);
        let _ = black_box(peer::mend::mend(
            &b.rows,
            &mut b.marks,
            used,
            &b.ids,
            used as u32,
            &mut b_list,
        ));
    };
    fastest(&mut [&mut ours, &mut theirs])
}

/// libxml2's time for a read that selects these nodes, where it is built in, the document is whole and the read has
/// a text.
pub fn xpath(document: &Document, read: &Read, selected: &[u8]) -> Option<f64> {
    if !document.whole() {
        return None;
    }
    read.text
        .as_ref()
        .and_then(|text| xpath_time(&document.rows, text, selected))
}

/// libxml2's time for a path that selects these nodes.
#[cfg(feature = "libxml2")]
fn xpath_time(rows: &[u16], text: &str, selected: &[u8]) -> Option<f64> {
    let tree = crate::xpath::Tree::of(rows);
    let path = crate::xpath::Path::of(text);
    if !crate::patience::answers(rows, text) {
        return None;
    }
    assert_eq!(tree.selected(&path), selected);
    let mut xpath = || {
        black_box(tree.count(black_box(&path)));
    };
    fastest(&mut [&mut xpath]).pop()
}

/// Without libxml2 there is none.
#[cfg(not(feature = "libxml2"))]
fn xpath_time(_: &[u16], _: &str, _: &[u8]) -> Option<f64> {
    None
}

/// A tree written as tags, beside the peer and libxml2.
pub fn write_tree(tree: &[u16]) -> Vec<f64> {
    let room = 17 * tree.len() / 2;
    let (mut a, mut b) = (vec![0; room], vec![0; room]);
    let bytes = proved::write_tree(tree, &mut a).expect("the tree is written");
    assert_eq!(peer::tags::write_tree(tree, &mut b), Ok(bytes));
    assert_eq!(a, b);
    let text = a[..bytes].to_vec();
    let mut times = {
        let mut ours = || {
            let _ = black_box(proved::write_tree(black_box(tree), &mut a));
        };
        let mut theirs = || {
            let _ = black_box(peer::tags::write_tree(black_box(tree), &mut b));
        };
        fastest(&mut [&mut ours, &mut theirs])
    };
    times.extend(tags_time(tree, &text));
    times
}

/// libxml2's time to write the same text of its own tree.
#[cfg(feature = "libxml2")]
fn tags_time(rows: &[u16], text: &[u8]) -> Option<f64> {
    let tree = crate::xpath::Tree::of(rows);
    let mut tags = crate::xpath::Tags::with_room(2 * text.len());
    assert_eq!(tags.of(&tree), text);
    let mut dump = || {
        black_box(tags.of(black_box(&tree)));
    };
    fastest(&mut [&mut dump]).pop()
}

/// Without libxml2 there is none.
#[cfg(not(feature = "libxml2"))]
fn tags_time(_: &[u16], _: &[u8]) -> Option<f64> {
    None
}

/// The tags of a tree.
fn tags_of(tree: &[u16]) -> Vec<u8> {
    let mut text = vec![0; 17 * tree.len() / 2];
    let bytes = proved::write_tree(tree, &mut text).expect("the tree is written");
    text.truncate(bytes);
    text
}

/// A tree read from tags, beside the peer and libxml2.
pub fn read_tree(tree: &[u16]) -> Vec<f64> {
    let text = tags_of(tree);
    let mut times = read_tags(&text);
    times.extend(parsed_time(&text));
    times
}

/// A text read as tags, beside the peer.
fn read_tags(text: &[u8]) -> Vec<f64> {
    let (mut a, mut b) = ([0; 2 * peer::TREE_NODES], [0; 2 * peer::TREE_NODES]);
    assert_eq!(proved::read_tree(text, &mut a), peer::tags_in::read_tree(text, &mut b));
    assert_eq!(a, b);
    let mut ours = || {
        let _ = black_box(proved::read_tree(black_box(text), &mut a));
    };
    let mut theirs = || {
        let _ = black_box(peer::tags_in::read_tree(black_box(text), &mut b));
    };
    fastest(&mut [&mut ours, &mut theirs])
}

/// A chain of so many levels, more than a tree may have: what reading it takes.
pub fn read_deep(levels: usize) -> Vec<f64> {
    let mut text = b"<n1>".repeat(levels);
    text.extend(b"</n1>".repeat(levels));
    read_tags(&text)
}

/// libxml2's time to read the same text into a document, and to free that.
#[cfg(feature = "libxml2")]
fn parsed_time(text: &[u8]) -> Option<f64> {
    use crate::xpath::{Parsed, Tags};
    let mut tags = Tags::with_room(2 * text.len());
    assert_eq!(tags.of_read(&Parsed::of(text)), text);
    let mut parse = || {
        black_box(Parsed::of(black_box(text)));
    };
    fastest(&mut [&mut parse]).pop()
}

/// Without libxml2 there is none.
#[cfg(not(feature = "libxml2"))]
fn parsed_time(_: &[u8]) -> Option<f64> {
    None
}

/// The reads that are timed.
pub fn reads() -> Vec<Read> {
    vec![
        read(&[(0, 1), (2, 2)]),
        read(&[(0, 1), (2, 2), (1, 0), (2, 3)]),
        read(&[(0, 1), (2, 2), (2, 3), (2, 4), (1, 1)]),
    ]
}

/// The table.
pub fn print() {
    println!("| what | proved library | Rust peer | proved / peer | libxml2 | libxml2 / proved |");
    println!("|---|---|---|---|---|---|");
    print_row(
        "verdict, 64 against 64 steps, witness of 127 nodes",
        &delete_verdict(64),
    );
    print_row(
        "verdict, 64 against 64 steps, 256 inserted nodes",
        &insert_verdict(64, 256),
    );
    print_row("verdict, 4 against 4 steps, witness of 7 nodes", &delete_verdict(4));
    print_row("verdict, 4 against 4 steps, 4 inserted nodes", &insert_verdict(4, 4));
    print_row(
        "verdict, 255 against 255 steps, witness of 509 nodes",
        &delete_verdict(255),
    );
    print_row(
        "verdict, 255 against 255 steps, 1,024 inserted nodes",
        &insert_verdict(255, 1024),
    );
    for (mode, name) in [(1, "node"), (2, "deep")] {
        print_row(
            &format!("{name} plan, 32 frames of 255 steps, deletes and reads, 256 verdicts"),
            &plan(mode, false, 32, 255),
        );
        print_row(
            &format!("{name} plan, 128 frames of 63 steps, deletes and reads, 4,096 verdicts"),
            &plan(mode, false, 128, 63),
        );
        print_row(
            &format!("{name} plan, 128 frames of 62 steps, inserts and reads, 4,096 verdicts"),
            &plan(mode, true, 128, 62),
        );
    }
    for document in Document::all() {
        print_row(
            &format!("compaction, {}, 4,096 nodes", document.name),
            &compact(&document),
        );
    }
    for document in Document::to_mend() {
        print_row(&format!("mending, {}, 4,096 nodes", document.name), &mend(&document));
    }
    for steps in [3, 255] {
        for (shown, end) in [(true, "last new node"), (false, "no difference")] {
            let name =
                format!("proposed tree, insert, 1,023 points, 1,024 inserted nodes, read of {steps} steps, {end}");
            print_row(&name, &insert_evidence(steps, 1024, shown));
        }
    }
    for steps in [3, 64] {
        for (shown, end) in [(true, "last new node"), (false, "no difference")] {
            let name = format!("proposed tree, insert, 255 points, 256 inserted nodes, read of {steps} steps, {end}");
            print_row(&name, &insert_evidence(steps, 256, shown));
        }
    }
    for (shown, end) in [(true, "last node lost"), (false, "no difference")] {
        let name = format!("proposed tree, delete, 256 nodes, 64 against 64 steps, {end}");
        print_row(&name, &delete_evidence(64, 256, shown));
    }
    for (shown, end) in [(true, "last node lost"), (false, "no difference")] {
        let name = format!("proposed tree, delete, 1,024 nodes, 255 against 255 steps, {end}");
        print_row(&name, &delete_evidence(255, 1024, shown));
    }
    for (tree, name) in [
        (random_tree(1024, LABELS), "random tree"),
        (chain(1024, LABELS), "chain"),
    ] {
        let size = "1,024 nodes, labels to 5 digits";
        print_row(&format!("tags, {name}, {size}"), &write_tree(&tree));
        print_row(&format!("tags read, {name}, {size}"), &read_tree(&tree));
    }
    print_row(
        "tags, random tree, 256 nodes, labels to 5 digits",
        &write_tree(&random_tree(256, LABELS)),
    );
    print_row(
        "tags, chain, 256 nodes, labels to 5 digits",
        &write_tree(&chain(256, LABELS)),
    );
    print_row(
        "tags read, random tree, 256 nodes, labels to 5 digits",
        &read_tree(&random_tree(256, LABELS)),
    );
    print_row(
        "tags read, chain, 256 nodes, labels to 5 digits",
        &read_tree(&chain(256, LABELS)),
    );
    for document in Document::all() {
        let mut all = reads();
        all.extend([64, 65, 128, 255].map(long_read));
        for read in all {
            let name = format!(
                "read {}, {}, 4,096 nodes, {} deep",
                read.name(),
                document.name,
                depth(&document.rows)
            );
            print_row(&name, &read_document(&document, &read));
        }
    }
}

/// A pattern of so many descendant steps; libxml2's answer to such a path is not waited for.
pub fn long_read(steps: usize) -> Read {
    Read {
        text: None,
        words: descending(steps, 1, 0),
    }
}
