//! What a program in Rust does with the library: it plans a batch, finds the word at fault in another, reads a line, asks for verdicts,
//! writes a witness as XML, reads a tree from XML, checks a partner's witnesses, reads, compacts and mends a document, reads and writes
//! patterns as text and meets refusals. `examples/run` builds and runs it. Names a to e are the labels 1 to 5; the patterns as text have
//! names of their own.

/// The library behind safe functions over slices: `include/sloefertand.h` says what each promises and refuses.
mod sloefertand {
    /// Words with room for the plan of any batch, for the witness of any verdict, for any tree, for any line, and for any pattern.
    pub const FRAMES: usize = 128;
    pub const WITNESS_WORDS: usize = 1018;
    pub const TREE_WORDS: usize = 2048;
    pub const LINE_WORDS: usize = 2561;
    pub const PATTERN_WORDS: usize = 510;

    /// The node mode of a plan.
    pub const NODE: usize = 1;

    /// Bytes with room for any tree of so many nodes, from 1 on, that is written as tags.
    pub const fn tree_bytes(nodes: usize) -> usize {
        17 * nodes - 8
    }

    /// What every exported function returns.
    #[repr(C)]
    #[derive(Clone, Copy)]
    pub struct Answer {
        refusal: usize,
        table: usize,
        place: usize,
        pub first: usize,
        pub second: usize,
        pub third: usize,
        pub fourth: usize,
    }

    /// Why a call was refused.
    pub struct Refusal {
        pub number: usize,
        pub table: usize,
        pub place: usize,
    }

    impl Answer {
        /// The values of an answer, or its refusal.
        fn values(self) -> Result<Answer, Refusal> {
            if self.refusal == 0 {
                return Ok(self);
            }
            Err(Refusal {
                number: self.refusal,
                table: self.table,
                place: self.place,
            })
        }
    }

    mod exported {
        use super::Answer;

        // a slice is a pointer and a length in elements
        #[link(name = "sloefertand", kind = "static")]
        extern "C" {
            pub fn sloefertand_v2_read(
                pattern: *const u16,
                pattern_words: usize,
                rows: *const u16,
                rows_words: usize,
                marks: *const u8,
                marks_bytes: usize,
                used: usize,
                ids: *const u32,
                ids_count: usize,
                next: u32,
                row: *mut u8,
                row_bytes: usize,
            ) -> Answer;
            pub fn sloefertand_v2_delete(
                pattern: *const u16,
                pattern_words: usize,
                rows: *const u16,
                rows_words: usize,
                marks: *mut u8,
                marks_bytes: usize,
                used: usize,
                ids: *const u32,
                ids_count: usize,
                next: u32,
            ) -> Answer;
            pub fn sloefertand_v2_insert(
                pattern: *const u16,
                pattern_words: usize,
                tree: *const u16,
                tree_words: usize,
                rows: *mut u16,
                rows_words: usize,
                marks: *mut u8,
                marks_bytes: usize,
                used: usize,
                ids: *mut u32,
                ids_count: usize,
                next: u32,
            ) -> Answer;
            pub fn sloefertand_compact(
                rows: *mut u16,
                rows_words: usize,
                marks: *mut u8,
                marks_bytes: usize,
                used: usize,
                ids: *mut u32,
                ids_count: usize,
                next: u32,
            ) -> Answer;
            pub fn sloefertand_mend(
                rows: *const u16,
                rows_words: usize,
                marks: *mut u8,
                marks_bytes: usize,
                used: usize,
                ids: *const u32,
                ids_count: usize,
                next: u32,
                list: *mut u16,
                list_words: usize,
            ) -> Answer;
            pub fn sloefertand_delete_verdict(
                read: *const u16,
                read_words: usize,
                update: *const u16,
                update_words: usize,
                witness: *mut u16,
                witness_words: usize,
            ) -> Answer;
            pub fn sloefertand_insert_verdict(
                read: *const u16,
                read_words: usize,
                update: *const u16,
                update_words: usize,
                tree: *const u16,
                tree_words: usize,
                witness: *mut u16,
                witness_words: usize,
            ) -> Answer;
            pub fn sloefertand_deep_delete_verdict(
                read: *const u16,
                read_words: usize,
                update: *const u16,
                update_words: usize,
            ) -> Answer;
            pub fn sloefertand_deep_insert_verdict(
                read: *const u16,
                read_words: usize,
                update: *const u16,
                update_words: usize,
                tree: *const u16,
                tree_words: usize,
            ) -> Answer;
            pub fn sloefertand_delete_evidence(
                read: *const u16,
                read_words: usize,
                update: *const u16,
                update_words: usize,
                proposed: *const u16,
                proposed_words: usize,
            ) -> Answer;
            pub fn sloefertand_insert_evidence(
                read: *const u16,
                read_words: usize,
                update: *const u16,
                update_words: usize,
                tree: *const u16,
                tree_words: usize,
                proposed: *const u16,
                proposed_words: usize,
            ) -> Answer;
            pub fn sloefertand_step(
                batch: *const u16,
                batch_words: usize,
                number: usize,
                at: usize,
            ) -> Answer;
            pub fn sloefertand_plan(
                batch: *const u16,
                batch_words: usize,
                plan: *mut u16,
                plan_words: usize,
            ) -> Answer;
            pub fn sloefertand_plan_in(
                mode: usize,
                batch: *const u16,
                batch_words: usize,
                plan: *mut u16,
                plan_words: usize,
            ) -> Answer;
            pub fn sloefertand_read_line(
                line: *const u8,
                line_bytes: usize,
                number: usize,
                words: *mut u16,
                words_words: usize,
            ) -> Answer;
            pub fn sloefertand_read_pattern(
                list: *const u8,
                list_bytes: usize,
                text: *const u8,
                text_bytes: usize,
                words: *mut u16,
                words_words: usize,
            ) -> Answer;
            pub fn sloefertand_write_pattern(
                list: *const u8,
                list_bytes: usize,
                pattern: *const u16,
                pattern_words: usize,
                text: *mut u8,
                text_bytes: usize,
            ) -> Answer;
            pub fn sloefertand_write_tree(
                tree: *const u16,
                tree_words: usize,
                text: *mut u8,
                text_bytes: usize,
            ) -> Answer;
            pub fn sloefertand_read_tree(
                text: *const u8,
                text_bytes: usize,
                words: *mut u16,
                words_words: usize,
            ) -> Answer;
        }
    }

    // Each call below is safe for every input: the exported functions ask nothing of what the buffers hold, and a slice of Rust is
    // never null, always aligned, as long as it says and, where it is `&mut`, overlaps no other.

    /// A document: its tables with room for more nodes, how many are in use, a row of identities, and the next one to give.
    pub struct Document {
        pub rows: Vec<u16>,
        pub marks: Vec<u8>,
        pub used: usize,
        pub ids: Vec<u32>,
        pub next: u32,
    }

    /// A mark that a mending changed.
    pub struct Change {
        pub node: usize,
        pub old: u8,
        pub new: u8,
    }

    impl Document {
        /// Writes one byte a used node to `row`: 1 where the pattern selects it, else 0.
        pub fn read(&self, pattern: &[u16], row: &mut [u8]) -> Result<(), Refusal> {
            let answer = unsafe {
                exported::sloefertand_v2_read(
                    pattern.as_ptr(),
                    pattern.len(),
                    self.rows.as_ptr(),
                    self.rows.len(),
                    self.marks.as_ptr(),
                    self.marks.len(),
                    self.used,
                    self.ids.as_ptr(),
                    self.ids.len(),
                    self.next,
                    row.as_mut_ptr(),
                    row.len(),
                )
            };
            answer.values().map(|_| ())
        }

        /// Marks what the pattern selects and all below as removed; how many nodes newly.
        pub fn delete(&mut self, pattern: &[u16]) -> Result<usize, Refusal> {
            let answer = unsafe {
                exported::sloefertand_v2_delete(
                    pattern.as_ptr(),
                    pattern.len(),
                    self.rows.as_ptr(),
                    self.rows.len(),
                    self.marks.as_mut_ptr(),
                    self.marks.len(),
                    self.used,
                    self.ids.as_ptr(),
                    self.ids.len(),
                    self.next,
                )
            };
            answer.values().map(|values| values.first)
        }

        /// Hangs a copy of the tree under each node that the pattern selects; how many copies.
        pub fn insert(&mut self, pattern: &[u16], tree: &[u16]) -> Result<usize, Refusal> {
            let answer = unsafe {
                exported::sloefertand_v2_insert(
                    pattern.as_ptr(),
                    pattern.len(),
                    tree.as_ptr(),
                    tree.len(),
                    self.rows.as_mut_ptr(),
                    self.rows.len(),
                    self.marks.as_mut_ptr(),
                    self.marks.len(),
                    self.used,
                    self.ids.as_mut_ptr(),
                    self.ids.len(),
                    self.next,
                )
            };
            let values = answer.values()?;
            self.used = values.second;
            self.next = values.third as u32;
            Ok(values.first)
        }

        /// Drops the removed nodes and closes up the rest; how many were dropped.
        pub fn compact(&mut self) -> Result<usize, Refusal> {
            let answer = unsafe {
                exported::sloefertand_compact(
                    self.rows.as_mut_ptr(),
                    self.rows.len(),
                    self.marks.as_mut_ptr(),
                    self.marks.len(),
                    self.used,
                    self.ids.as_mut_ptr(),
                    self.ids.len(),
                    self.next,
                )
            };
            let values = answer.values()?;
            self.used = values.first;
            Ok(values.second)
        }

        /// Mends damaged marks; the changes, in node order, which are written to `list` too, three words each.
        pub fn mend(&mut self, list: &mut [u16]) -> Result<Vec<Change>, Refusal> {
            let answer = unsafe {
                exported::sloefertand_mend(
                    self.rows.as_ptr(),
                    self.rows.len(),
                    self.marks.as_mut_ptr(),
                    self.marks.len(),
                    self.used,
                    self.ids.as_ptr(),
                    self.ids.len(),
                    self.next,
                    list.as_mut_ptr(),
                    list.len(),
                )
            };
            let changes = list.chunks(3).take(answer.values()?.first);
            Ok(changes
                .map(|words| Change {
                    node: usize::from(words[0]),
                    old: words[1] as u8,
                    new: words[2] as u8,
                })
                .collect())
        }
    }

    /// The nodes of the smallest witness, which is written to `witness`; 0 where the read and the delete do not conflict.
    pub fn delete_verdict(
        read: &[u16],
        update: &[u16],
        witness: &mut [u16],
    ) -> Result<usize, Refusal> {
        let answer = unsafe {
            exported::sloefertand_delete_verdict(
                read.as_ptr(),
                read.len(),
                update.as_ptr(),
                update.len(),
                witness.as_mut_ptr(),
                witness.len(),
            )
        };
        answer.values().map(|values| values.first)
    }

    /// The same of an insert of `tree`.
    pub fn insert_verdict(
        read: &[u16],
        update: &[u16],
        tree: &[u16],
        witness: &mut [u16],
    ) -> Result<usize, Refusal> {
        let answer = unsafe {
            exported::sloefertand_insert_verdict(
                read.as_ptr(),
                read.len(),
                update.as_ptr(),
                update.len(),
                tree.as_ptr(),
                tree.len(),
                witness.as_mut_ptr(),
                witness.len(),
            )
        };
        answer.values().map(|values| values.first)
    }

    /// Whether the read and the delete conflict, or the delete can take place at or below a node that is read.
    pub fn deep_delete_verdict(read: &[u16], update: &[u16]) -> Result<bool, Refusal> {
        let answer = unsafe {
            exported::sloefertand_deep_delete_verdict(
                read.as_ptr(),
                read.len(),
                update.as_ptr(),
                update.len(),
            )
        };
        answer.values().map(|values| values.first == 1)
    }

    /// The same of an insert of `tree`.
    pub fn deep_insert_verdict(
        read: &[u16],
        update: &[u16],
        tree: &[u16],
    ) -> Result<bool, Refusal> {
        let answer = unsafe {
            exported::sloefertand_deep_insert_verdict(
                read.as_ptr(),
                read.len(),
                update.as_ptr(),
                update.len(),
                tree.as_ptr(),
                tree.len(),
            )
        };
        answer.values().map(|values| values.first == 1)
    }

    /// The first node of the proposed tree that the read loses by the delete; 0 where it selects the same nodes before and after.
    pub fn delete_evidence(
        read: &[u16],
        update: &[u16],
        proposed: &[u16],
    ) -> Result<usize, Refusal> {
        let answer = unsafe {
            exported::sloefertand_delete_evidence(
                read.as_ptr(),
                read.len(),
                update.as_ptr(),
                update.len(),
                proposed.as_ptr(),
                proposed.len(),
            )
        };
        answer.values().map(|values| values.first)
    }

    /// The same of an insert of `tree`: the first new node that the read selects, by the number that the insert gives it.
    pub fn insert_evidence(
        read: &[u16],
        update: &[u16],
        tree: &[u16],
        proposed: &[u16],
    ) -> Result<usize, Refusal> {
        let answer = unsafe {
            exported::sloefertand_insert_evidence(
                read.as_ptr(),
                read.len(),
                update.as_ptr(),
                update.len(),
                tree.as_ptr(),
                tree.len(),
                proposed.as_ptr(),
                proposed.len(),
            )
        };
        answer.values().map(|values| values.first)
    }

    /// The frame at word `at`: its kind, where it ends, its steps and its nodes.
    pub fn step(batch: &[u16], number: usize, at: usize) -> Result<Answer, Refusal> {
        unsafe { exported::sloefertand_step(batch.as_ptr(), batch.len(), number, at) }.values()
    }

    /// The number of frames; the deep plan is written to `plan`, a word a frame.
    pub fn plan(batch: &[u16], plan: &mut [u16]) -> Result<usize, Refusal> {
        let answer = unsafe {
            exported::sloefertand_plan(batch.as_ptr(), batch.len(), plan.as_mut_ptr(), plan.len())
        };
        answer.values().map(|values| values.first)
    }

    /// The same in a mode, `NODE` or `DEEP`.
    pub fn plan_in(mode: usize, batch: &[u16], plan: &mut [u16]) -> Result<usize, Refusal> {
        let answer = unsafe {
            exported::sloefertand_plan_in(
                mode,
                batch.as_ptr(),
                batch.len(),
                plan.as_mut_ptr(),
                plan.len(),
            )
        };
        answer.values().map(|values| values.first)
    }

    /// The number of words; they are written to `words`. `number` is the line's own, which a refusal 13 names.
    pub fn read_line(line: &[u8], number: usize, words: &mut [u16]) -> Result<usize, Refusal> {
        let answer = unsafe {
            exported::sloefertand_read_line(
                line.as_ptr(),
                line.len(),
                number,
                words.as_mut_ptr(),
                words.len(),
            )
        };
        answer.values().map(|values| values.first)
    }

    /// The number of words of a pattern given as text; they are written to `words`. A name's label is its place in the list, from 1.
    pub fn read_pattern(list: &[u8], text: &[u8], words: &mut [u16]) -> Result<usize, Refusal> {
        let answer = unsafe {
            exported::sloefertand_read_pattern(
                list.as_ptr(),
                list.len(),
                text.as_ptr(),
                text.len(),
                words.as_mut_ptr(),
                words.len(),
            )
        };
        answer.values().map(|values| values.first)
    }

    /// The number of bytes of a pattern's text, which is written to `text`.
    pub fn write_pattern(list: &[u8], pattern: &[u16], text: &mut [u8]) -> Result<usize, Refusal> {
        let answer = unsafe {
            exported::sloefertand_write_pattern(
                list.as_ptr(),
                list.len(),
                pattern.as_ptr(),
                pattern.len(),
                text.as_mut_ptr(),
                text.len(),
            )
        };
        answer.values().map(|values| values.first)
    }

    /// The number of bytes of a tree's nested tags, which are written to `text`.
    pub fn write_tree(tree: &[u16], text: &mut [u8]) -> Result<usize, Refusal> {
        let answer = unsafe {
            exported::sloefertand_write_tree(
                tree.as_ptr(),
                tree.len(),
                text.as_mut_ptr(),
                text.len(),
            )
        };
        answer.values().map(|values| values.first)
    }

    /// The number of words of a tree given as nested tags; they are written to `words`.
    pub fn read_tree(text: &[u8], words: &mut [u16]) -> Result<usize, Refusal> {
        let answer = unsafe {
            exported::sloefertand_read_tree(
                text.as_ptr(),
                text.len(),
                words.as_mut_ptr(),
                words.len(),
            )
        };
        answer.values().map(|values| values.first)
    }
}

use sloefertand::{Change, Document, Refusal};

// A pattern: axis and label of each step.
const A_B: [u16; 4] = [0, 1, 1, 2]; // a/b
const A_B_C: [u16; 6] = [0, 1, 1, 2, 1, 3]; // a/b/c
const A_ANY_C: [u16; 4] = [0, 1, 2, 3]; // a//c
const ONLY_A: [u16; 2] = [0, 1]; // a

// A tree: parent and label of each node.
const LEAF_C: [u16; 2] = [0, 3]; // c

/// The deep plan of a batch and beside it the node plan, a line a frame: the walker gives the frames, the plans their words.
fn show_plan(batch: &[u16]) -> Result<(), Refusal> {
    let kinds = ["", "read", "insert", "delete"];
    let mut deep = [0; sloefertand::FRAMES];
    let mut node = [0; sloefertand::FRAMES];
    let frames = sloefertand::plan(batch, &mut deep)?;
    sloefertand::plan_in(sloefertand::NODE, batch, &mut node)?;
    println!("{frames} frames");
    let mut at = 0;
    for number in 0..frames {
        let frame = sloefertand::step(batch, number, at)?;
        println!(
            "{} of {} steps and {} nodes: {}, {}",
            kinds[frame.first], frame.third, frame.fourth, deep[number], node[number]
        );
        at = frame.second;
    }
    Ok(())
}

/// A mode is 1 or 2.
fn show_wrong_mode(batch: &[u16]) {
    let mut plan = [0; sloefertand::FRAMES];
    if let Err(refusal) = sloefertand::plan_in(3, batch, &mut plan) {
        show_refusal(refusal);
    }
}

/// Where a batch is refused: the place is the offset of the word at fault, which stands in brackets; a missing word is one past the
/// last.
fn show_fault(batch: &[u16]) {
    let mut plan = [0; sloefertand::FRAMES];
    let Err(refusal) = sloefertand::plan(batch, &mut plan) else {
        return;
    };
    let place = refusal.place;
    show_refusal(refusal);
    print!("words:");
    for (i, word) in batch.iter().enumerate() {
        if i == place {
            print!(" [{word}]");
        } else {
            print!(" {word}");
        }
    }
    let missing = if place == batch.len() { " []" } else { "" };
    println!("{missing}");
}

/// The words of a line of digits.
fn show_line(line: &[u8]) -> Result<(), Refusal> {
    let mut words = [0; sloefertand::LINE_WORDS];
    let count = sloefertand::read_line(line, 1, &mut words)?;
    print!("{count} words:");
    for word in &words[..count] {
        print!(" {word}");
    }
    println!();
    Ok(())
}

/// A tree as nested tags, which an XML editor opens: there is room for that of any witness.
fn show_tags(tree: &[u16]) -> Result<(), Refusal> {
    let mut text = [0; sloefertand::tree_bytes(sloefertand::WITNESS_WORDS / 2)];
    let bytes = sloefertand::write_tree(tree, &mut text)?;
    println!("as XML: {}", String::from_utf8_lossy(&text[..bytes]));
    Ok(())
}

/// The nodes of a tree, a line each.
fn show_nodes(tree: &[u16]) {
    for (node, words) in tree.chunks(2).enumerate() {
        println!("node {node}: parent {}, label {}", words[0], words[1]);
    }
}

/// A tree from its tags, a node a line; where the text is refused, a caret shows how far it is right.
fn show_tree(text: &str) {
    println!("{text}");
    let mut tree = [0; sloefertand::TREE_WORDS];
    match sloefertand::read_tree(text.as_bytes(), &mut tree) {
        Ok(words) => show_nodes(&tree[..words]),
        Err(refusal) if refusal.number == 14 => show_how_far(text, refusal.place, "tree"),
        Err(refusal) => show_refusal(refusal),
    }
}

/// A verdict, with its witness, a node a line and as XML.
fn show_verdict(nodes: usize, witness: &[u16]) -> Result<(), Refusal> {
    if nodes == 0 {
        println!("no conflict");
        return Ok(());
    }
    println!("conflict, shown by {nodes} nodes");
    show_nodes(&witness[..2 * nodes]);
    show_tags(&witness[..2 * nodes])
}

/// Whether a read and a delete conflict.
fn show_delete_verdict(read: &[u16], update: &[u16]) -> Result<(), Refusal> {
    let mut witness = [0; sloefertand::WITNESS_WORDS];
    let nodes = sloefertand::delete_verdict(read, update, &mut witness)?;
    show_verdict(nodes, &witness)
}

/// Whether a read and an insert conflict.
fn show_insert_verdict(read: &[u16], update: &[u16], tree: &[u16]) -> Result<(), Refusal> {
    let mut witness = [0; sloefertand::WITNESS_WORDS];
    let nodes = sloefertand::insert_verdict(read, update, tree, &mut witness)?;
    show_verdict(nodes, &witness)
}

/// A deep verdict.
fn show_deep(yes: bool) {
    println!("deep verdict: {}", if yes { "yes" } else { "no" });
}

/// What a partner's tree shows of an update: the node that is lost, or the new one, or nothing.
fn show_evidence(update: &str, node: usize, change: &str) {
    if node == 0 {
        println!("{update}: no difference");
        return;
    }
    println!("{update}: node {node} is {change}");
}

/// The nodes of a document that a pattern selects.
fn show_read(pattern: &[u16]) -> Result<(), Refusal> {
    // a over b and c, and c below that b
    let document = Document {
        rows: vec![0, 1, 0, 2, 0, 3, 1, 3],
        marks: vec![0; 4],
        used: 4,
        ids: vec![0, 1, 2, 3],
        next: 4,
    };
    let mut row = [0; 4];
    document.read(pattern, &mut row)?;
    print!("selected:");
    for (node, _) in row.iter().enumerate().filter(|(_, byte)| **byte == 1) {
        print!(" {node}");
    }
    println!();
    Ok(())
}

/// What a read of a//c selects: by identity, and by the number that the node has now.
fn show_identities(document: &Document) -> Result<(), Refusal> {
    let mut row = [0; 4];
    document.read(&A_ANY_C, &mut row)?;
    for node in (0..document.used).filter(|&node| row[node] == 1) {
        println!("a//c: identity {} at node {node}", document.ids[node]);
    }
    Ok(())
}

/// Hangs a c under the root, where there is room.
fn show_insert(document: &mut Document) {
    match document.insert(&ONLY_A, &LEAF_C) {
        Ok(copies) => println!(
            "insert c at a: {copies} copy, next identity {}",
            document.next
        ),
        Err(refusal) => show_refusal(refusal),
    }
}

/// Room back from removed nodes: an insert is refused, a compaction makes room, and what is read keeps its identity.
fn show_room_back() -> Result<(), Refusal> {
    // a over b and c, and c below that b: no room is left
    let mut document = Document {
        rows: vec![0, 1, 0, 2, 1, 3, 0, 3],
        marks: vec![0; 4],
        used: 4,
        ids: vec![10, 11, 12, 13],
        next: 14,
    };
    println!("delete a/b: {} removed", document.delete(&A_B)?);
    show_insert(&mut document);
    show_identities(&document)?;
    let dropped = document.compact()?;
    println!(
        "compacted: {} nodes in use, {dropped} dropped",
        document.used
    );
    show_identities(&document)?;
    show_insert(&mut document);
    show_identities(&document)
}

/// The marks of the nodes in use, behind a word on them.
fn show_marks(what: &str, document: &Document) {
    print!("{what}:");
    for mark in &document.marks[..document.used] {
        print!(" {mark}");
    }
    println!();
}

/// Damaged marks: a read is refused, and so is a list that is a word too short, which changes nothing; with room for the list they are
/// mended, and the read is answered. The list has the old marks too, so that they can be had back.
fn show_mending() -> Result<(), Refusal> {
    // a over b and c, and c below that b: a is marked as removed, b has a mark that there is not, the c below it is present
    let mut document = Document {
        rows: vec![0, 1, 0, 2, 1, 3, 0, 3],
        marks: vec![1, 9, 0, 0],
        used: 4,
        ids: vec![10, 11, 12, 13],
        next: 14,
    };
    let mut list = [0; 9];
    show_marks("damaged", &document);
    if let Err(refusal) = show_identities(&document) {
        show_refusal(refusal);
    }
    if let Err(refusal) = document.mend(&mut list[..8]) {
        show_refusal(refusal);
    }
    show_marks("still", &document);
    let changes = document.mend(&mut list)?;
    for Change { node, old, new } in &changes {
        println!("node {node}: mark {old} becomes {new}");
    }
    show_marks("mended", &document);
    show_identities(&document)?;
    for change in &changes {
        document.marks[change.node] = change.old;
    }
    show_marks("turned back", &document);
    Ok(())
}

/// A planner's names, each ended by a line feed: a name's label is its place, from 1.
const NAMES: &[u8] = b"chart\ncell\npermit\n";

/// The words of a pattern given as text.
fn pattern_of(text: &str) -> Result<Vec<u16>, Refusal> {
    let mut words = [0; sloefertand::PATTERN_WORDS];
    let count = sloefertand::read_pattern(NAMES, text.as_bytes(), &mut words)?;
    Ok(words[..count].to_vec())
}

/// A caret below the first byte of a text that is wrong, or behind a text that is only cut.
fn show_how_far(text: &str, place: usize, kind: &str) {
    let does = if place == text.len() { "ends" } else { "goes on" };
    println!("{:1$}^ no {kind} {does} so", "", place);
}

/// Says in words why a text is refused: a caret shows how far it is right, or the step is told whose name is not listed.
fn show_why(text: &str, refusal: Refusal) {
    match (refusal.number, refusal.table) {
        (14, 7) => show_how_far(text, refusal.place, "pattern"),
        (15, _) => println!("step {} has a name that is not listed", refusal.place),
        _ => show_refusal(refusal),
    }
}

/// A text and its pattern's words, or why it is refused.
fn show_pattern(text: &str) {
    println!("{text}");
    match pattern_of(text) {
        Ok(words) => {
            let words: Vec<String> = words.iter().map(u16::to_string).collect();
            println!("{}", words.join(" "));
        }
        Err(refusal) => show_why(text, refusal),
    }
}

/// A smallest witness is a chain: the path down to its last node, written as a pattern of child steps.
fn show_path(witness: &mut [u16]) -> Result<(), Refusal> {
    for (node, words) in witness.chunks_mut(2).enumerate() {
        words[0] = u16::from(node > 0);
    }
    let mut text = [0; 1000];
    let bytes = sloefertand::write_pattern(NAMES, witness, &mut text)?;
    println!(
        "conflict, shown by {}",
        String::from_utf8_lossy(&text[..bytes])
    );
    Ok(())
}

/// Whether a read and a delete conflict, all as text.
fn show_text_verdict(read: &str, update: &str) -> Result<(), Refusal> {
    let (read, update) = (pattern_of(read)?, pattern_of(update)?);
    let mut witness = [0; sloefertand::WITNESS_WORDS];
    let nodes = sloefertand::delete_verdict(&read, &update, &mut witness)?;
    if nodes == 0 {
        println!("no conflict");
        return Ok(());
    }
    show_path(&mut witness[..2 * nodes])
}

fn show_all() -> Result<(), Refusal> {
    let batch = [
        3, 2, 0, 1, 1, 2, // delete a/b
        2, 2, 0, 1, 1, 2, 1, 0, 3, // insert c at a/b
        1, 2, 0, 1, 2, 4, // read a//d
        1, 2, 0, 1, 2, 3, // read a//c
        1, 1, 0, 1, // read a
    ];
    println!("the plan of a batch, deep and node");
    show_plan(&batch)?;

    println!("\na mode that there is not");
    show_wrong_mode(&batch);

    let bad = [
        1, 1, 0, 1, // read a
        3, 2, 0, 1, 3, 2, // delete a and, by an axis that there is not, b
    ];
    println!("\na batch with a wrong axis, and one that ends too early");
    show_fault(&bad);
    show_fault(&bad[..bad.len() - 2]);

    println!("\nthe line of delete a/b");
    show_line(b"000300020000000100010002")?;

    println!("\nread a//c, delete a/b");
    show_delete_verdict(&A_ANY_C, &A_B)?;

    println!("\nread a/b, delete a/b/c");
    show_delete_verdict(&A_B, &A_B_C)?;
    show_deep(sloefertand::deep_delete_verdict(&A_B, &A_B_C)?);

    println!("\nread a/b, insert c at a/b");
    show_insert_verdict(&A_B, &A_B, &LEAF_C)?;
    show_deep(sloefertand::deep_insert_verdict(&A_B, &A_B, &LEAF_C)?);

    // a over d, b and c; c below that d; d below that b, and c below it
    let bushy = [0, 1, 0, 4, 0, 2, 0, 3, 1, 3, 2, 4, 5, 3];
    // a over b and c
    let flat = [0, 1, 0, 2, 0, 3];
    println!("\na partner's trees as evidence, read a//c");
    let lost = sloefertand::delete_evidence(&A_ANY_C, &A_B, &bushy)?;
    show_evidence("delete a/b", lost, "lost");
    let new = sloefertand::insert_evidence(&A_ANY_C, &A_B, &LEAF_C, &bushy)?;
    show_evidence("insert c at a/b", new, "new");
    let none = sloefertand::delete_evidence(&A_ANY_C, &A_B, &flat)?;
    show_evidence("delete a/b, another tree", none, "lost");

    println!("\na renewal from XML, and texts that are refused");
    show_tree("<n1><n2><n3/></n2><n4></n4></n1>");
    show_tree("<n1><n2><n3/></n1></n2>");
    show_tree("<n1><n65536/></n1>");
    show_tree("<n1><n2/>");

    println!("\nread a//c of a document");
    show_read(&A_ANY_C)?;

    println!("\nroom back from removed nodes");
    show_room_back()?;

    println!("\ndamaged marks, mended and turned back");
    show_mending()?;

    println!("\nread /chart//permit, delete /chart/cell");
    show_text_verdict("/chart//permit", "/chart/cell")?;

    println!("\npatterns as text, and texts that are refused");
    show_pattern("/chart//*/permit");
    show_pattern("/chart//cell:permit");
    show_pattern("/chart/cell/");
    show_pattern("/chart/buoy");

    println!("\nread a//c, delete a");
    show_delete_verdict(&A_ANY_C, &ONLY_A)
}

/// A refusal by its three numbers.
fn show_refusal(refusal: Refusal) {
    println!(
        "refusal {}, table {}, place {}",
        refusal.number, refusal.table, refusal.place
    );
}

fn main() {
    if let Err(refusal) = show_all() {
        show_refusal(refusal);
    }
}
