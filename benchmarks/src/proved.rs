//! The proved library, called through its C interface.

/// What every call returns.
#[repr(C)]
#[derive(Clone, Copy, Debug, PartialEq, Eq)]
pub struct Answer {
    pub refusal: usize,
    pub table: usize,
    pub place: usize,
    pub first: usize,
    pub second: usize,
    pub third: usize,
    pub fourth: usize,
}

/// Identities for as many nodes as a document can use: 0, 1, 2 and so on.
pub static IDENTITIES: [u32; 4096] = {
    let mut ids = [0; 4096];
    let mut node = 0;
    while node < ids.len() {
        ids[node] = node as u32;
        node += 1;
    }
    ids
};

/// The reading of one build of the library, by its name there.
macro_rules! reading {
    ($library:literal, $function:ident) => {
        #[link(name = $library, kind = "static")]
        extern "C" {
            fn $function(
                pattern: *const u16,
                pattern_words: usize,
                rows: *const u16,
                rows_words: usize,
                marks: *const u8,
                marks_bytes: usize,
                used: usize,
                ids: *const u32,
                ids_count: usize,
                next: u32,
                row: *mut u8,
                row_bytes: usize,
            ) -> $crate::proved::Answer;
        }

        /// A byte a node in use: 1 where the pattern selects it.
        pub fn read(
            pattern: &[u16],
            rows: &[u16],
            marks: &[u8],
            used: usize,
            row: &mut [u8],
        ) -> $crate::proved::Counted {
            // The pointers and lengths are those of live slices, and `row` overlaps none of the others.
            $crate::proved::counted(unsafe {
                $function(
                    pattern.as_ptr(),
                    pattern.len(),
                    rows.as_ptr(),
                    rows.len(),
                    marks.as_ptr(),
                    marks.len(),
                    used,
                    $crate::proved::IDENTITIES.as_ptr(),
                    $crate::proved::IDENTITIES.len(),
                    $crate::proved::IDENTITIES.len() as u32,
                    row.as_mut_ptr(),
                    row.len(),
                )
            })
        }
    };
}
#[cfg(feature = "before")]
pub(crate) use reading;

reading!("sloefertand", sloefertand_v2_read);

extern "C" {
    fn sloefertand_delete_verdict(
        read: *const u16,
        read_words: usize,
        update: *const u16,
        update_words: usize,
        witness: *mut u16,
        witness_words: usize,
    ) -> Answer;
    fn sloefertand_insert_verdict(
        read: *const u16,
        read_words: usize,
        update: *const u16,
        update_words: usize,
        tree: *const u16,
        tree_words: usize,
        witness: *mut u16,
        witness_words: usize,
    ) -> Answer;
    fn sloefertand_delete_evidence(
        read: *const u16,
        read_words: usize,
        update: *const u16,
        update_words: usize,
        proposed: *const u16,
        proposed_words: usize,
    ) -> Answer;
    fn sloefertand_insert_evidence(
        read: *const u16,
        read_words: usize,
        update: *const u16,
        update_words: usize,
        tree: *const u16,
        tree_words: usize,
        proposed: *const u16,
        proposed_words: usize,
    ) -> Answer;
    fn sloefertand_plan_in(
        mode: usize,
        batch: *const u16,
        batch_words: usize,
        plan: *mut u16,
        plan_words: usize,
    ) -> Answer;
    fn sloefertand_compact(
        rows: *mut u16,
        rows_words: usize,
        marks: *mut u8,
        marks_bytes: usize,
        used: usize,
        ids: *mut u32,
        ids_count: usize,
        next: u32,
    ) -> Answer;
    fn sloefertand_mend(
        rows: *const u16,
        rows_words: usize,
        marks: *mut u8,
        marks_bytes: usize,
        used: usize,
        ids: *const u32,
        ids_count: usize,
        next: u32,
        list: *mut u16,
        list_words: usize,
    ) -> Answer;
    fn sloefertand_write_tree(tree: *const u16, tree_words: usize, text: *mut u8, text_bytes: usize) -> Answer;
    fn sloefertand_read_tree(text: *const u8, text_bytes: usize, words: *mut u16, words_words: usize) -> Answer;
}

/// A count, or the number of a refusal.
pub type Counted = Result<usize, usize>;

/// The first value, or the refusal's number.
pub fn counted(answer: Answer) -> Counted {
    match answer.refusal {
        0 => Ok(answer.first),
        number => Err(number),
    }
}

/// The new used count and how many nodes were dropped.
pub fn compact(
    rows: &mut [u16],
    marks: &mut [u8],
    used: usize,
    ids: &mut [u32],
    next: u32,
) -> Result<(usize, usize), usize> {
    // As in `read`; none of the three overlaps another.
    let answer = unsafe {
        sloefertand_compact(
            rows.as_mut_ptr(),
            rows.len(),
            marks.as_mut_ptr(),
            marks.len(),
            used,
            ids.as_mut_ptr(),
            ids.len(),
            next,
        )
    };
    counted(answer).map(|used| (used, answer.second))
}

/// How many marks are mended; three words for each of them are written to the list.
pub fn mend(rows: &[u16], marks: &mut [u8], used: usize, ids: &[u32], next: u32, list: &mut [u16]) -> Counted {
    // As in `read`; neither `marks` nor `list` overlaps another.
    counted(unsafe {
        sloefertand_mend(
            rows.as_ptr(),
            rows.len(),
            marks.as_mut_ptr(),
            marks.len(),
            used,
            ids.as_ptr(),
            ids.len(),
            next,
            list.as_mut_ptr(),
            list.len(),
        )
    })
}

/// The nodes of a smallest witness, 0 for no conflict.
pub fn delete_verdict(read: &[u16], update: &[u16], witness: &mut [u16]) -> Counted {
    // As in `read`.
    counted(unsafe {
        sloefertand_delete_verdict(
            read.as_ptr(),
            read.len(),
            update.as_ptr(),
            update.len(),
            witness.as_mut_ptr(),
            witness.len(),
        )
    })
}

/// The same for an insert of a tree.
pub fn insert_verdict(read: &[u16], update: &[u16], tree: &[u16], witness: &mut [u16]) -> Counted {
    // As in `read`.
    counted(unsafe {
        sloefertand_insert_verdict(
            read.as_ptr(),
            read.len(),
            update.as_ptr(),
            update.len(),
            tree.as_ptr(),
            tree.len(),
            witness.as_mut_ptr(),
            witness.len(),
        )
    })
}

/// The first node of a proposed tree that is lost to the read, 0 for none.
pub fn delete_evidence(read: &[u16], update: &[u16], proposed: &[u16]) -> Counted {
    // As in `read`; nothing is written.
    counted(unsafe {
        sloefertand_delete_evidence(
            read.as_ptr(),
            read.len(),
            update.as_ptr(),
            update.len(),
            proposed.as_ptr(),
            proposed.len(),
        )
    })
}

/// The first new node that the read selects after an insert of a tree, 0 for none.
pub fn insert_evidence(read: &[u16], update: &[u16], tree: &[u16], proposed: &[u16]) -> Counted {
    // As in `read`; nothing is written.
    counted(unsafe {
        sloefertand_insert_evidence(
            read.as_ptr(),
            read.len(),
            update.as_ptr(),
            update.len(),
            tree.as_ptr(),
            tree.len(),
            proposed.as_ptr(),
            proposed.len(),
        )
    })
}

/// The plan of a batch in mode 1, node, or 2, deep; the number of frames.
pub fn plan(mode: usize, batch: &[u16], plan: &mut [u16]) -> Counted {
    // As in `read`.
    counted(unsafe { sloefertand_plan_in(mode, batch.as_ptr(), batch.len(), plan.as_mut_ptr(), plan.len()) })
}

/// A tree as nested tags; the number of bytes.
pub fn write_tree(tree: &[u16], text: &mut [u8]) -> Counted {
    // As in `read`.
    counted(unsafe { sloefertand_write_tree(tree.as_ptr(), tree.len(), text.as_mut_ptr(), text.len()) })
}

/// A tree from nested tags; the number of words.
pub fn read_tree(text: &[u8], words: &mut [u16]) -> Counted {
    // As in `read`.
    counted(unsafe { sloefertand_read_tree(text.as_ptr(), text.len(), words.as_mut_ptr(), words.len()) })
}
