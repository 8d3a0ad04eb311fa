//! Documents to read, and the patterns that read them.

use crate::inputs::{chain, random_tree};

/// Names in a document.
const NAMES: usize = 4;

/// A document.
pub struct Document {
    pub name: &'static str,
    pub rows: Vec<u16>,
    pub marks: Vec<u8>,
    pub used: usize,
}

impl Document {
    fn of(name: &'static str, rows: Vec<u16>) -> Document {
        let used = rows.len() / 2;
        Document {
            name,
            rows,
            marks: vec![0; used],
            used,
        }
    }

    /// A random tree.
    pub fn random(nodes: usize) -> Document {
        Document::of("random tree", random_tree(nodes, NAMES))
    }

    /// A chain.
    pub fn chain(nodes: usize) -> Document {
        Document::of("chain", chain(nodes, NAMES))
    }

    /// A random tree from which every seventh node and all below it is removed.
    pub fn thinned(nodes: usize) -> Document {
        let mut document = Document::of("thinned tree", random_tree(nodes, NAMES));
        for v in 1..nodes {
            let above = document.marks[usize::from(document.rows[2 * v])];
            document.marks[v] = if v % 7 == 0 { 1 } else { above };
        }
        document
    }

    /// One of each, of full size.
    pub fn all() -> [Document; 3] {
        [Document::random(4096), Document::chain(4096), Document::thinned(4096)]
    }

    /// The same with a mark a node, by its number, and another name.
    fn marked(self, name: &'static str, mark: impl Fn(usize) -> u8) -> Document {
        Document {
            name,
            marks: (0..self.used).map(mark).collect(),
            ..self
        }
    }

    /// To be mended, of full size: one with nothing to mend, and three whose marks are damaged.
    pub fn to_mend() -> [Document; 4] {
        [
            Document {
                name: "thinned tree, sound marks",
                ..Document::thinned(4096)
            },
            Document::random(4096).marked("random tree, all marks 255", |_| 255),
            Document::chain(4096).marked("chain whose node 1 is removed", |v| u8::from(v == 1)),
            Document::random(4096).marked("random tree, node v has mark v * 7 % 256", |v| (v * 7 % 256) as u8),
        ]
    }

    /// Whether every node is present, so that libxml2 can be asked the same.
    pub fn whole(&self) -> bool {
        self.marks.iter().all(|&mark| mark == 0)
    }
}

/// A read, with its XPath text where libxml2 is to answer it too.
pub struct Read {
    pub text: Option<String>,
    pub words: Vec<u16>,
}

impl Read {
    /// The text, or how many steps it has.
    pub fn name(&self) -> String {
        match &self.text {
            Some(text) => format!("`{text}`"),
            None => format!("of {} steps", self.words.len() / 2),
        }
    }
}

/// A pattern from axes and labels.
pub fn read(steps: &[(u16, u16)]) -> Read {
    let mut text = String::new();
    let mut words = Vec::new();
    for &(axis, label) in steps {
        text.push_str(if axis == 2 { "//" } else { "/" });
        if label == 0 {
            text.push('*');
        } else {
            text.push_str(&format!("n{label}"));
        }
        words.extend([axis, label]);
    }
    Read {
        text: Some(text),
        words,
    }
}
