//! A tree from nested tags: tag by tag, the labels of open elements on a stack; then the rows.

use super::{Counted, TREE_NODES};

/// A text, and how far it has been read.
struct Cursor<'a> {
    text: &'a [u8],
    at: usize,
}

impl Cursor<'_> {
    fn peek(&self) -> Option<u8> {
        self.text.get(self.at).copied()
    }

    /// One byte on, if it is this one; else the place.
    fn expect(&mut self, byte: u8) -> Result<(), usize> {
        if self.peek() != Some(byte) {
            return Err(self.at);
        }
        self.at += 1;
        Ok(())
    }

    /// A label from 1 to 65,535 without a leading zero; else the place of the first byte that goes too far.
    fn label(&mut self) -> Result<u16, usize> {
        let mut label = 0;
        while let Some(byte @ b'0'..=b'9') = self.peek() {
            let next = 10 * label + u32::from(byte - b'0');
            if next == 0 || next > u32::from(u16::MAX) {
                return Err(self.at);
            }
            label = next;
            self.at += 1;
        }
        if label == 0 {
            return Err(self.at);
        }
        Ok(label as u16)
    }

    /// The digits of this label and nothing else; else the place of the first byte that differs.
    fn same_label(&mut self, label: u16) -> Result<(), usize> {
        let mut unit = 1;
        while label / unit >= 10 {
            unit *= 10;
        }
        while unit > 0 {
            self.expect(b'0' + (label / unit % 10) as u8)?;
            unit /= 10;
        }
        Ok(())
    }

    /// A start tag or a short tag behind its `<`: the label, and whether it is a short one.
    fn start(&mut self) -> Result<(u16, bool), usize> {
        self.expect(b'n')?;
        let label = self.label()?;
        let short = self.peek() == Some(b'/');
        if short {
            self.at += 1;
        }
        self.expect(b'>')?;
        Ok((label, short))
    }
}

/// How many nodes a right text has; else how far it is right.
fn checked(text: &[u8]) -> Result<usize, usize> {
    let mut cursor = Cursor { text, at: 0 };
    let mut open: Vec<u16> = Vec::new();
    let mut nodes = 0;
    loop {
        cursor.expect(b'<')?;
        match open.last() {
            Some(&label) if cursor.peek() == Some(b'/') => {
                cursor.at += 1;
                cursor.expect(b'n')?;
                cursor.same_label(label)?;
                cursor.expect(b'>')?;
                open.pop();
            }
            _ => {
                let (label, short) = cursor.start()?;
                nodes += 1;
                if !short {
                    open.push(label);
                }
            }
        }
        if open.is_empty() {
            return if cursor.at == text.len() {
                Ok(nodes)
            } else {
                Err(cursor.at)
            };
        }
    }
}

/// The rows of a right text.
fn fill(text: &[u8], words: &mut [u16]) {
    let mut cursor = Cursor { text, at: 0 };
    let (mut node, mut inside) = (0, 0);
    while cursor.at < text.len() {
        cursor.at += 1;
        if cursor.peek() == Some(b'/') {
            while text[cursor.at] != b'>' {
                cursor.at += 1;
            }
            cursor.at += 1;
            inside = usize::from(words[2 * inside]);
            continue;
        }
        let (label, short) = cursor.start().expect("the text is right");
        words[2 * node] = inside as u16;
        words[2 * node + 1] = label;
        if !short {
            inside = node;
        }
        node += 1;
    }
}

/// Reads a tree's tags; the number of words.
pub fn read_tree(text: &[u8], words: &mut [u16]) -> Counted {
    let nodes = checked(text).map_err(|_| 14_usize)?;
    if nodes > TREE_NODES {
        return Err(2);
    }
    if words.len() < 2 * nodes {
        return Err(7);
    }
    fill(text, words);
    Ok(2 * nodes)
}
