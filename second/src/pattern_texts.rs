//! Patterns read from text and written as text, by looking for them among the right texts. No text here is so long that its steps pass
//! the limit.

use crate::buffers::fitting;
use crate::checks;
use crate::letters::Name;
use crate::refusal::{number, refused, Refusal, LIST, READ, TEXT};
use crate::right_lists::RightLists;
use crate::right_texts::{RightTexts, TextStep, STAR};
use std::collections::HashMap;

/// The right lists and the right texts over two alphabets.
pub struct Reader {
    pub lists: RightLists,
    pub texts: RightTexts,
}

impl Reader {
    /// The pattern that a text means with a list, if there is room for its words.
    pub fn read(&self, list: &[u8], text: &[u8], room: usize) -> Result<Vec<u16>, Refusal> {
        let names = names_of(&self.lists, list)?;
        let steps = self.texts.steps(text);
        let steps = steps.map_err(|place| refused(number::WRONG_TEXT, TEXT, place))?;
        let words = words_of(names, steps);
        let words = words.map_err(|step| refused(number::NO_NAME, READ, step))?;
        fitting(words, room)
    }
}

/// The names of a list, with every text that they make.
pub struct Writer {
    names: usize,
    texts: HashMap<Vec<u16>, Vec<u8>>,
}

impl Writer {
    /// For a list's patterns whose texts have at most so many bytes.
    pub fn of(names: &[Name], most: usize) -> Writer {
        let right = RightTexts::with_names(names, most);
        let texts = right.iter().filter_map(|(text, steps)| {
            let words = words_of(names, steps).ok()?;
            Some((words, text.clone()))
        });
        Writer {
            names: names.len(),
            texts: texts.collect(),
        }
    }

    /// The text that means a pattern, if there is room for its bytes.
    pub fn write(&self, words: &[u16], room: usize) -> Result<Vec<u8>, Refusal> {
        checks::pattern(words, READ)?;
        let mut labels = words.chunks(2).map(|step| usize::from(step[1]));
        if let Some(step) = labels.position(|label| label > self.names) {
            return Err(refused(number::NO_NAME, READ, step));
        }
        fitting(self.texts[words].clone(), room)
    }
}

/// The names of a list, or its refusal.
pub fn names_of<'a>(lists: &'a RightLists, list: &[u8]) -> Result<&'a [Name], Refusal> {
    let names = lists.names(list);
    names.map_err(|entry| refused(number::WRONG_TEXT, LIST, entry))
}

/// Axis and label of each step; else the first step whose name is not listed.
fn words_of(names: &[Name], steps: &[TextStep]) -> Result<Vec<u16>, usize> {
    let mut words = Vec::new();
    for (place, step) in steps.iter().enumerate() {
        words.push(step.axis);
        words.push(label_of(names, &step.word).ok_or(place)?);
    }
    Ok(words)
}

/// 0 for a star, else the name's place in the list from 1.
fn label_of(names: &[Name], word: &[u8]) -> Option<u16> {
    if word == STAR {
        return Some(0);
    }
    let place = names.iter().position(|name| name == word)?;
    Some(place as u16 + 1)
}

#[cfg(test)]
mod tests {
    use super::*;

    /// A refusal by its three numbers.
    fn no<T>(number: usize, table: usize, place: usize) -> Result<T, Refusal> {
        Err(refused(number, table, place))
    }

    #[test]
    fn reading_refuses_in_order() {
        let reader = Reader {
            lists: RightLists::over(b"ab:", 5),
            texts: RightTexts::over(b"/*ab", 5),
        };
        let read = |list: &[u8], text: &[u8], room| reader.read(list, text, room);
        assert_eq!(read(b"a\na\n", b"a", 0), no(14, 8, 1));
        assert_eq!(read(b"a\n", b"a", 0), no(14, 7, 0));
        assert_eq!(read(b"a\n", b"/b", 0), no(15, 1, 0));
        assert_eq!(read(b"a\n", b"/a/b", 0), no(15, 1, 1));
        assert_eq!(read(b"a\nb\n", b"/a//b", 3), no(7, 4, 0));
        assert_eq!(read(b"a\nb\n", b"/a//b", 4), Ok(vec![0, 1, 2, 2]));
        assert_eq!(read(b"", b"/*", 2), Ok(vec![0, 0]));
    }

    #[test]
    fn writing_refuses_in_order() {
        let writer = Writer::of(&[b"a".to_vec(), b"bc".to_vec()], 8);
        assert_eq!(writer.write(&[], 0), no(1, 1, 0));
        assert_eq!(writer.write(&[0, 1, 1], 0), no(1, 1, 0));
        assert_eq!(writer.write(&[0, 3, 3, 1], 0), no(3, 1, 1));
        assert_eq!(writer.write(&[1, 1], 0), no(3, 1, 0));
        assert_eq!(writer.write(&[0, 1, 1, 3], 0), no(15, 1, 1));
        assert_eq!(writer.write(&[0, 1, 2, 2, 1, 0], 7), no(7, 4, 0));
        let text = writer.write(&[0, 1, 2, 2, 1, 0], 8).unwrap();
        assert_eq!(text, b"/a//bc/*");
    }
}
