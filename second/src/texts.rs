//! Table 5: patterns read from text and written as text, everything small.

use crate::buffers;
use crate::counts::{Count, Counts};
use crate::digest::Digest;
use crate::pattern_texts::{names_of, Reader, Writer};
use crate::refusal::Refusal;
use crate::right_lists::RightLists;
use crate::right_texts::RightTexts;
use crate::rows::{rows, rows_to};
use crate::single_bytes;
use std::io::{self, Write};

/// Names are made of these bytes.
const NAME_BYTES: &[u8] = b"ab-";

/// Texts have at most this many bytes.
const MOST_TEXT: usize = 8;

/// What their bytes are.
const TEXT_BYTES: &[u8] = b"/*ab-";

/// The list with which they are read; one of its names is the start of another.
const LIST: &[u8] = b"b\na-\na\n";

/// Words of the buffer that they are read into, one more than any needs.
const TEXT_ROOM: usize = 9;

/// Lists have at most this many bytes.
const MOST_LIST: usize = 8;

/// What their bytes are.
const LIST_BYTES: &[u8] = b"ab-:\n";

/// The text that is read with them.
const TEXT: &[u8] = b"/a";

/// Words of the buffer that it is read into, one more than it needs.
const WORDS_ROOM: usize = 3;

/// Patterns have at most this many words.
const MOST_WORDS: usize = 6;

/// What their words are.
const WORDS: &[u16] = &[0, 1, 2, 3];

/// The list with which they are written.
const TWO_NAMES: &[u8] = b"b\na-\n";

/// Bytes of the longest buffer that they are written into, one more than any needs.
const BYTES_ROOM: usize = 12;

/// In pairs, lists, texts and patterns have at most this many bytes or words, and buffers too.
const MOST_PAIRED: usize = 3;

/// What the bytes of a list are in pairs.
const PAIRED_LIST: &[u8] = b"a:\n";

/// What the bytes of a text are in pairs.
const PAIRED_TEXT: &[u8] = b"/a*";

/// What the words of a pattern are in pairs.
const PAIRED_WORDS: &[u16] = &[0, 1, 2];

/// What each element of a buffer is before a call.
const FILLING: u8 = 7;

/// Writes table 5.
pub fn write(out: &mut dyn Write) -> io::Result<Counts> {
    let bytes = single_bytes::write(out)?;
    let texts = write_texts(out)?;
    let lists = write_lists(out)?;
    let patterns = write_patterns(out)?;
    let paired = write_paired(out)?;
    Ok(vec![
        Count::new("single-bytes", bytes),
        Count::new("texts", texts),
        Count::new("lists", lists),
        Count::new("patterns", patterns),
        Count::new("paired-lists", paired),
    ])
}

/// A line for each length of texts; gives the number of texts.
fn write_texts(out: &mut dyn Write) -> io::Result<usize> {
    let reader = Reader {
        lists: RightLists::over(NAME_BYTES, LIST.len()),
        texts: RightTexts::over(NAME_BYTES, MOST_TEXT),
    };
    let names = reader.lists.names(LIST).expect("the list is right");
    let writer = Writer::of(names, MOST_TEXT);
    let mut tried = 0;
    for length in 0..=MOST_TEXT {
        let mut digest = Digest::default();
        let (mut read, mut back) = (0, 0);
        for text in rows(TEXT_BYTES, length) {
            tried += 1;
            let answer = reader.read(LIST, &text, TEXT_ROOM);
            take(&mut digest, &answer, TEXT_ROOM);
            if let Ok(words) = answer {
                let short = words.len() - 1;
                take(&mut digest, &reader.read(LIST, &text, short), short);
                read += 1;
                back += usize::from(writer.write(&words, length) == Ok(text));
            }
        }
        writeln!(out, "texts {length} {read} {back} {}", digest.text())?;
    }
    Ok(tried)
}

/// A line for each length of lists; gives the number of lists.
fn write_lists(out: &mut dyn Write) -> io::Result<usize> {
    let reader = Reader {
        lists: RightLists::over(NAME_BYTES, MOST_LIST),
        texts: RightTexts::over(NAME_BYTES, TEXT.len()),
    };
    let mut tried = 0;
    for length in 0..=MOST_LIST {
        let mut digest = Digest::default();
        let mut right = 0;
        for list in rows(LIST_BYTES, length) {
            tried += 1;
            right += usize::from(reader.lists.names(&list).is_ok());
            take(
                &mut digest,
                &reader.read(&list, TEXT, WORDS_ROOM),
                WORDS_ROOM,
            );
        }
        writeln!(out, "lists {length} {right} {}", digest.text())?;
    }
    Ok(tried)
}

/// A line for each number of words; gives the number of patterns.
fn write_patterns(out: &mut dyn Write) -> io::Result<usize> {
    let lists = RightLists::over(NAME_BYTES, TWO_NAMES.len());
    let names = lists.names(TWO_NAMES).expect("the list is right");
    let writer = Writer::of(names, BYTES_ROOM);
    let texts = RightTexts::with_names(names, BYTES_ROOM);
    let reader = Reader { lists, texts };
    let mut tried = 0;
    for length in 0..=MOST_WORDS {
        let mut digest = Digest::default();
        let (mut written, mut back) = (0, 0);
        for words in rows(WORDS, length) {
            tried += 1;
            for room in 0..=BYTES_ROOM {
                take(&mut digest, &writer.write(&words, room), room);
            }
            if let Ok(text) = writer.write(&words, BYTES_ROOM) {
                written += 1;
                back += usize::from(reader.read(TWO_NAMES, &text, length) == Ok(words));
            }
        }
        writeln!(out, "patterns {length} {written} {back} {}", digest.text())?;
    }
    Ok(tried)
}

/// A line for every list with every text, and one for every list with every pattern; gives the number of calls.
fn write_paired(out: &mut dyn Write) -> io::Result<usize> {
    let reader = Reader {
        lists: RightLists::over(NAME_BYTES, MOST_PAIRED),
        texts: RightTexts::over(NAME_BYTES, MOST_PAIRED),
    };
    let (mut texts, mut patterns) = (Digest::default(), Digest::default());
    let mut tried = 0;
    for list in rows_to(PAIRED_LIST, MOST_PAIRED) {
        for text in rows_to(PAIRED_TEXT, MOST_PAIRED) {
            for room in 0..=MOST_PAIRED {
                tried += 1;
                take(&mut texts, &reader.read(&list, &text, room), room);
            }
        }
        let writer = names_of(&reader.lists, &list).map(|names| Writer::of(names, MOST_PAIRED));
        for words in rows_to(PAIRED_WORDS, MOST_PAIRED) {
            for room in 0..=MOST_PAIRED {
                tried += 1;
                let writer = writer.as_ref().map_err(|&refusal| refusal);
                let answer = writer.and_then(|writer| writer.write(&words, room));
                take(&mut patterns, &answer, room);
            }
        }
    }
    writeln!(out, "list-and-text {}", texts.text())?;
    writeln!(out, "list-and-pattern {}", patterns.text())?;
    Ok(tried)
}

/// Takes an answer and its buffer.
fn take<T>(digest: &mut Digest, answer: &Result<Vec<T>, Refusal>, room: usize)
where
    T: From<u8> + Into<usize> + Copy,
{
    buffers::take(digest, answer, room, T::from(FILLING));
}

#[cfg(test)]
mod tests {
    use super::*;

    #[test]
    fn what_goes_there_comes_back() {
        let mut out = Vec::new();
        assert_eq!(write_texts(&mut out).unwrap(), 488_281);
        assert_eq!(write_patterns(&mut out).unwrap(), 5_461);
        let text = String::from_utf8(out).unwrap();
        let counts: Vec<[&str; 2]> = text
            .lines()
            .map(|line| line.split(' ').collect::<Vec<&str>>())
            .map(|words| [words[2], words[3]])
            .collect();
        let each = [
            "0", "0", "3", "1", "9", "15", "34", "82", "171", "0", "0", "3", "0", "18", "0", "108",
        ];
        assert_eq!(counts, each.map(|count| [count, count]));
    }
}
