//! Table 5, one byte: what each of the 256 does in a text and in a list.

use crate::buffers::shown;
use crate::pattern_texts::Reader;
use crate::refusal::Refusal;
use crate::right_lists::RightLists;
use crate::right_texts::RightTexts;
use std::io::{self, Write};

/// A byte in a place, the others around it: with this list this text is read.
struct Place {
    name: &'static str,
    list: fn(u8) -> Vec<u8>,
    text: fn(u8) -> Vec<u8>,
}

/// The places: first and later in a step, first and later in an entry.
const PLACES: [Place; 4] = [
    Place {
        name: "text-first",
        list: |_| Vec::new(),
        text: |byte| vec![b'/', byte],
    },
    Place {
        name: "text-later",
        list: |_| Vec::new(),
        text: |byte| vec![b'/', b'a', byte],
    },
    Place {
        name: "list-first",
        list: |byte| vec![byte, b'\n'],
        text: |_| b"/*".to_vec(),
    },
    Place {
        name: "list-later",
        list: |byte| vec![b'a', byte, b'\n'],
        text: |_| b"/*".to_vec(),
    },
];

/// What reading answers: the words that it wrote, or a refusal.
type Answer = Result<Vec<u16>, Refusal>;

/// Writes for each place a line for each run of bytes with one answer; gives the number of answers.
pub fn write(out: &mut dyn Write) -> io::Result<usize> {
    let mut tried = 0;
    for place in &PLACES {
        tried += write_runs(out, place.name, |byte| answer(place, byte))?;
    }
    Ok(tried)
}

/// Writes a line for each longest run of bytes with one answer; gives the number of answers.
pub fn write_runs(
    out: &mut dyn Write,
    name: &str,
    answer: impl Fn(u8) -> Answer,
) -> io::Result<usize> {
    let answers = (0..=u8::MAX).map(|byte| shown(&answer(byte)));
    let answers: Vec<String> = answers.collect();
    let mut from = 0;
    for run in answers.chunk_by(|one, other| one == other) {
        let to = from + run.len() - 1;
        writeln!(out, "{name} {from} {to} {}", run[0])?;
        from = to + 1;
    }
    Ok(answers.len())
}

/// The answer for one byte, found among what its small alphabet makes.
fn answer(place: &Place, byte: u8) -> Answer {
    let (list, text) = ((place.list)(byte), (place.text)(byte));
    let reader = Reader {
        lists: RightLists::over(&with_a(byte), list.len()),
        texts: RightTexts::over(&with_a(byte), text.len()),
    };
    reader.read(&list, &text, 2)
}

/// A byte and `a`, each once.
fn with_a(byte: u8) -> Vec<u8> {
    match byte {
        b'a' => vec![byte],
        _ => vec![b'a', byte],
    }
}

#[cfg(test)]
mod tests {
    use super::*;

    #[test]
    fn runs_cover_every_byte() {
        let mut out = Vec::new();
        assert_eq!(write(&mut out).unwrap(), 4 * 256);
        let text = String::from_utf8(out).unwrap();
        let of = |name: &str| text.lines().filter(|line| line.starts_with(name)).count();
        let lines: Vec<&str> = text.lines().take(6).collect();
        let expected = [
            "text-first 0 41 14 7 1",
            "text-first 42 42 ok 2",
            "text-first 43 64 14 7 1",
            "text-first 65 90 15 1 0",
            "text-first 91 94 14 7 1",
            "text-first 95 95 15 1 0",
        ];
        assert_eq!(lines, expected);
        assert_eq!(of("text-first"), 14);
    }
}
