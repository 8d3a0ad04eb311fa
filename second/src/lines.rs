//! Table 9: the damaged batches given to the plan printer, a line a frame, without a
//! mode line and behind one.

use crate::counts::{Count, Counts};
use crate::damage::BATCHES;
use crate::mode_lines;
use crate::printed_plans;
use crate::printer::{answer, line_of};
use crate::word_damages::{damages, harmed};
use std::io::{self, Write};

/// Writes table 9: for each batch each word's damages, those of its lines' text, then
/// mode lines and the plans.
pub fn write(out: &mut dyn Write) -> io::Result<Counts> {
    let (mut words, mut texts, mut modes, mut plans) = (0, 0, 0, 0);
    for (batch, frames) in (1..).zip(BATCHES) {
        words += write_words(out, batch, frames)?;
        texts += write_texts(out, batch, frames)?;
        modes += mode_lines::write(out, batch, frames)?;
        plans += printed_plans::write(out, batch, frames)?;
    }
    Ok(vec![
        Count::new("damaged-line-words", words),
        Count::new("damaged-line-texts", texts),
        Count::new("mode-lines", modes),
        Count::new("printed-plans", plans),
    ])
}

/// Writes a line for each word of a batch; gives the number of inputs tried.
fn write_words(out: &mut dyn Write, batch: usize, frames: &[&[u16]]) -> io::Result<usize> {
    let mut tried = 0;
    let mut before = 0;
    for (line, frame) in frames.iter().enumerate() {
        for word in 0..frame.len() {
            write!(out, "{batch} {}", before + word)?;
            let texts = damages().map(|damage| line_of(&harmed(frame, (word, damage))));
            tried += write_answers(out, frames, line, texts)?;
        }
        before += frame.len();
    }
    Ok(tried)
}

/// Writes a line for each line of a batch; gives the number of inputs tried.
fn write_texts(out: &mut dyn Write, batch: usize, frames: &[&[u16]]) -> io::Result<usize> {
    let mut tried = 0;
    for (line, frame) in frames.iter().enumerate() {
        write!(out, "{batch} line {}", line + 1)?;
        tried += write_answers(out, frames, line, text_damages(&line_of(frame)))?;
    }
    Ok(tried)
}

/// Ends a line with the answers for a batch in which each of these texts stands
/// in place of one of its lines; gives their number.
fn write_answers(
    out: &mut dyn Write,
    frames: &[&[u16]],
    line: usize,
    texts: impl IntoIterator<Item = String>,
) -> io::Result<usize> {
    let mut tried = 0;
    for text in texts {
        tried += 1;
        write!(out, " {}", answer(&input(frames, line, &text)))?;
    }
    writeln!(out)?;
    Ok(tried)
}

/// What happens to the text of a line: its last digit is left out, a blank stands
/// in front of it, an empty line stands before it.
fn text_damages(text: &str) -> [String; 3] {
    let cut = &text[..text.len() - 1];
    [cut.to_string(), format!(" {text}"), format!("\n{text}")]
}

/// The lines of a batch, each ended by a line feed, with this text as one of them.
fn input(frames: &[&[u16]], line: usize, text: &str) -> String {
    let mut lines: Vec<String> = frames.iter().map(|frame| line_of(frame)).collect();
    lines[line] = text.to_string();
    lines.iter().map(|line| format!("{line}\n")).collect()
}

#[cfg(test)]
mod tests {
    use super::*;
    use crate::batch::frames;
    use crate::printer::{check, Stop};

    /// A batch as lines with one word damaged: all words up to the end of that
    /// line, how many stand before it, its number from 1, and the answer.
    struct Damaged {
        words: Vec<u16>,
        before: usize,
        line: usize,
        found: Result<(), Stop>,
    }

    /// Every word of every batch with each of its damages.
    fn all_damaged() -> Vec<Damaged> {
        let mut all = Vec::new();
        for batch in BATCHES {
            for (line, frame) in batch.iter().enumerate() {
                let before = batch[..line].concat();
                for word in 0..frame.len() {
                    all.extend(damages().map(|damage| {
                        let words = harmed(frame, (word, damage));
                        Damaged {
                            found: check(&input(batch, line, &line_of(&words))),
                            words: [&before[..], &words].concat(),
                            before: before.len(),
                            line: line + 1,
                        }
                    }));
                }
            }
        }
        all
    }

    #[test]
    fn the_undamaged_lines_are_taken() {
        for batch in BATCHES {
            let own = line_of(batch[0]);
            assert_eq!(check(&input(batch, 0, &own)), Ok(()));
        }
    }

    #[test]
    fn damage_does_not_reach_another_line() {
        for damaged in all_damaged() {
            if let Err(stop) = damaged.found {
                assert_eq!(stop.line, damaged.line);
            }
        }
    }

    #[test]
    fn a_line_is_refused_as_the_batch_is_that_ends_with_it() {
        let mut left_over = 0;
        for damaged in all_damaged() {
            let in_batch = |stop: Stop| (stop.number, damaged.before + stop.offset);
            let found = damaged.found.map_err(in_batch);
            if found.is_err_and(|(number, place)| number == 9 && place < damaged.words.len()) {
                left_over += 1;
                continue;
            }
            let refused = frames(&damaged.words).map(|_| ());
            assert_eq!(found, refused.map_err(|no| (no.number, no.place)));
        }
        assert!(left_over > 0);
    }

    #[test]
    fn a_word_has_an_answer_for_each_damage() {
        let mut out = Vec::new();
        assert_eq!(write_words(&mut out, 3, BATCHES[2]).unwrap(), 4 * 23);
        let text = String::from_utf8(out).unwrap();
        let lines: Vec<&str> = text.lines().collect();
        let kinds = format!(
            "3 0 1:8:0 ok 1:9:4 1:6:1 1:9:2{} 1:1:1 1:3:2",
            " 1:8:0".repeat(16)
        );
        let labels = format!("3 3{} 1:9:3 1:9:4", " ok".repeat(21));
        assert_eq!(lines.len(), 4);
        assert_eq!((lines[0], lines[3]), (&kinds[..], &labels[..]));
    }

    #[test]
    fn a_line_has_an_answer_for_each_damage_of_its_text() {
        assert_eq!(text_damages("0A0B"), ["0A0", " 0A0B", "\n0A0B"]);
        let mut out = Vec::new();
        assert_eq!(write_texts(&mut out, 2, BATCHES[1]).unwrap(), 6);
        let lines = "2 line 1 1:13:0 1:13:0 1:13:0\n2 line 2 2:13:0 2:13:0 2:13:0\n";
        assert_eq!(String::from_utf8(out).unwrap(), lines);
    }
}
