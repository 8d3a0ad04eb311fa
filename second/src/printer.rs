//! Where the plan printer stops in its input, and why. What it prints for frames
//! that are all accepted is made elsewhere.

use crate::batch::lone_frame;
use crate::limits::{BATCH_WORDS, FRAMES, LINE_DIGITS};
use crate::refusal::number;
use std::fmt;

/// What a mode line begins with, in place of a frame's kind.
const MODE_LINE: u16 = 4;

/// Digits by their value.
const DIGITS: &[u8; 16] = b"0123456789ABCDEF";

/// Digits of a word.
const WORD_DIGITS: usize = 4;

/// Where the printer stops: the line, counted from 1, the refusal number and the
/// offset in that line.
#[derive(Clone, Copy, Debug, PartialEq, Eq)]
pub struct Stop {
    pub line: usize,
    pub number: usize,
    pub offset: usize,
}

impl fmt::Display for Stop {
    /// The three numbers with a colon between.
    fn fmt(&self, f: &mut fmt::Formatter<'_>) -> fmt::Result {
        write!(f, "{}:{}:{}", self.line, self.number, self.offset)
    }
}

impl Stop {
    /// The same with one line more in front of all.
    fn one_line_down(self) -> Stop {
        let line = self.line + 1;
        Stop { line, ..self }
    }
}

/// Goes through lines as the printer does, up to its first refusal. What stands
/// behind a mode line is looked at as an input of its own, one line further down.
pub fn check(input: &str) -> Result<(), Stop> {
    let (first, behind) = input.split_once('\n').unwrap_or((input, ""));
    match words_of(first) {
        Some(words) if words[0] == MODE_LINE => {
            check_mode(&words)?;
            check_frames(behind).map_err(Stop::one_line_down)
        }
        _ => check_frames(input),
    }
}

/// A mode line has one word behind its first, 1 or 2.
fn check_mode(words: &[u16]) -> Result<(), Stop> {
    let (number, offset) = match words {
        [_, 1 | 2] => return Ok(()),
        [_, _] => (number::WRONG_KIND, 1),
        [_] => (number::FRAME_ENDS, 1),
        _ => (number::FRAME_ENDS, 2),
    };
    let line = 1;
    Err(Stop {
        line,
        number,
        offset,
    })
}

/// Goes through lines of frames. Each is looked at alone: of those before it only
/// how many they are, and how many words they have, can matter.
fn check_frames(input: &str) -> Result<(), Stop> {
    let mut words = 0;
    for (lines, text) in input.split_terminator('\n').enumerate() {
        words += check_line(text, lines, words).map_err(|(number, offset)| Stop {
            line: lines + 1,
            number,
            offset,
        })?;
    }
    Ok(())
}

/// The number of words of a line behind so many lines and words, else the refusal
/// number and the offset in the line.
fn check_line(text: &str, lines: usize, words: usize) -> Result<usize, (usize, usize)> {
    let line = words_of(text).ok_or((number::WRONG_LINE, 0))?;
    if words + line.len() > BATCH_WORDS || lines == FRAMES {
        return Err((number::TOO_MANY, 0));
    }
    lone_frame(&line).map_err(|refusal| (refusal.number, refusal.place))?;
    Ok(line.len())
}

/// The answer for an input as table 9 shows it.
pub fn answer(input: &str) -> String {
    match check(input) {
        Ok(()) => "ok".to_string(),
        Err(stop) => stop.to_string(),
    }
}

/// The text of some lines by their words, each ended by a line feed.
pub fn text_of(lines: &[Vec<u16>]) -> String {
    lines.iter().map(|line| line_of(line) + "\n").collect()
}

/// The digits of a row of words.
pub fn line_of(words: &[u16]) -> String {
    words.iter().map(|word| format!("{word:04X}")).collect()
}

/// The words of a line, if it is well formed.
fn words_of(text: &str) -> Option<Vec<u16>> {
    if text.is_empty() || text.len() > LINE_DIGITS {
        return None;
    }
    text.as_bytes().chunks(WORD_DIGITS).map(word_of).collect()
}

/// The word that four digits stand for, and no other bytes.
fn word_of(text: &[u8]) -> Option<u16> {
    if text.len() != WORD_DIGITS {
        return None;
    }
    text.iter().try_fold(0, |word, byte| {
        let digit = DIGITS.iter().position(|digit| digit == byte)?;
        Some(16 * word + digit as u16)
    })
}

#[cfg(test)]
mod tests {
    use super::*;

    /// The shortest read.
    const READ: &str = "0001000100000001";

    /// An insert of so many wildcard steps and, below one root, so many nodes.
    fn insert(steps: usize, nodes: usize) -> String {
        let later = "00010000".repeat(steps - 1);
        let star = "00000001".repeat(nodes);
        format!("0002{steps:04X}00000000{later}{nodes:04X}{star}")
    }

    /// The answer for so many equal lines with another behind them.
    fn behind(count: usize, line: &str, last: &str) -> String {
        answer(&format!("{}{last}\n", repeated(count, line)))
    }

    /// So many equal lines.
    fn repeated(count: usize, line: &str) -> String {
        format!("{line}\n").repeat(count)
    }

    /// The answer for a line behind so many reads.
    fn behind_reads(count: usize, last: &str) -> String {
        behind(count, READ, last)
    }

    #[test]
    fn digits_come_back_as_words() {
        let words = [0, 1, 0x9AB, 0xCDEF, 65_535];
        assert_eq!(line_of(&words), "0000000109ABCDEFFFFF");
        assert_eq!(words_of(&line_of(&words)), Some(words.to_vec()));
    }

    #[test]
    fn lines_without_a_fault_are_taken() {
        assert_eq!(check(""), Ok(()));
        assert_eq!(check(READ), Ok(()));
        assert_eq!(behind_reads(1, READ), "ok");
        assert_eq!(insert(255, 1_024).len(), LINE_DIGITS);
        assert_eq!(behind_reads(1, &insert(255, 1_024)), "ok");
    }

    #[test]
    fn offsets_are_counted_in_the_line() {
        assert_eq!(behind_reads(0, "0005"), "1:8:0");
        assert_eq!(behind_reads(1, "000100020000000100030001"), "2:3:4");
        assert_eq!(behind_reads(2, "00010000"), "3:1:1");
        assert_eq!(behind_reads(2, "00010100"), "3:2:1");
        assert_eq!(behind_reads(3, "0003000100000001"), "4:6:1");
        assert_eq!(behind_reads(3, "0002000100000000000100010001"), "4:4:5");
        assert_eq!(behind_reads(3, "0002000100000000000100000000"), "4:5:6");
    }

    #[test]
    fn the_last_label_of_the_longest_line_has_an_offset() {
        let line = insert(255, 1_024);
        let zero = format!("{}0000", &line[..line.len() - 4]);
        assert_eq!(behind_reads(1, &zero), "2:5:2560");
        assert_eq!(behind_reads(1, &line[..line.len() - 4]), "2:9:2560");
    }

    #[test]
    fn a_missing_word_is_behind_the_last_of_its_line() {
        assert_eq!(behind_reads(0, "0001"), "1:9:1");
        assert_eq!(behind_reads(1, "000100010000"), "2:9:3");
        assert_eq!(behind(1, "000100010000", READ), "1:9:3");
    }

    #[test]
    fn words_left_over_are_refused_last() {
        assert_eq!(behind_reads(1, &READ.repeat(2)), "2:9:4");
        assert_eq!(behind_reads(1, "00010001000000010001"), "2:9:4");
        assert_eq!(behind_reads(1, "00030001000000010001"), "2:6:1");
        let longest = format!("{}00000000", insert(255, 1_023));
        assert_eq!(behind_reads(1, &longest), "2:9:2559");
    }

    #[test]
    fn malformed_lines_have_no_offset() {
        let wrong = ["", "000", "00010", "000a", "000G", "+001", "0001 ", "00é"];
        for line in wrong {
            assert_eq!(behind_reads(1, line), "2:13:0");
            assert_eq!(behind(1, line, READ), "1:13:0");
        }
        let too_long = format!("{}0000", insert(255, 1_024));
        assert_eq!(behind_reads(1, &too_long), "2:13:0");
    }

    #[test]
    fn frames_too_many_have_no_offset() {
        assert_eq!(behind_reads(127, READ), "ok");
        assert_eq!(behind_reads(128, READ), "129:10:0");
        assert_eq!(behind_reads(128, "0000"), "129:10:0");
        assert_eq!(behind_reads(128, "000"), "129:13:0");
    }

    /// Six of the longest lines and a short one, of 15,373 words.
    fn seven_long() -> String {
        let longest = repeated(6, &insert(255, 1_024));
        format!("{longest}{}\n", insert(1, 1))
    }

    #[test]
    fn words_too_many_have_no_offset() {
        let last = |line: &str| answer(&format!("{}{line}\n", seven_long()));
        assert_eq!(last(&insert(1, 503)), "ok");
        assert_eq!(last(&insert(1, 504)), "8:10:0");
        assert_eq!(last(&"0".repeat(4 * 1_011)), "8:8:0");
        assert_eq!(last(&"0".repeat(4 * 1_012)), "8:10:0");
    }

    /// The mode lines.
    const MODES: [&str; 2] = ["00040001", "00040002"];

    /// The answer for some lines behind each mode line; it is the same for both.
    fn behind_mode(lines: &str) -> String {
        let [node, deep] = MODES.map(|mode| answer(&format!("{mode}\n{lines}")));
        assert_eq!(node, deep);
        node
    }

    #[test]
    fn a_mode_line_is_taken_in_front() {
        for mode in MODES {
            assert_eq!(answer(mode), "ok");
            assert_eq!(behind_reads(0, mode), "ok");
        }
        assert_eq!(behind_mode(READ), "ok");
        assert_eq!(behind_mode(&repeated(2, READ)), "ok");
    }

    #[test]
    fn another_mode_is_refused() {
        for mode in ["00040000", "00040003", "0004FFFF"] {
            assert_eq!(answer(mode), "1:8:1");
            assert_eq!(behind_reads(0, mode), "1:8:1");
            assert_eq!(behind(1, mode, READ), "1:8:1");
        }
    }

    #[test]
    fn the_length_of_a_mode_line_comes_before_its_mode() {
        assert_eq!(answer("0004"), "1:9:1");
        assert_eq!(behind(1, "0004", READ), "1:9:1");
        for over in ["0001", "0000", "00010000"] {
            assert_eq!(answer(&format!("00040001{over}")), "1:9:2");
            assert_eq!(answer(&format!("00040003{over}")), "1:9:2");
        }
        let longest = "0004".repeat(LINE_DIGITS / 4);
        assert_eq!(answer(&longest), "1:9:2");
        assert_eq!(answer(&(longest + "0004")), "1:13:0");
    }

    #[test]
    fn a_malformed_first_line_is_no_mode_line() {
        let wrong = [
            "00040",
            "000400",
            "0004000",
            "0004000g",
            "00040001 ",
            " 00040001",
            "0004,001",
            "0004000100",
            "0004\r",
        ];
        for line in wrong {
            assert_eq!(answer(line), "1:13:0");
            assert_eq!(behind(1, line, READ), "1:13:0");
        }
        assert_eq!(answer("\n00040001\n"), "1:13:0");
    }

    #[test]
    fn a_mode_line_is_refused_in_any_other_line() {
        let no_frames = ["00040001", "00040002", "00040003", "0004", "000400010000"];
        for line in no_frames {
            assert_eq!(behind_mode(line), "2:8:0");
            assert_eq!(behind_mode(&format!("{READ}\n{line}")), "3:8:0");
            assert_eq!(behind_reads(1, line), "2:8:0");
            assert_eq!(behind_reads(127, line), "128:8:0");
            assert_eq!(behind_reads(128, line), "129:10:0");
        }
    }

    #[test]
    fn refusals_behind_a_mode_line_are_one_line_further_down() {
        let wrong = [
            ("", "13:0"),
            ("000", "13:0"),
            ("0000", "8:0"),
            ("0001", "9:1"),
            ("00010000", "1:1"),
            ("00010100", "2:1"),
            ("000100020000000100030001", "3:4"),
            ("0003000100000001", "6:1"),
            ("0002000100000000000100010001", "4:5"),
            ("0002000100000000000100000000", "5:6"),
            ("00010001000000010001", "9:4"),
        ];
        for (line, refusal) in wrong {
            for before in [0, 1, 126, 127] {
                let lines = format!("{}{line}\n", repeated(before, READ));
                assert_eq!(answer(&lines), format!("{}:{refusal}", before + 1));
                assert_eq!(behind_mode(&lines), format!("{}:{refusal}", before + 2));
            }
        }
    }

    #[test]
    fn a_mode_line_is_not_among_the_frames() {
        assert_eq!(behind_mode(&repeated(128, READ)), "ok");
        assert_eq!(behind_mode(&repeated(129, READ)), "130:10:0");
        let reads = repeated(128, READ);
        assert_eq!(behind_mode(&format!("{reads}0000")), "130:10:0");
        assert_eq!(behind_mode(&format!("{reads}000")), "130:13:0");
    }

    #[test]
    fn a_mode_line_is_not_among_the_words() {
        let long = seven_long();
        let most = insert(1, 503);
        assert_eq!(6 * 2_561 + 7 + most.len() / 4, BATCH_WORDS);
        assert_eq!(behind_mode(&format!("{long}{most}")), "ok");
        let more = insert(1, 504);
        assert_eq!(behind_mode(&format!("{long}{more}")), "9:10:0");
        assert_eq!(behind_mode(&format!("{long}{most}\n{READ}")), "10:10:0");
    }
}
