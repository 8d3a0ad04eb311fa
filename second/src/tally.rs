//! What the calls of a line of table 8 or 11 answer.

use crate::buffers::take;
use crate::digest::Digest;
use crate::refusal::Refusal;
use std::io::{self, Write};

/// How many calls there were, how many of them wrote, how much these wrote together, and the digest.
#[derive(Default)]
pub struct Tally {
    calls: usize,
    written: usize,
    length: usize,
    digest: Digest,
}

impl Tally {
    /// Takes the answers of a call into the whole buffer, then into as much room as that took, then, if it took
    /// any, into one less.
    pub fn take_rooms<T>(
        &mut self,
        call: impl Fn(usize) -> Result<Vec<T>, Refusal>,
        whole: usize,
        filling: T,
    ) where
        T: Into<usize> + Copy,
    {
        let length = self.take(&call(whole), whole, filling);
        self.take(&call(length), length, filling);
        if length > 0 {
            self.take(&call(length - 1), length - 1, filling);
        }
    }

    /// Takes the answer of a call and its buffer of so much room; how much of it was written.
    pub fn take<T>(&mut self, answer: &Result<Vec<T>, Refusal>, room: usize, filling: T) -> usize
    where
        T: Into<usize> + Copy,
    {
        take(&mut self.digest, answer, room, filling);
        let length = answer.as_ref().map_or(0, Vec::len);
        self.calls += 1;
        self.written += usize::from(answer.is_ok());
        self.length += length;
        length
    }

    /// Writes the line; gives the number of calls.
    pub fn line(&self, out: &mut dyn Write, name: &str, number: usize) -> io::Result<usize> {
        let (calls, written, length) = (self.calls, self.written, self.length);
        let digest = self.digest.text();
        writeln!(out, "{name} {number} {calls} {written} {length} {digest}")?;
        Ok(calls)
    }
}

/// The lines that a part of a table writes, for its tests.
#[cfg(test)]
pub fn lines(part: fn(&mut dyn Write) -> io::Result<usize>) -> Vec<String> {
    let mut out = Vec::new();
    part(&mut out).unwrap();
    let text = String::from_utf8(out).unwrap();
    text.lines().map(String::from).collect()
}

#[cfg(test)]
mod tests {
    use super::*;
    use crate::buffers::fitting;

    #[test]
    fn what_is_written_is_written_by_two_of_three_calls() {
        let mut tally = Tally::default();
        tally.take_rooms(|room| fitting(vec![1u8, 2], room), 3, 7);
        let mut digest = Digest::default();
        digest.take_all(&[2u8, 1, 2, 7, 2, 1, 2, 107, 4, 0, 7]);
        let mut line = Vec::new();
        assert_eq!(tally.line(&mut line, "name", 9).unwrap(), 3);
        let expected = format!("name 9 3 2 4 {}\n", digest.text());
        assert_eq!(line, expected.into_bytes());
    }
}
