//! Buffers that a call writes into: their room, and what is in them afterwards.

use crate::digest::Digest;
use crate::refusal::{number, Refusal, ROOM};

/// What is written, if there is room for it.
pub fn fitting<T>(written: Vec<T>, room: usize) -> Result<Vec<T>, Refusal> {
    if written.len() > room {
        return Err(Refusal {
            number: number::TOO_SHORT,
            table: ROOM,
            place: 0,
        });
    }
    Ok(written)
}

/// An answer as a table shows it: how much was written, or the refusal.
pub fn shown<T>(answer: &Result<Vec<T>, Refusal>) -> String {
    match answer {
        Ok(written) => format!("ok {}", written.len()),
        Err(refusal) => refusal.to_string(),
    }
}

/// All elements of a buffer after a call, each of which was `filling` before it.
pub fn after<T: Copy>(answer: &Result<Vec<T>, Refusal>, room: usize, filling: T) -> Vec<T> {
    let mut buffer = vec![filling; room];
    if let Ok(written) = answer {
        buffer[..written.len()].copy_from_slice(written);
    }
    buffer
}

/// Takes how much was written, or the refusal, and then the whole buffer.
pub fn take<T>(digest: &mut Digest, answer: &Result<Vec<T>, Refusal>, room: usize, filling: T)
where
    T: Into<usize> + Copy,
{
    match answer {
        Ok(written) => digest.take(written.len()),
        Err(refusal) => digest.take_refusal(*refusal),
    }
    digest.take_all(&after(answer, room, filling));
}

#[cfg(test)]
mod tests {
    use super::*;

    /// The refusal of a buffer that is too short.
    const TOO_SHORT: Refusal = Refusal {
        number: 7,
        table: 4,
        place: 0,
    };

    #[test]
    fn what_does_not_fit_is_refused() {
        assert_eq!(fitting(vec![1, 2], 2), Ok(vec![1, 2]));
        assert_eq!(fitting(vec![1, 2], 1), Err(TOO_SHORT));
    }

    #[test]
    fn a_refusal_leaves_the_buffer() {
        let of = |answer: Result<Vec<u16>, Refusal>| {
            let mut digest = Digest::default();
            take(&mut digest, &answer, 3, 7);
            digest
        };
        let mut expected = Digest::default();
        expected.take_all(&[2u16, 0, 1, 7]);
        assert_eq!(of(Ok(vec![0, 1])), expected);
        let mut expected = Digest::default();
        expected.take_all(&[107u16, 4, 0, 7, 7, 7]);
        assert_eq!(of(Err(TOO_SHORT)), expected);
    }
}
