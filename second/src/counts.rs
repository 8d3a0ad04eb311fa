//! Counts of what the tables went through.

use std::io::{self, Write};

/// A number with its name.
pub struct Count {
    name: &'static str,
    number: usize,
}

/// The counts of a table.
pub type Counts = Vec<Count>;

impl Count {
    /// A named number.
    pub fn new(name: &'static str, number: usize) -> Count {
        Count { name, number }
    }
}

/// Writes a line a count: the name and the number.
pub fn write(counts: &[Count], out: &mut dyn Write) -> io::Result<()> {
    for count in counts {
        writeln!(out, "{} {}", count.name, count.number)?;
    }
    Ok(())
}
