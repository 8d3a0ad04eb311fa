//! Another build of the library, such as the one before a change: its reading beside this one's, the peer's and
//! libxml2's, on the same documents.

use crate::documents::{Document, Read};
use crate::measure::{fastest, text};
use crate::proved::reading;
use crate::rows::{beside, long_read, reads, xpath};
use crate::{peer, proved};
use std::hint::black_box;

// `benchmarks/run` gives the other archive's function this name.
reading!("before", before_read);

/// The times of both builds, of the peer and, where it answers, of libxml2 for a read.
fn times(document: &Document, asked: &Read) -> Vec<f64> {
    let Document { rows, marks, used, .. } = document;
    let words = &asked.words;
    let mut answers = [(); 3].map(|()| vec![2; *used]);
    let [a, b, c] = &mut answers;
    assert_eq!(read(words, rows, marks, *used, a), Ok(0));
    assert_eq!(proved::read(words, rows, marks, *used, b), Ok(0));
    assert_eq!(
        peer::read::read(words, rows, marks, *used, &proved::IDENTITIES, c),
        Ok(0)
    );
    assert_eq!(a, b);
    assert_eq!(b, c);
    let mut before = || {
        let _ = black_box(read(black_box(words), rows, marks, *used, a));
    };
    let mut now = || {
        let _ = black_box(proved::read(black_box(words), rows, marks, *used, b));
    };
    let mut rust = || {
        let _ = black_box(peer::read::read(
            black_box(words),
            rows,
            marks,
            *used,
            &proved::IDENTITIES,
            c,
        ));
    };
    let mut times = fastest(&mut [&mut before, &mut now, &mut rust]);
    times.extend(xpath(document, asked, &answers[0]));
    times
}

/// The table.
pub fn print() {
    println!("| what | other build | this build | times as fast | Rust peer | libxml2 XPath | libxml2 / this build |");
    println!("|---|---|---|---|---|---|---|");
    for document in Document::all() {
        let mut all = reads();
        all.push(long_read(64));
        for read in all {
            let times = times(&document, &read);
            println!(
                "| read {}, {} | {} | {} | {:.1} | {} | {} |",
                read.name(),
                document.name,
                text(times[0]),
                text(times[1]),
                times[0] / times[1],
                text(times[2]),
                beside(times.get(3), times[1])
            );
        }
    }
}
