//! How each grows from small to full size.

use crate::documents::Document;
use crate::inputs::{chain, random_tree};
use crate::measure::text;
use crate::rows::{
    delete_verdict, insert_evidence, insert_verdict, long_read, plan, read_deep, read_document, read_tree, reads,
    write_tree, LABELS,
};

/// A size: its time, and how much more than at the size before.
fn print_size(what: &str, size: usize, times: &[f64], before: &mut Option<f64>) {
    let more = before.map_or("–".to_string(), |last| format!("{:.1}", times[0] / last));
    println!(
        "| {what} | {size} | {} | {more} | {:.2} |",
        text(times[0]),
        times[0] / times[1]
    );
    *before = Some(times[0]);
}

/// All sizes of one kind.
fn print_sizes(what: &str, sizes: &[usize], run: impl Fn(usize) -> Vec<f64>) {
    let mut before = None;
    for &size in sizes {
        print_size(what, size, &run(size), &mut before);
    }
}

/// The table: no size is more than twice the one before.
pub fn print() {
    println!("| what | size | proved library | times the size before | proved / peer |");
    println!("|---|---|---|---|---|");
    print_sizes(
        "verdict, steps of each pattern",
        &[2, 4, 8, 16, 32, 64, 128, 255],
        delete_verdict,
    );
    print_sizes(
        "verdict of 64 steps, inserted nodes",
        &[16, 32, 64, 128, 256, 512, 1024],
        |n| insert_verdict(64, n),
    );
    for (mode, name) in [(1, "node"), (2, "deep")] {
        let what = format!("{name} plan, frames of 63 steps");
        print_sizes(&what, &[8, 16, 32, 64, 128], |n| plan(mode, false, n, 63));
    }
    print_sizes(
        "proposed tree, insert, read of 3 steps, nodes of both trees, last new node",
        &[32, 64, 128, 256, 512, 1024],
        |n| insert_evidence(3, n, true),
    );
    print_sizes(
        "proposed tree, insert, read of 64 steps, nodes of both trees, no difference",
        &[32, 64, 128, 256, 512, 1024],
        |n| insert_evidence(64, n, false),
    );
    print_sizes("tags, nodes of a random tree", &[32, 64, 128, 256, 512, 1024], |n| {
        write_tree(&random_tree(n, LABELS))
    });
    print_sizes("tags, nodes of a chain", &[32, 64, 128, 256, 512, 1024], |n| {
        write_tree(&chain(n, LABELS))
    });
    print_sizes(
        "tags read, nodes of a random tree",
        &[32, 64, 128, 256, 512, 1024],
        |n| read_tree(&random_tree(n, LABELS)),
    );
    print_sizes("tags read, nodes of a chain", &[32, 64, 128, 256, 512, 1024], |n| {
        read_tree(&chain(n, LABELS))
    });
    print_sizes(
        "tags read, levels of a chain that is refused by 2",
        &[2048, 4096, 8192, 16384, 32768, 65536, 131072],
        read_deep,
    );
    print_sizes(
        "read of a random tree of 4,096 nodes, descendant steps",
        &[8, 16, 32, 64, 128, 255],
        |n| read_document(&Document::random(4096), &long_read(n)),
    );
    let read = &reads()[1];
    print_sizes(
        "read of 4 steps, nodes of a random tree",
        &[64, 128, 256, 512, 1024, 2048, 4096],
        |n| read_document(&Document::random(n), read),
    );
    print_sizes(
        "read of 4 steps, nodes of a chain",
        &[64, 128, 256, 512, 1024, 2048, 4096],
        |n| read_document(&Document::chain(n), read),
    );
}
