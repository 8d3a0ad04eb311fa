//! Whether libxml2 answers in time: tried in a process of its own, which can be ended.

use crate::xpath::{Path, Tree};
use std::io::{Read, Write};
use std::process::{Command, Stdio};
use std::thread::sleep;
use std::time::{Duration, Instant};

/// What is waited for one answer.
const PATIENCE: Duration = Duration::from_secs(10);

/// The argument that makes this program the tried process: it then reads the words of a tree from standard input.
pub const TRIED: &str = "try-path";

/// The tried process: evaluates the path once.
pub fn tried(text: &str) {
    let mut bytes = Vec::new();
    std::io::stdin().read_to_end(&mut bytes).expect("the tree is read");
    let rows: Vec<u16> = bytes.chunks(2).map(|b| u16::from_le_bytes([b[0], b[1]])).collect();
    Tree::of(&rows).count(&Path::of(text));
}

/// Whether a path over the tree of a table is answered in time.
pub fn answers(rows: &[u16], text: &str) -> bool {
    let program = std::env::current_exe().expect("this program has a path");
    let mut child = Command::new(program)
        .args([TRIED, text])
        .stdin(Stdio::piped())
        .spawn()
        .expect("this program starts again");
    let bytes: Vec<u8> = rows.iter().flat_map(|word| word.to_le_bytes()).collect();
    let mut input = child.stdin.take().expect("its input is a pipe");
    input.write_all(&bytes).expect("the tree is written");
    drop(input);
    let start = Instant::now();
    while start.elapsed() < PATIENCE {
        if let Ok(Some(status)) = child.try_wait() {
            return status.success();
        }
        sleep(Duration::from_millis(5));
    }
    let _ = child.kill();
    let _ = child.wait();
    false
}
