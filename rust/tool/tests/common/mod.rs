//! What the tests share: the command, files of their own, and trees.
#![allow(dead_code)]

use std::path::PathBuf;
use std::process::{Command, Output};

pub fn lineage(words: &[&str]) -> Output {
    Command::new(env!("CARGO_BIN_EXE_lineage")).args(words).output().unwrap()
}

pub fn out(words: &[&str]) -> String {
    let done = lineage(words);
    assert!(done.status.success(), "{words:?}: {}", String::from_utf8_lossy(&done.stderr));
    String::from_utf8(done.stdout).unwrap()
}

/// The status and the message of a command that fails, and prints nothing.
pub fn fails(words: &[&str]) -> (i32, String) {
    let done = lineage(words);
    assert!(done.stdout.is_empty(), "{words:?} prints something");
    (done.status.code().unwrap(), String::from_utf8(done.stderr).unwrap())
}

/// A command line for bash, in which `$lineage` is the tool: its status, and what it writes to each stream.
pub fn bash(line: &str) -> (i32, String, String) {
    let done =
        Command::new("bash").args(["-c", line]).env("lineage", env!("CARGO_BIN_EXE_lineage")).output().unwrap();
    let text = |bytes| String::from_utf8(bytes).unwrap();
    (done.status.code().unwrap(), text(done.stdout), text(done.stderr))
}

/// Where a file of the tests' own stands.
pub fn place(name: &str) -> String {
    PathBuf::from(env!("CARGO_TARGET_TMPDIR")).join(name).to_str().unwrap().to_string()
}

/// A file of the test's own.
pub fn file(name: &str, bytes: &[u8]) -> String {
    std::fs::write(place(name), bytes).unwrap();
    place(name)
}

/// A tree file of these parents, children in number order.
pub fn tree(name: &str, parents: &[u32]) -> String {
    let mut children = vec![0u32; parents.len()];
    let mut numbers = vec![parents.len() as u32];
    numbers.extend(parents);
    numbers.push(0);
    for &parent in &parents[1..] {
        numbers.push(children[parent as usize]);
        children[parent as usize] += 1;
    }
    let bytes: Vec<u8> = numbers.iter().flat_map(|w| w.to_le_bytes()).collect();
    file(name, &bytes)
}

/// Document 01's five lots: parents 0 0 0 1 1, ranks 0 0 1 0 1.
pub fn five(name: &str) -> String {
    tree(name, &[0, 0, 0, 1, 1])
}
