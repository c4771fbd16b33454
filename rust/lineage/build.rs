//! Tells cargo where the proved static library is, and writes the table of refusals as Rust.
//!
//! LINEAGE_LIB_DIR names a folder that has liblineage.a, as `tools/package` writes one; nothing else is needed then.
//! Otherwise the library is the repository's own, and `rt` builds it where it is missing or older than its crates.
use std::env;
use std::fs;
use std::path::{Path, PathBuf};
use std::process::{Command, Stdio};
use std::time::SystemTime;

/// What stands in a folder.
fn entries(folder: &Path) -> impl Iterator<Item = PathBuf> {
    fs::read_dir(folder).into_iter().flatten().flatten().map(|entry| entry.path())
}

/// When a file, or the newest file in a folder, was last changed.
fn changed(path: &Path) -> SystemTime {
    let own = fs::metadata(path).and_then(|m| m.modified()).unwrap_or(SystemTime::UNIX_EPOCH);
    entries(path).map(|inner| changed(&inner)).fold(own, SystemTime::max)
}

/// The folder of the repository's own library, which is up to date on return.
fn built(root: &Path) -> PathBuf {
    let folder = root.join("crates/lineage");
    let archive = folder.join("out/liblineage.a");
    // `rt` writes into the folder out of each crate, and that makes nothing older
    let parts = entries(&root.join("crates")).flat_map(|one| entries(&one).collect::<Vec<_>>());
    let parts: Vec<PathBuf> = parts.filter(|part| !part.ends_with("out")).collect();
    if parts.iter().any(|part| changed(&archive) < changed(part)) {
        let status = Command::new("rt").arg("lib").current_dir(&folder).stdin(Stdio::null()).status();
        let status = status.expect("LINEAGE_LIB_DIR names no library, so `rt`, which builds it, must be on the path");
        assert!(status.success(), "`rt lib` failed in crates/lineage");
    }
    for part in parts {
        println!("cargo:rerun-if-changed={}", part.display());
    }
    folder.join("out")
}

/// The lines of include/refusals.txt, three to a ground, as an array of `Ground`.
fn grounds(text: &str) -> String {
    let lines: Vec<&str> = text.lines().filter(|line| !line.starts_with('#')).map(str::trim).collect();
    let ground = |three: &[&str]| {
        let head: Vec<&str> = three[0].split(' ').collect();
        let (number, name, names_lot) = (head[0], head[1], head.get(2) == Some(&"lot"));
        let (words, remedy) = (three[1], three[2]);
        format!(
            "Ground {{ number: {number}, name: {name:?}, names_lot: {names_lot}, words: {words:?}, \
             remedy: {remedy:?} }},\n"
        )
    };
    format!("[\n{}]\n", lines.chunks(3).map(ground).collect::<String>())
}

fn main() {
    let root = Path::new(env!("CARGO_MANIFEST_DIR")).join("../..");
    println!("cargo:rerun-if-env-changed=LINEAGE_LIB_DIR");
    let folder = env::var_os("LINEAGE_LIB_DIR").map_or_else(|| built(&root), PathBuf::from);
    let archive = folder.join("liblineage.a");
    assert!(archive.exists(), "there is no {}", archive.display());
    println!("cargo:rerun-if-changed={}", archive.display());
    println!("cargo:rustc-link-search=native={}", folder.display());
    println!("cargo:rustc-link-lib=static=lineage");

    let refusals = root.join("include/refusals.txt");
    println!("cargo:rerun-if-changed={}", refusals.display());
    let text = fs::read_to_string(&refusals).expect("include/refusals.txt");
    let out = PathBuf::from(env::var_os("OUT_DIR").expect("cargo sets OUT_DIR"));
    fs::write(out.join("grounds.rs"), grounds(&text)).expect("OUT_DIR can be written");
}
