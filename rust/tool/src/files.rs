//! Files as the commands meet them: what kind they are, the tree in one, and the names beside it.

use crate::outline::{self, Outline};
use crate::sheetfile;
use crate::stop::{misuse, refused, Stop, MISUSE, UNREAD};
use lineage::Tree;
use std::ffi::{OsStr, OsString};
use std::fs::File;
use std::io::{self, ErrorKind, Read, Write};
use std::os::fd::AsFd;

/// A path for a message.
pub fn shown(path: &OsStr) -> String {
    if path == "-" {
        "standard input".to_string()
    } else {
        path.to_string_lossy().into_owned()
    }
}

/// A stream of the process as a file: the standard library's own would pass over one that is closed.
fn stream(of: impl AsFd) -> io::Result<File> {
    Ok(File::from(of.as_fd().try_clone_to_owned()?))
}

pub fn read(path: &OsStr) -> Result<Vec<u8>, Stop> {
    let opened = if path == "-" { stream(io::stdin()) } else { File::open(path) };
    let read = opened.and_then(|mut file| {
        let mut bytes = Vec::new();
        file.read_to_end(&mut bytes).map(|_| bytes)
    });
    read.or_else(|e| misuse(format!("{}: {e}", shown(path))))
}

/// Writes to a file, or to standard output where none or '-' is named, and answers when all has arrived.
pub fn write(path: Option<&OsStr>, bytes: &[u8]) -> Result<(), Stop> {
    let Some(path) = path.filter(|p| *p != "-") else {
        return stream(io::stdout())
            .and_then(|mut out| out.write_all(bytes))
            .map_err(|e| lost("standard output", &e));
    };
    let written = File::create(path).and_then(|mut file| {
        file.write_all(bytes)?;
        // a disk may refuse only when the file is closed; devices know no such wait
        if file.metadata()?.is_file() {
            file.sync_all()?;
        }
        Ok(())
    });
    written.map_err(|e| lost(&shown(path), &e))
}

fn lost(what: &str, e: &io::Error) -> Stop {
    if e.kind() == ErrorKind::BrokenPipe {
        return Stop { status: UNREAD, message: String::new() };
    }
    Stop { status: MISUSE, message: format!("{what}: {e}") }
}

/// What a file holds, by its bytes. A tree file begins with its number of lots, least byte first: the fourth byte is 0,
/// which no text has.
pub enum Content {
    Tree(Vec<u8>),
    Outline(String),
    Sheet(String),
    Neither,
}

pub fn content(bytes: Vec<u8>) -> Content {
    let may_be_tree = bytes.get(3).is_none_or(|&byte| byte == 0);
    let is_text = |text: &str| !text.is_empty() && text.chars().all(|c| !c.is_control() || "\t\n\r".contains(c));
    match String::from_utf8(bytes) {
        Ok(text) if is_text(&text) && text.starts_with(sheetfile::FIRST) => Content::Sheet(text),
        Ok(text) if is_text(&text) => Content::Outline(text),
        Ok(text) if may_be_tree => Content::Tree(text.into_bytes()),
        Err(e) if may_be_tree => Content::Tree(e.into_bytes()),
        _ => Content::Neither,
    }
}

/// Why a file is of no use here.
pub fn neither<T>(file: &str) -> Result<T, Stop> {
    misuse(format!("{file}: is neither a tree file nor text in UTF-8"))
}

/// A tree, the names of its lots (one for each, or none at all), and what to call it in a message.
pub struct Source {
    pub file: String,
    pub tree: Tree,
    pub names: Vec<String>,
}

/// The tree of a tree file, with the names beside it, or of an outline.
pub fn source(path: &OsStr) -> Result<Source, Stop> {
    let file = shown(path);
    match content(read(path)?) {
        Content::Tree(bytes) => treed(path, &bytes),
        Content::Outline(text) => outlined(file, &text),
        Content::Sheet(_) => misuse(format!("{file}: is a sheet file: name its tree here, and the sheet by --sheet")),
        Content::Neither => neither(&file),
    }
}

/// The tree of a tree file's bytes.
pub fn treed(path: &OsStr, bytes: &[u8]) -> Result<Source, Stop> {
    let file = shown(path);
    let tree = Tree::from_bytes(bytes).map_err(refused(&file))?;
    let names = names_beside(path, tree.lots())?;
    Ok(Source { file, tree, names })
}

/// The tree of an outline's text.
pub fn outlined(file: String, text: &str) -> Result<Source, Stop> {
    let Outline { parent, rank, names } = outline::parse(text).or_else(|e| misuse(format!("{file}:{e}")))?;
    let tree = Tree::new(parent, rank).map_err(refused(&file))?;
    Ok(Source { file, tree, names })
}

/// Where the names of a tree file's lots stand: beside it, a name a line.
fn names_path(path: &OsStr) -> OsString {
    let mut beside = path.to_os_string();
    beside.push(".names");
    beside
}

fn names_beside(path: &OsStr, lots: usize) -> Result<Vec<String>, Stop> {
    let beside = names_path(path);
    if path == "-" || matches!(std::fs::symlink_metadata(&beside), Err(e) if e.kind() == ErrorKind::NotFound) {
        return Ok(Vec::new());
    }
    let file = shown(&beside);
    let text = String::from_utf8(read(&beside)?).or_else(|_| misuse(format!("{file}: is not text")))?;
    let names: Vec<String> = text.lines().map(str::to_string).collect();
    if names.len() != lots {
        return misuse(format!("{file}: has {} names, and the tree beside it {lots} lots", names.len()));
    }
    Ok(names)
}

/// Writes the names beside a tree file that was written to `path`; `false` where there is no such place.
pub fn write_names(path: Option<&OsStr>, names: &[String]) -> Result<bool, Stop> {
    let Some(path) = path.filter(|p| *p != "-") else { return Ok(false) };
    let text: String = names.iter().map(|name| format!("{name}\n")).collect();
    write(Some(&names_path(path)), text.as_bytes())?;
    Ok(true)
}

/// Removes the names beside a tree file that was written to `path` and has none: they are those of another tree.
pub fn remove_names(path: &OsStr) -> Result<(), Stop> {
    let beside = names_path(path);
    match std::fs::remove_file(&beside) {
        Err(e) if e.kind() != ErrorKind::NotFound => Err(lost(&shown(&beside), &e)),
        _ => Ok(()),
    }
}

#[cfg(test)]
mod tests {
    use super::*;

    fn kind(bytes: &[u8]) -> &'static str {
        match content(bytes.to_vec()) {
            Content::Tree(_) => "tree",
            Content::Outline(_) => "outline",
            Content::Sheet(_) => "sheet",
            Content::Neither => "neither",
        }
    }

    #[test]
    fn kinds_are_told_apart_by_their_bytes() {
        for tree in [&b""[..], b"\x05", b"\x05\0\0", b"ab\0\0....", b"\xff\xff\xff\0"] {
            assert_eq!(kind(tree), "tree", "{tree:?}");
        }
        for neither in [&b"\xff\xff\xff\xff"[..], b"Gr\xf6\xdfe\n", b"bell\x07\n"] {
            assert_eq!(kind(neither), "neither", "{neither:?}");
        }
        assert_eq!(kind(b"r"), "outline");
        assert_eq!(kind("Wurzel\n\tKind, größer\r\n".as_bytes()), "outline");
        assert_eq!(kind(b"lineage sheet: rule steep, lots 1, frame 1 1\n"), "sheet");
    }
}
