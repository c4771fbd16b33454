//! Outlines: a line for each lot, children indented below their parent, in rank order.
//!
//! Lots are numbered by their lines, unless the first line begins with `[0]`: then every line begins with its lot. A
//! line that begins with `>12 ` without indentation is 12 levels below the root: deep trees are written so.

use lineage::Tree;
use std::fmt::Write as _;

/// The deepest level that is written by indentation.
const INDENTED: usize = 40;

pub struct Outline {
    pub parent: Vec<u32>,
    pub rank: Vec<u32>,
    pub names: Vec<String>,
}

/// A line that stands for a lot: its number in the file, the line above it in the tree, and its text.
struct Entry<'a> {
    line: usize,
    above: usize,
    text: &'a str,
}

/// The lists and the names of an outline, or the line and what is wrong with it.
pub fn parse(text: &str) -> Result<Outline, String> {
    let entries = entries(text)?;
    let (lots, names) = numbered(&entries)?;
    let n = entries.len();
    let (mut parent, mut rank, mut children) = (vec![0; n], vec![0; n], vec![0; n]);
    for (i, entry) in entries.iter().enumerate().skip(1) {
        let lot = lots[i] as usize;
        parent[lot] = lots[entry.above];
        rank[lot] = children[entry.above];
        children[entry.above] += 1;
    }
    let mut by_lot = vec![String::new(); n];
    for (lot, name) in lots.iter().zip(names) {
        by_lot[*lot as usize] = name.to_string();
    }
    Ok(Outline { parent, rank, names: by_lot })
}

fn entries(text: &str) -> Result<Vec<Entry<'_>>, String> {
    let mut entries: Vec<Entry> = Vec::new();
    // the entries above the next line, with their indentation
    let mut open: Vec<(usize, usize)> = Vec::new();
    for (i, line) in text.lines().enumerate().filter(|(_, l)| !l.trim().is_empty()) {
        let (at, own, line) = (i + 1, entries.len(), line.trim_end());
        let mut indent = line.len() - line.trim_start().len();
        let mut text = line.trim_start();
        match level(line).filter(|_| own > 0) {
            Some((depth, rest)) => {
                if depth == 0 || depth > open.len() {
                    return Err(format!("{at}:1: level {depth} has no line above it at level {}", depth.max(1) - 1));
                }
                open.truncate(depth);
                (indent, text) = (open[depth - 1].0 + 1, rest);
            }
            None => {
                let kept = open.iter().take_while(|(above, _)| *above < indent).count();
                open.truncate(kept);
            }
        }
        if own > 0 && open.is_empty() {
            return Err(format!("{at}:1: a second line without a parent: an outline has one root"));
        }
        entries.push(Entry { line: at, above: open.last().map_or(0, |o| o.1), text });
        open.push((indent, own));
    }
    Ok(entries)
}

/// The level that a line like `>12 text` names, and the text.
fn level(line: &str) -> Option<(usize, &str)> {
    let (digits, rest) = line.strip_prefix('>')?.split_once(' ')?;
    Some((digits.parse().ok()?, rest.trim_start()))
}

/// Each entry's lot and name.
fn numbered<'a>(entries: &[Entry<'a>]) -> Result<(Vec<u32>, Vec<&'a str>), String> {
    let n = entries.len();
    if entries.first().and_then(|e| bracketed(e.text)).map(|(lot, _)| lot) != Some(0) {
        return Ok(((0..n as u32).collect(), entries.iter().map(|e| e.text).collect()));
    }
    let (mut lots, mut names, mut line_of) = (Vec::new(), Vec::new(), vec![0; n]);
    for entry in entries {
        let Some((lot, name)) = bracketed(entry.text) else {
            return Err(format!("{}: has no lot, as [12], though the first line has", entry.line));
        };
        match line_of.get_mut(lot as usize) {
            None => return Err(format!("{}: lot {lot} is none of the outline's {n}", entry.line)),
            Some(line) if *line > 0 => return Err(format!("{}: lot {lot} is that of line {line}", entry.line)),
            Some(line) => *line = entry.line,
        }
        lots.push(lot);
        names.push(name);
    }
    Ok((lots, names))
}

/// The lot and the name of a text like `[12] name`.
fn bracketed(text: &str) -> Option<(u32, &str)> {
    let (digits, name) = text.strip_prefix('[')?.split_once(']')?;
    (name.is_empty() || name.starts_with(' ')).then_some(())?;
    Some((digits.parse().ok()?, name.trim_start()))
}

/// The outline of a tree, with the lots' numbers, and their names where they are known.
pub fn text(tree: &Tree, names: &[String]) -> String {
    let children = tree.children();
    let mut text = String::new();
    let mut open = vec![(0usize, 0u32)];
    while let Some((depth, lot)) = open.pop() {
        if depth <= INDENTED {
            text.push_str(&"  ".repeat(depth));
        } else {
            write!(text, ">{depth} ").unwrap();
        }
        let name = names.get(lot as usize).map_or("", String::as_str);
        writeln!(text, "{}", format!("[{lot}] {name}").trim_end()).unwrap();
        open.extend(children[lot as usize].iter().rev().map(|&c| (depth + 1, c)));
    }
    text
}

#[cfg(test)]
mod tests {
    use super::*;

    fn wrong(text: &str) -> String {
        parse(text).err().unwrap()
    }

    #[test]
    fn five_lots_there_and_back() {
        let read = parse("root\n  a\n    c\n    d\n  b\n").unwrap();
        assert_eq!((&read.parent[..], &read.rank[..]), (&[0, 0, 1, 1, 0][..], &[0, 0, 0, 1, 1][..]));
        let tree = Tree::new(read.parent, read.rank).unwrap();
        assert_eq!(text(&tree, &read.names), "[0] root\n  [1] a\n    [2] c\n    [3] d\n  [4] b\n");
        assert_eq!(text(&tree, &[]), "[0]\n  [1]\n    [2]\n    [3]\n  [4]\n");
    }

    #[test]
    fn numbers_survive_in_any_order() {
        let tree = Tree::new(vec![0, 2, 0, 0, 2], vec![0, 1, 1, 0, 0]).unwrap();
        let back = parse(&text(&tree, &[])).unwrap();
        assert_eq!(Tree::new(back.parent, back.rank).unwrap(), tree);
    }

    #[test]
    fn deep_trees_are_written_in_little_room() {
        let n = 65536;
        let parent = (0..n).map(|v: u32| v.saturating_sub(1)).collect();
        let tree = Tree::new(parent, vec![0; n as usize]).unwrap();
        let deep = text(&tree, &[]);
        assert!(deep.len() < 2_000_000, "{} bytes", deep.len());
        let back = parse(&deep).unwrap();
        assert_eq!(Tree::new(back.parent, back.rank).unwrap(), tree);
    }

    #[test]
    fn what_is_wrong_is_told_with_its_line() {
        assert!(wrong("a\nb\n").starts_with("2:1: a second line"));
        assert!(wrong("a\n\n>3 b\n").starts_with("3:1: level 3 has no line"));
        assert!(wrong("a\n>0 b\n").starts_with("2:1: level 0"));
        assert!(wrong("[0] a\n  b\n").starts_with("2: has no lot"));
        assert!(wrong("[0]\n  [2]\n").starts_with("2: lot 2 is none"));
        assert!(wrong("[0]\n  [1]\n  [1]\n").starts_with("3: lot 1 is that of line 2"));
    }

    #[test]
    fn a_line_may_come_back_to_any_depth() {
        assert_eq!(parse("r\n      a\n         b\n  c\n").unwrap().parent, [0, 0, 1, 0]);
        assert_eq!(parse("r\n  a\n    b\n>3 c\n>2 d\n  e\n").unwrap().parent, [0, 0, 1, 2, 1, 0]);
    }
}
