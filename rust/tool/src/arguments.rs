//! The one table of commands and options, and what a command line says by it. The help, the man page and the shell
//! completion are made from the same table.

use crate::stop::{misuse, Stop};
use std::ffi::{OsStr, OsString};
use std::os::unix::ffi::OsStrExt;

pub struct Opt {
    pub name: &'static str,
    /// What its value is; nothing where it takes none. Words with '|' between are the values there are.
    pub value: &'static str,
    pub help: &'static str,
    /// How often it may be given.
    pub most: usize,
    /// The options beside which it would mean nothing.
    pub not_with: &'static [&'static str],
}

pub struct Command {
    pub name: &'static str,
    /// What its words are; those in brackets may be left out.
    pub words: &'static [&'static str],
    pub summary: &'static str,
    pub about: &'static str,
    pub options: &'static [&'static Opt],
}

const fn option(name: &'static str, value: &'static str, help: &'static str) -> Opt {
    Opt { name, value, help, most: 1, not_with: &[] }
}

const fn repeated(name: &'static str, value: &'static str, most: usize, help: &'static str) -> Opt {
    Opt { name, value, help, most, not_with: &[] }
}

const ANY: usize = usize::MAX;

static RULE: Opt = option("--rule", "steep|balanced", "the slope rule (steep)");
static SHEET: Opt = Opt {
    name: "--sheet",
    value: "FILE",
    help: "take up a sheet of this tree that 'lineage sheet -o FILE' saved; it names its rule itself",
    most: 1,
    not_with: &["--rule"],
};
static SMALL: Opt =
    option("--small", "", "draw the sheet on the small cabinet: at most 1,024 lots, and no place above 1,048,575");
static LENGTHEN: Opt = repeated(
    "--lengthen",
    "LOT:COUNT",
    ANY,
    "make the line of a lot longer; may be given again, and mixed with --shorten, --column, --hold and --free, in \
     order",
);
static SHORTEN: Opt = repeated("--shorten", "LOT:COUNT", ANY, "make it shorter");
static COLUMN: Opt =
    repeated("--column", "LOT:X", ANY, "make it longer so that the lot stands at x = X, or say why not");
static HOLD: Opt = repeated(
    "--hold",
    "LOT",
    ANY,
    "hold the line of a lot: it keeps its length until it is freed, and moves with the lots above it",
);
static FREE: Opt = repeated("--free", "LOT", ANY, "free it");
static PATH: Opt =
    repeated("--path", "FROM:TO", 2, "highlight the path between two lots, with its direction; may be given twice");
static MARK: Opt = repeated("--mark", "LOT", ANY, "write this lot's number in any case; may be given again");
static ROOT: Opt = option("--root", "LOT", "draw the part of the sheet from this lot on, as it stands (0)");
static DEPTH: Opt = option("--depth", "N", "draw N levels below the root of the drawing (all)");
static WINDOW: Opt = option(
    "--window",
    "A,B,M",
    "draw just the window of side 2^M with its lower left corner at (A, B), as the cabinet's screen shows it",
);
static TITLE: Opt = option("--title", "TEXT", "a title above the caption");
static PAGE: Opt = option("--page", "A4|A3|WxH", "the page, lying, or its size at 96 to the inch (800x600)");
static TO_SCALE: Opt = option("--to-scale", "", "one scale for x and y, however steep the sheet is");
static OUT: Opt = option("-o", "FILE", "write to FILE; '-' is standard output (-)");
static TREE_OUT: Opt =
    option("-o", "FILE", "write the tree file to FILE; '-' is refused, as standard output has the frame");
static PLACES: Opt = Opt {
    name: "--places",
    value: "FILE",
    help: "check these places, a line of x and y for each lot, and not the sheet's",
    most: 1,
    not_with: &["--rule", "--sheet", "--small", "--lengthen", "--shorten", "--column", "--hold", "--free"],
};
static BACK: Opt = option("--back", "", "turn a tree file, with the names beside it, into an outline");

pub static COMMANDS: [Command; 10] = [
    Command {
        name: "draw",
        words: &["TREE"],
        summary: "an SVG of the tree's sheet, fitted to a page",
        about: "A lot's number stands only where it cannot be taken for another lot's; the caption says how many are \
                left out. Every dot has a title with its lot, name, parent and place. A held line is heavy and black. \
                A line that leaves the window of --window is cut at its edge, and has no dot there.",
        options: &[
            &RULE, &SHEET, &SMALL, &LENGTHEN, &SHORTEN, &COLUMN, &HOLD, &FREE, &PATH, &MARK, &ROOT, &DEPTH, &WINDOW,
            &TITLE, &PAGE, &TO_SCALE, &OUT,
        ],
    },
    Command {
        name: "sheet",
        words: &["TREE"],
        summary: "the sheet as text: lot, times, x, y, held, and names where they are known",
        about: "The text can be taken up again by --sheet. Its first line names the rule, the number of lots and the \
                frame in grid cells, its second the columns. held is 1 for a lot whose line is held; a file without \
                that column, as versions before 0.5 wrote it, holds none.",
        options: &[&RULE, &SHEET, &SMALL, &LENGTHEN, &SHORTEN, &COLUMN, &HOLD, &FREE, &OUT],
    },
    Command {
        name: "check",
        words: &["TREE"],
        summary: "whether the sheet, or a drawing of your own, is monotone",
        about: "Prints 'Monotone', or 'Turns U V' with the first pair of lots that has no direction; the status is 1 \
                then.",
        options: &[&RULE, &SHEET, &SMALL, &LENGTHEN, &SHORTEN, &COLUMN, &HOLD, &FREE, &PLACES],
    },
    Command {
        name: "direction",
        words: &["TREE", "FROM", "TO"],
        summary: "a direction along which the path between two lots rises",
        about: "Prints 'D E'; a line that goes (across, up) rises along it when D * across + E * up is above 0. From a \
                lot to itself no line is walked, and it is '1 1'; up to version 0.3 that was refused, with 13.",
        options: &[&RULE],
    },
    Command {
        name: "numbers",
        words: &["TREE"],
        summary: "which post numbers lie under each lot",
        about: "Lots are numbered in post-order, from 1. Prints a line 'LOT FIRST LAST' for each: the numbers FIRST to \
                LAST belong to LOT, and LAST is its own. A lot is in another's subtree exactly when its LAST is one of \
                the other's numbers.",
        options: &[&OUT],
    },
    Command {
        name: "tallest",
        words: &["N"],
        summary: "the frame of the tallest steep sheet of N lots, and its tree",
        about: "Prints 'WIDTH HEIGHT', in grid cells, for paper that is ordered before a tree is known: no tree of N \
                lots has a taller or a wider sheet under the steep rule, before any line is made longer. It is the \
                frame of the chain, in which each lot hangs on the one before it; only chains are as tall. With -o the \
                chain's tree file is written first; FILE.names, if there is one, is removed, as these lots have no \
                names.",
        options: &[&TREE_OUT],
    },
    Command {
        name: "outline",
        words: &["FILE"],
        summary: "an indented outline to a tree file, or a tree file back to an outline",
        about: "A line is a lot, in the order of the lines from 0; deeper indentation is a child, and the order of the \
                lines is the order of the children. The text of a line is the lot's name: the names are kept beside a \
                tree file, in FILE.names. Where the first line begins with [0], every line begins with its lot; a \
                line that begins with >12 is 12 levels below the root.",
        options: &[&BACK, &OUT],
    },
    Command {
        name: "completion",
        words: &["bash"],
        summary: "completion for a shell, to be sourced there",
        about: "For instance: source <(lineage completion bash)",
        options: &[],
    },
    Command {
        name: "man",
        words: &[],
        summary: "the manual page",
        about: "For instance: lineage man | man -l -",
        options: &[],
    },
    Command { name: "help", words: &["[COMMAND]"], summary: "this help, or a command's", about: "", options: &[] },
];

pub const TREE_IS: &str = "TREE is a tree file or an outline; '-' is standard input.";

pub fn command(name: &OsStr) -> Option<&'static Command> {
    COMMANDS.iter().find(|c| name == c.name)
}

impl Command {
    /// Its use in a line.
    pub fn usage(&self) -> String {
        let options = if self.options.is_empty() { vec![] } else { vec!["[OPTIONS]"] };
        [&["lineage", self.name], self.words, &options[..]].concat().join(" ")
    }

    fn option(&self, name: &OsStr) -> Result<&'static Opt, Stop> {
        match self.options.iter().find(|o| name == o.name) {
            Some(option) => Ok(option),
            None => misuse(format!(
                "{} has no option '{}'; see 'lineage {} --help'",
                self.name,
                name.to_string_lossy(),
                self.name
            )),
        }
    }
}

/// What a command line says.
pub struct Given {
    pub command: &'static Command,
    pub words: Vec<OsString>,
    values: Vec<(&'static Opt, OsString)>,
}

impl Given {
    /// The options of these names with their values, in the order they were given.
    pub fn all<'a>(&'a self, names: &'a [&str]) -> impl Iterator<Item = (&'static str, &'a OsStr)> {
        self.values.iter().filter(|(o, _)| names.contains(&o.name)).map(|(o, value)| (o.name, value.as_os_str()))
    }

    pub fn one(&self, name: &str) -> Option<&OsStr> {
        self.values.iter().find(|(o, _)| o.name == name).map(|(_, value)| value.as_os_str())
    }

    pub fn has(&self, name: &str) -> bool {
        self.one(name).is_some()
    }
}

/// An option's word, apart from a value after '=' or, for a letter, right behind it.
fn apart(word: &OsStr) -> (&OsStr, Option<&OsStr>) {
    let bytes = word.as_bytes();
    let cut = if bytes.starts_with(b"--") { bytes.iter().position(|&b| b == b'=') } else { Some(2) };
    match cut.filter(|&cut| cut < bytes.len()) {
        Some(cut) => {
            let from = cut + usize::from(bytes.starts_with(b"--"));
            (OsStr::from_bytes(&bytes[..cut]), Some(OsStr::from_bytes(&bytes[from..])))
        }
        None => (word, None),
    }
}

/// The words and options of a command; `None` where help is asked for.
pub fn given(command: &'static Command, line: &[OsString]) -> Result<Option<Given>, Stop> {
    let mut given = Given { command, words: Vec::new(), values: Vec::new() };
    let mut rest = line.iter();
    while let Some(word) = rest.next() {
        if word == "--" {
            given.words.extend(rest.by_ref().cloned());
        } else if word == "-" || !word.as_bytes().starts_with(b"-") {
            given.words.push(word.clone());
        } else if word == "-h" || word == "--help" {
            return Ok(None);
        } else {
            let (name, joined) = apart(word);
            let option = command.option(name)?;
            let value = match (option.value.is_empty(), joined) {
                (true, None) => OsString::new(),
                (true, Some(_)) => return misuse(format!("{} takes no value", option.name)),
                (false, Some(value)) => value.to_os_string(),
                (false, None) => match rest.next() {
                    Some(value) => value.clone(),
                    None => return misuse(format!("{} asks for a value: {}", option.name, option.value)),
                },
            };
            given.values.push((option, value));
        }
    }
    given.tested().map(Some)
}

impl Given {
    fn tested(self) -> Result<Given, Stop> {
        let command = self.command;
        let needed = command.words.iter().filter(|w| !w.starts_with('[')).count();
        if self.words.len() < needed || self.words.len() > command.words.len() {
            return misuse(format!("use: {}; see 'lineage {} --help'", command.usage(), command.name));
        }
        for option in command.options {
            let times = self.values.iter().filter(|(o, _)| o.name == option.name).count();
            if times > option.most {
                let most = if option.most == 1 { "once".to_string() } else { format!("{} times", option.most) };
                return misuse(format!("{} may be given {most}", option.name));
            }
            if let Some(other) = option.not_with.iter().find(|other| times > 0 && self.has(other)) {
                return misuse(format!("{other} would mean nothing beside {}", option.name));
            }
        }
        Ok(self)
    }
}

/// A whole number that `what` was given.
pub fn number(what: &str, word: &OsStr) -> Result<u32, Stop> {
    let word = word.to_string_lossy();
    word.parse().or_else(|_| misuse(format!("{what}: '{word}' is not a whole number below 4,294,967,296")))
}

/// Two numbers with ':' between.
pub fn two(what: &str, word: &OsStr) -> Result<(u32, u32), Stop> {
    let word = word.to_string_lossy();
    match word.split_once(':') {
        Some((a, b)) => Ok((number(what, a.as_ref())?, number(what, b.as_ref())?)),
        None => misuse(format!("{what}: '{word}' is not two numbers with ':' between")),
    }
}

/// Three numbers with ',' between.
pub fn three(what: &str, word: &OsStr) -> Result<(u32, u32, u32), Stop> {
    let word = word.to_string_lossy();
    match word.split(',').collect::<Vec<_>>()[..] {
        [a, b, c] => Ok((number(what, a.as_ref())?, number(what, b.as_ref())?, number(what, c.as_ref())?)),
        _ => misuse(format!("{what}: '{word}' is not three numbers with ',' between")),
    }
}

#[cfg(test)]
mod tests {
    use super::*;

    fn parsed(line: &[&str]) -> Result<Option<Given>, Stop> {
        given(command("draw".as_ref()).unwrap(), &line.iter().map(OsString::from).collect::<Vec<_>>())
    }

    #[test]
    fn values_come_behind_in_the_word_or_next() {
        for line in [
            &["t", "--title=a=b", "-oF"][..],
            &["--title", "a=b", "-o", "F", "t"],
            &["-oF", "--title=a=b", "--", "t"],
        ] {
            let given = parsed(line).unwrap().unwrap();
            assert_eq!((given.one("--title"), given.one("-o")), (Some("a=b".as_ref()), Some("F".as_ref())));
            assert_eq!(given.words, ["t"]);
        }
        assert_eq!(parsed(&["--", "--rule"]).unwrap().unwrap().words, ["--rule"]);
        assert_eq!(parsed(&["-"]).unwrap().unwrap().words, ["-"]);
        assert!(parsed(&["t", "-h"]).unwrap().is_none());
    }

    #[test]
    fn what_would_be_ignored_is_refused() {
        let wrong = |line: &[&str]| parsed(line).err().unwrap().message;
        assert_eq!(wrong(&["t", "--rule", "steep", "--rule=steep"]), "--rule may be given once");
        assert_eq!(wrong(&["t", "--sheet=s", "--rule=steep"]), "--rule would mean nothing beside --sheet");
        assert_eq!(wrong(&["t", "--path=1:2", "--path=2:3", "--path=1:3"]), "--path may be given 2 times");
        assert_eq!(wrong(&["t", "--to-scale=yes"]), "--to-scale takes no value");
        assert_eq!(wrong(&["t", "--rule"]), "--rule asks for a value: steep|balanced");
        assert!(wrong(&["t", "--places=p"]).starts_with("draw has no option '--places'"));
        assert!(wrong(&[]).starts_with("use: lineage draw TREE [OPTIONS]"));
    }
}
