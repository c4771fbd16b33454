//! The help, made from the table of arguments.

use crate::arguments::{Command, Opt, COMMANDS, TREE_IS};
use crate::stop::STATUSES;
use std::fmt::Write as _;

const WIDE: usize = 100;
const COLUMN: usize = 28;

/// A text in lines of a width, each behind the same indentation.
pub fn wrapped(text: &str, indent: usize) -> String {
    let (mut lines, mut line) = (String::new(), String::new());
    for word in text.split_whitespace() {
        if !line.is_empty() && indent + line.len() + 1 + word.len() > WIDE {
            writeln!(lines, "{}{line}", " ".repeat(indent)).unwrap();
            line.clear();
        }
        if !line.is_empty() {
            line.push(' ');
        }
        line.push_str(word);
    }
    if !line.is_empty() {
        writeln!(lines, "{}{line}", " ".repeat(indent)).unwrap();
    }
    lines
}

/// A name, and what it is, in two columns.
fn entry(name: &str, what: &str) -> String {
    let lines = wrapped(what, COLUMN);
    format!("    {name:<22}  {}", lines.trim_start())
}

fn option_name(option: &Opt) -> String {
    format!("{} {}", option.name, option.value).trim_end().to_string()
}

pub fn all() -> String {
    let mut text = "lineage: drawings of trees in which every path rises along some direction\n\n".to_string();
    for command in &COMMANDS {
        let name = [&[command.name], command.words].concat().join(" ");
        text.push_str(&entry(&name, command.summary));
    }
    write!(text, "\n{TREE_IS} 'lineage COMMAND --help' says more, 'lineage --version' the version.\n\n").unwrap();
    text + &statuses()
}

fn statuses() -> String {
    let told = STATUSES.iter().map(|(status, what)| entry(&status.to_string(), what));
    format!("Exit status:\n\n{}", told.collect::<String>())
}

pub fn of(command: &Command) -> String {
    let mut text = format!("{}: {}\n", command.usage(), command.summary);
    if !command.about.is_empty() {
        write!(text, "\n{}", wrapped(command.about, 0)).unwrap();
    }
    if !command.options.is_empty() {
        let told = command.options.iter().map(|option| entry(&option_name(option), option.help));
        write!(text, "\n{}", told.collect::<String>()).unwrap();
    }
    if command.words.contains(&"TREE") {
        write!(text, "\n{TREE_IS}\n").unwrap();
    }
    format!("{text}\n{}", statuses())
}
