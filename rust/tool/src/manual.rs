//! The manual page, in the language of man pages, made from the table of arguments.

use crate::arguments::{Command, COMMANDS, TREE_IS};
use crate::stop::STATUSES;
use std::fmt::Write as _;

/// Text that the page's language leaves as it is.
fn plain(text: &str) -> String {
    let text = text.replace('\\', "\\e").replace('-', "\\-");
    match text.chars().next() {
        Some('.' | '\'') => format!("\\&{text}"),
        _ => text,
    }
}

pub fn page() -> String {
    let version = env!("CARGO_PKG_VERSION");
    let mut page = format!(
        ".TH LINEAGE 1 \"\" \"lineage {version}\" \"User Commands\"\n.SH NAME\nlineage \\- drawings of trees in which \
         every path rises along some direction\n.SH SYNOPSIS\n"
    );
    for (i, command) in COMMANDS.iter().enumerate() {
        let newline = if i > 0 { ".br\n" } else { "" };
        writeln!(page, "{newline}{}", plain(&command.usage())).unwrap();
    }
    write!(page, ".SH DESCRIPTION\n{}\n.SH COMMANDS\n", plain(TREE_IS)).unwrap();
    for command in &COMMANDS {
        section(&mut page, command);
    }
    page.push_str(".SH EXIT STATUS\n");
    for (status, what) in STATUSES {
        write!(page, ".TP\n.B {status}\n{}\n", plain(what)).unwrap();
    }
    page
}

fn section(page: &mut String, command: &Command) {
    let summary = command.summary;
    write!(page, ".SS {}\n{}.\n", plain(command.name), plain(summary)).unwrap();
    if !command.about.is_empty() {
        writeln!(page, "{}", plain(command.about)).unwrap();
    }
    for option in command.options {
        let name = plain(&format!("{} {}", option.name, option.value));
        write!(page, ".TP\n.B {}\n{}\n", name.trim_end(), plain(option.help)).unwrap();
    }
}
