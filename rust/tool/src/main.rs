//! `lineage`: draws trees as lineage sheets, checks them and turns outlines into tree files.

#![cfg_attr(not(test), no_main)]

mod arguments;
mod column;
mod commands;
mod completion;
mod draw;
mod files;
mod geometry;
mod help;
mod labels;
mod manual;
mod outline;
mod page;
mod plan;
mod sheetfile;
mod stop;

use std::ffi::OsString;
use std::io::Write;
use stop::{misuse, Stop};

fn run(line: &[OsString]) -> Result<(), Stop> {
    let Some(first) = line.first() else { return misuse(format!("a command is missing\n\n{}", help::all())) };
    if first == "-h" || first == "--help" {
        return files::write(None, help::all().as_bytes());
    }
    if first == "--version" {
        return files::write(None, concat!("lineage ", env!("CARGO_PKG_VERSION"), "\n").as_bytes());
    }
    let Some(command) = arguments::command(first) else {
        return misuse(format!("no command '{}'; see 'lineage --help'", first.to_string_lossy()));
    };
    match arguments::given(command, &line[1..])? {
        Some(given) => commands::run(&given),
        None => files::write(None, help::of(command).as_bytes()),
    }
}

/// The exit status, once the message is on standard error; where that is closed or full, the status alone tells.
fn status(ended: Result<(), Stop>) -> i32 {
    let Err(Stop { status, message }) = ended else { return 0 };
    if !message.is_empty() {
        let _ = writeln!(std::io::stderr(), "lineage: {}", message.trim_end());
    }
    i32::from(status)
}

/// The start that C has. Rust's own would open /dev/null in the place of a standard output that is closed, and what is
/// written would be lost silently; it would also turn the signal of a broken pipe off.
#[cfg_attr(not(test), no_mangle)]
pub extern "C" fn main(_words: i32, _line: *const *const u8) -> i32 {
    let line: Vec<OsString> = std::env::args_os().skip(1).collect();
    status(run(&line))
}
