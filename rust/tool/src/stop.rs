//! Why the tool stops: a message for standard error, and the exit status.

use std::fmt::Display;

/// Refused by the library, or the check found a pair that turns.
pub const REFUSED: u8 = 1;
/// Wrong use, or a file that cannot be read or written.
pub const MISUSE: u8 = 2;
/// Nobody reads the output any more: what a shell shows for a program that the broken pipe's signal ends.
pub const UNREAD: u8 = 141;

/// The exit statuses, as the help, the man page and README tell them.
pub const STATUSES: [(u8, &str); 4] = [
    (0, "done"),
    (REFUSED, "refused, or the check found a pair that turns"),
    (MISUSE, "wrong use, or a file that cannot be read or written"),
    (UNREAD, "nobody reads the output any more (a broken pipe); nothing is said then"),
];

#[derive(Debug)]
pub struct Stop {
    pub status: u8,
    pub message: String,
}

pub fn misuse<T>(what: impl Into<String>) -> Result<T, Stop> {
    Err(Stop { status: MISUSE, message: what.into() })
}

/// A refusal of what `about` names.
pub fn refused<E: Display>(about: impl Display) -> impl Fn(E) -> Stop {
    move |e| Stop { status: REFUSED, message: format!("{about}: {e}") }
}
