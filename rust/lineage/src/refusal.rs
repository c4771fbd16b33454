//! What the calls refuse with.

use std::fmt;

/// The call that refused.
#[derive(Clone, Copy, Debug, PartialEq, Eq)]
pub enum Call {
    /// [`Sheet::new`](crate::Sheet::new).
    Layout,
    /// [`Sheet::from_lists`](crate::Sheet::from_lists), which asks whether lists are a sheet.
    Open,
    /// [`Sheet::lengthen`](crate::Sheet::lengthen), and each of [`Sheet::lengthen_each`](crate::Sheet::lengthen_each).
    Lengthen,
    /// [`Sheet::shorten`](crate::Sheet::shorten).
    Shorten,
    /// [`Sheet::column`](crate::Sheet::column).
    Column,
    /// [`Sheet::hold`](crate::Sheet::hold) and [`Sheet::free`](crate::Sheet::free).
    Hold,
    /// [`direction`](crate::direction()).
    Direction,
    /// [`Tree::post_numbers`](crate::Tree::post_numbers).
    PostNumbers,
    /// [`check`](crate::check()).
    Check,
    /// [`Tree::tallest`](crate::Tree::tallest).
    Tallest,
    /// [`Window::new`](crate::Window::new).
    Window,
    /// [`Tree::from_bytes`](crate::Tree::from_bytes).
    ReadTree,
    /// [`Tree::new`](crate::Tree::new), which asks the writer whether the table is accepted.
    WriteTree,
}

impl fmt::Display for Call {
    fn fmt(&self, f: &mut fmt::Formatter<'_>) -> fmt::Result {
        f.write_str(match self {
            Call::Layout => "layout",
            Call::Open => "the sheet",
            Call::Lengthen => "lengthen",
            Call::Shorten => "shorten",
            Call::Column => "column",
            Call::Hold => "hold",
            Call::Direction => "direction",
            Call::PostNumbers => "post numbers",
            Call::Check => "check",
            Call::Tallest => "tallest",
            Call::Window => "window",
            Call::ReadTree => "reading the tree file",
            Call::WriteTree => "the table",
        })
    }
}

/// A ground on which calls refuse.
#[derive(Clone, Copy, Debug, PartialEq, Eq)]
pub struct Ground {
    /// Document 01's number.
    pub number: u32,
    /// Its name in `include/lineage.h`, after `LINEAGE_`.
    pub name: &'static str,
    /// Whether it names a lot; where it does not, a refusal's lot is 0.
    pub names_lot: bool,
    /// The ground, in words.
    pub words: &'static str,
    /// What to do.
    pub remedy: &'static str,
}

/// All grounds, by number: the table of `include/refusals.txt`.
/// 13 is no longer given: up to version 0.3 it refused a direction from a lot to itself.
///
/// ```
/// assert_eq!(lineage::GROUNDS[6].number, 7);
/// assert_eq!(lineage::GROUNDS[6].words, "the lot's parents never lead to lot 0");
/// assert_eq!(lineage::GROUNDS[6].remedy, "break the loop");
/// ```
pub static GROUNDS: [Ground; 21] = include!(concat!(env!("OUT_DIR"), "/grounds.rs"));

/// A refusal: what was asked, document 01's number of the ground, and the lot (0 where the ground names none).
#[derive(Clone, Copy, Debug, PartialEq, Eq)]
pub struct Refused {
    /// What was asked.
    pub call: Call,
    /// The number of the ground.
    pub number: u32,
    /// The lot.
    pub lot: u32,
}

impl Refused {
    fn entry(&self) -> Option<&'static Ground> {
        GROUNDS.iter().find(|ground| ground.number == self.number)
    }

    /// The ground, in words.
    ///
    /// ```
    /// let refused = lineage::Tree::new(vec![0, 2, 1], vec![0, 0, 0]).unwrap_err();
    /// assert_eq!((refused.number, refused.lot), (7, 1));
    /// assert_eq!(refused.ground(), "the lot's parents never lead to lot 0");
    /// ```
    pub fn ground(&self) -> &'static str {
        self.entry().map_or("unknown", |ground| ground.words)
    }

    /// What to do, in words.
    pub fn remedy(&self) -> &'static str {
        self.entry().map_or("unknown", |ground| ground.remedy)
    }

    /// Whether the ground names a lot.
    pub fn names_lot(&self) -> bool {
        self.entry().is_some_and(|ground| ground.names_lot)
    }
}

impl fmt::Display for Refused {
    fn fmt(&self, f: &mut fmt::Formatter<'_>) -> fmt::Result {
        write!(f, "{} refused ({})", self.call, self.number)?;
        if self.names_lot() {
            write!(f, " at lot {}", self.lot)?;
        }
        write!(f, ": {}", self.ground())
    }
}

impl std::error::Error for Refused {}

/// Where a list of lengthens stopped: those before the refused one stand, and those after it were not tried.
///
/// ```
/// use lineage::{Call, Refused, Stopped};
///
/// let stopped = Stopped { place: 2, refused: Refused { call: Call::Lengthen, number: 10, lot: 0 } };
/// assert_eq!(stopped.to_string(), "at place 2 of the list: lengthen refused (10): the root has no edge");
/// ```
#[derive(Clone, Copy, Debug, PartialEq, Eq)]
pub struct Stopped {
    /// The place in the list of the one that was refused, from 1.
    pub place: usize,
    /// Its refusal.
    pub refused: Refused,
}

impl fmt::Display for Stopped {
    fn fmt(&self, f: &mut fmt::Formatter<'_>) -> fmt::Result {
        write!(f, "at place {} of the list: {}", self.place, self.refused)
    }
}

impl std::error::Error for Stopped {
    fn source(&self) -> Option<&(dyn std::error::Error + 'static)> {
        Some(&self.refused)
    }
}
