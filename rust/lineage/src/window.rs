//! Screen windows.

use crate::{asked, raw, Call, Refused};

/// A position in a window, in sides of it: each part is from 0 up to, but not, 1.
#[derive(Clone, Copy, Debug, PartialEq)]
pub struct Point {
    /// How far across from the corner.
    pub across: f64,
    /// How far up from it.
    pub up: f64,
}

/// A square of the grid that a screen shows, with its side a power of two: the places from its corner on, in both
/// directions, up to but not at the far edges.
///
/// The positions that it gives are exact: times the side they are the whole numbers x - a and y - b, with no rounding,
/// and so equal positions in one window mean equal places. That this is so is proved.
///
/// ```
/// use lineage::{Call, Point, Refused, Window};
///
/// let window = Window::new((4, 4), 2)?;
/// assert_eq!(window.side(), 4);
/// assert_eq!(window.show((5, 7)), Some(Point { across: 0.25, up: 0.75 }));
/// assert_eq!(window.show((4, 4)), Some(Point { across: 0.0, up: 0.0 }));
/// assert_eq!(window.show((8, 7)), None);
/// assert_eq!(Window::new((5, 8), 2)?.show((5, 7)), None);
///
/// let refused = Window::new((4, 4), 32).unwrap_err();
/// assert_eq!(refused, Refused { call: Call::Window, number: 18, lot: 0 });
/// assert_eq!(refused.to_string(), "window refused (18): the window's exponent is above 31");
/// # Ok::<(), Refused>(())
/// ```
#[derive(Clone, Copy, Debug, PartialEq, Eq)]
pub struct Window {
    corner: (u32, u32),
    exponent: u32,
}

impl Window {
    /// The window of side 2^m with its least x and y at the corner (a, b), which may be anywhere; refused with 18 where
    /// m is above [`MAX_EXPONENT`](crate::MAX_EXPONENT).
    pub fn new(corner: (u32, u32), exponent: u32) -> Result<Window, Refused> {
        let window = Window { corner, exponent };
        window.ask(corner)?;
        Ok(window)
    }

    /// Where a place stands in the window; `None` where it lies outside.
    ///
    /// # Panics
    ///
    /// Never: the exponent was accepted, and it is the only ground for a refusal.
    pub fn show(&self, place: (u32, u32)) -> Option<Point> {
        self.ask(place).expect("an accepted exponent")
    }

    fn ask(&self, (x, y): (u32, u32)) -> Result<Option<Point>, Refused> {
        let (a, b) = self.corner;
        let mut point = [0.0; 2];
        let (case, _, _) = asked(Call::Window, |reply| raw::window(x, y, a, b, self.exponent, &mut point, reply))?;
        let [across, up] = point;
        Ok((case == 1).then_some(Point { across, up }))
    }

    /// The least x and y that it shows.
    pub fn corner(&self) -> (u32, u32) {
        self.corner
    }

    /// The exponent of its side.
    pub fn exponent(&self) -> u32 {
        self.exponent
    }

    /// How many grid cells it is wide and high, 2^m.
    pub fn side(&self) -> u32 {
        1 << self.exponent
    }
}
