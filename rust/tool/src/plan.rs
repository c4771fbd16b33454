//! Where everything of a drawing stands on the page, and how large the dots are.

use crate::geometry::{Box, Cells, Fixed, Point, Segment};
use crate::page::Page;
use lineage::{Direction, Sheet, Window};

pub const MARGIN: f64 = 56.0;
/// From one row of the text at the top to the next.
pub const ROW: f64 = 18.0;
/// A hairline: the least width of a line, and the least diameter of a dot.
const HAIR: f64 = 0.3;
/// The width of a held line, in widths of the others, and the least: it must be told from them without colours.
const HEAVY: (f64, f64) = (2.6, 1.5);

/// What is to be drawn of a sheet, and how.
pub struct Ask {
    pub page: Page,
    pub title: String,
    pub root: u32,
    pub depth: Option<u32>,
    pub window: Option<Window>,
    pub to_scale: bool,
    /// Two lots, and the direction of their path.
    pub paths: Vec<(u32, u32, Direction)>,
    pub marks: Vec<u32>,
}

impl Ask {
    /// The rows of text at the top are a title, the caption, one for each path, and the remarks.
    pub fn caption_row(&self) -> usize {
        usize::from(!self.title.is_empty())
    }

    pub fn remarks_row(&self) -> usize {
        self.caption_row() + 1 + self.paths.len()
    }

    /// Where the text at the top ends.
    pub fn top(&self) -> f64 {
        24.0 + ROW * (self.remarks_row() + 1) as f64
    }
}

/// How places of the sheet become points of the page.
pub struct View {
    window: Option<Window>,
    /// The least place of what is drawn, and its width and height from there: the window's, or as the lots need.
    low: (u32, u32),
    pub extent: (u32, u32),
    pub scale: (f64, f64),
    /// The decimals of points.
    pub digits: (usize, usize),
    bottom: f64,
}

impl View {
    fn fitted(sheet: &Sheet, lots: &[u32], ask: &Ask) -> View {
        let of = |list: &[u32]| {
            let drawn = lots.iter().map(|&v| list[v as usize]);
            let low = drawn.clone().min().unwrap_or(0);
            (low, drawn.max().unwrap_or(0) - low)
        };
        let (across, up) = match ask.window {
            Some(window) => ((window.corner().0, window.side()), (window.corner().1, window.side())),
            None => (of(sheet.x()), of(sheet.y())),
        };
        let fitted = |room: f64, extent: u32| room / f64::from(extent.max(1));
        let (wide, high) = (ask.page.width - 2.0 * MARGIN, ask.page.height - MARGIN - ask.top());
        let mut scale = (fitted(wide, across.1), fitted(high, up.1));
        if ask.to_scale {
            scale = (scale.0.min(scale.1), scale.0.min(scale.1));
        }
        View {
            window: ask.window,
            low: (across.0, up.0),
            extent: (across.1, up.1),
            scale,
            digits: (digits(scale.0), digits(scale.1)),
            bottom: ask.page.height - MARGIN,
        }
    }

    /// How many grid cells positions are counted in: a window's are in sides of it.
    fn unit(&self) -> f64 {
        f64::from(self.window.map_or(1, |window| window.side()))
    }

    /// The position of a place, also outside the window; where it is shown, it is the window's own. It is exact.
    fn position(&self, (x, y): (u32, u32)) -> Point {
        let away = |at: u32, low: u32| (i64::from(at) - i64::from(low)) as f64 / self.unit();
        Point { x: away(x, self.low.0), y: away(y, self.low.1) }
    }

    /// The point of the page at a position.
    fn at(&self, position: Point) -> Point {
        let unit = (self.unit() * self.scale.0, self.unit() * self.scale.1);
        Point {
            x: rounded(MARGIN + position.x * unit.0, self.digits.0),
            y: rounded(self.bottom - position.y * unit.1, self.digits.1),
        }
    }

    /// Where the dot at a place stands; none where the window does not show it.
    fn dot(&self, place: (u32, u32)) -> Option<Point> {
        let position = match self.window {
            Some(window) => window.show(place).map(|shown| Point { x: shown.across, y: shown.up })?,
            None => self.position(place),
        };
        Some(self.at(position))
    }

    /// What is drawn of the line between two places; none where it does not pass through the window.
    fn line(&self, from: (u32, u32), to: (u32, u32)) -> Option<Segment> {
        let far = |extent: u32| f64::from(extent) / self.unit();
        // of positions, as the ends are exact there; that y grows upwards is nothing to the cut
        let area = Box { left: 0.0, top: 0.0, right: far(self.extent.0), bottom: far(self.extent.1) };
        let part = area.part(&Segment { from: self.position(from), to: self.position(to) })?;
        Some(Segment { from: self.at(part.from), to: self.at(part.to) })
    }
}

/// The dots that a line joins, the lot's own first; none where that lot is outside the window.
pub type Ends = (Option<usize>, Option<usize>);

/// The lots that are drawn, where their dots stand, and how large these are.
pub struct Plan {
    pub view: View,
    /// The lots of the part that was asked for, and those of them that have a dot: all, or what the window shows.
    pub part: Vec<u32>,
    pub lots: Vec<u32>,
    pub dot_of: Vec<Option<usize>>,
    pub dots: Vec<Point>,
    /// The lots whose lines are drawn, in number order, and what is drawn of each, towards the lot.
    pub line_lots: Vec<u32>,
    pub lines: Vec<Segment>,
    pub ends: Vec<Ends>,
    /// Whether each line is held, and how many are.
    pub held: Vec<bool>,
    pub held_lines: usize,
    pub radii: Vec<f64>,
    /// How many dots are nearer a dot or a line of another lot than the smallest dot is large.
    pub touching: usize,
    /// The width of lines that are not held.
    pub stroke: f64,
    /// The size of the numbers.
    pub size: f64,
    pub cells: Cells,
    pub dot_cells: Fixed,
    pub line_cells: Fixed,
}

impl Plan {
    /// The width of a held line.
    pub fn heavy(&self) -> f64 {
        heavy(self.stroke)
    }

    /// What a held line takes to either side beyond what others do; 0 where none is held.
    pub fn excess(&self) -> f64 {
        if self.held_lines > 0 {
            (self.heavy() - self.stroke) / 2.0
        } else {
            0.0
        }
    }
}

/// The width of a held line where others have this one; as it is written, so that what touches it is told rightly.
fn heavy(stroke: f64) -> f64 {
    rounded((HEAVY.0 * stroke).max(HEAVY.1), 2)
}

pub fn plan(sheet: &Sheet, ask: &Ask) -> Plan {
    let part = subtree(sheet, ask.root, ask.depth);
    let view = View::fitted(sheet, &part, ask);
    let place = |v: u32| (sheet.x()[v as usize], sheet.y()[v as usize]);
    let (lots, dots): (Vec<u32>, Vec<Point>) = part.iter().filter_map(|&v| Some((v, view.dot(place(v))?))).unzip();
    let mut dot_of = vec![None; sheet.tree().lots()];
    for (i, &lot) in lots.iter().enumerate() {
        dot_of[lot as usize] = Some(i);
    }
    let parent = |v: u32| sheet.tree().parents()[v as usize];
    let below = part.iter().filter(|&&v| v != ask.root);
    let (line_lots, lines): (Vec<u32>, Vec<Segment>) =
        below.filter_map(|&v| Some((v, view.line(place(parent(v)), place(v))?))).unzip();
    let ends = line_lots.iter().map(|&v| (dot_of[v as usize], dot_of[parent(v) as usize])).collect();
    let held: Vec<bool> = line_lots.iter().map(|&v| sheet.held()[v as usize] == 1).collect();
    let held_lines = held.iter().filter(|&&held| held).count();
    let cells = Cells::of(ask.page.width, ask.page.height);
    let (dot_cells, line_cells) = (Fixed::points(cells, &dots), Fixed::segments(cells, &lines));
    let size = if lots.len() <= 40 { 14.0 } else { 9.0 };
    let (radii, touching, stroke) = (Vec::new(), 0, HAIR);
    let mut plan = Plan {
        view,
        part,
        lots,
        dot_of,
        dots,
        line_lots,
        lines,
        ends,
        held,
        held_lines,
        radii,
        touching,
        stroke,
        size,
        cells,
        dot_cells,
        line_cells,
    };
    shrink(&mut plan);
    plan
}

/// The lots of a subtree to a depth, in number order.
fn subtree(sheet: &Sheet, root: u32, depth: Option<u32>) -> Vec<u32> {
    let children = sheet.tree().children();
    let (mut level, mut lots) = (vec![root], vec![root]);
    for _ in 0..depth.unwrap_or(u32::MAX) {
        level = level.iter().flat_map(|&v| children[v as usize].iter().copied()).collect();
        if level.is_empty() {
            break;
        }
        lots.extend(&level);
    }
    lots.sort_unstable();
    lots
}

/// The decimals with which places that differ by one step differ on the page.
fn digits(scale: f64) -> usize {
    (1.0 - scale.log10()).ceil().clamp(2.0, 12.0) as usize
}

fn rounded(value: f64, digits: usize) -> f64 {
    let unit = 10f64.powi(digits as i32);
    (value * unit).round() / unit
}

/// Makes each dot so small that it covers no other dot and no line of another lot, and the lines as wide as they may be
/// with the fewest dots that touch one nevertheless.
fn shrink(plan: &mut Plan) {
    let largest = (30.0 / (plan.dots.len() as f64).sqrt()).clamp(0.3, 5.0);
    let widest = rounded((largest / 3.0).max(HAIR), 2);
    for stroke in [widest, 2.0 * HAIR, HAIR].into_iter().filter(|&stroke| stroke <= widest) {
        let rooms: Vec<f64> = (0..plan.dots.len()).map(|dot| room(plan, dot, largest, stroke)).collect();
        let touching = rooms.iter().filter(|&&room| room < HAIR / 2.0).count();
        if plan.radii.is_empty() || touching < plan.touching {
            (plan.touching, plan.stroke) = (touching, stroke);
            plan.radii = rooms.iter().map(|room| (room.max(HAIR / 2.0) * 100.0).floor() / 100.0).collect();
        }
        if touching == 0 {
            break;
        }
    }
}

/// How large a dot may be; the search ends where there is no room even for the smallest.
fn room(plan: &Plan, dot: usize, largest: f64, stroke: f64) -> f64 {
    let at = plan.dots[dot];
    let mut room = largest;
    for other in plan.dot_cells.near(&Box::around(at, 2.0 * largest)).filter(|&other| other != dot) {
        room = room.min(plan.dots[other].to(at) / 2.0);
        if room < HAIR / 2.0 {
            return room;
        }
    }
    // the lines of the next lots are often the nearest, and end the search early in a crowd
    let next = dot.saturating_sub(8)..plan.lines.len().min(dot + 8);
    let heavy = heavy(stroke);
    let widest = if plan.held_lines > 0 { heavy } else { stroke };
    for line in next.chain(plan.line_cells.near(&Box::around(at, largest + widest))) {
        let (a, b) = plan.ends[line];
        if a != Some(dot) && b != Some(dot) {
            let width = if plan.held[line] { heavy } else { stroke };
            room = room.min(plan.lines[line].distance(at) - width / 2.0);
            if room < HAIR / 2.0 {
                return room;
            }
        }
    }
    room
}

#[cfg(test)]
mod tests {
    use super::*;

    #[test]
    fn digits_tell_steps_apart() {
        for scale in [300.0, 1.0, 0.5, 0.11, 3.2e-7] {
            assert!(10f64.powi(-(digits(scale) as i32)) < scale / 2.0);
        }
    }
}
