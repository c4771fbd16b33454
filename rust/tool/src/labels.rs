//! Where the lots' numbers stand: nobody must read the number of one lot at another's dot.
//!
//! A label stands beside its dot where that is the nearest one by far, or at the end of a leader line to it; no dot,
//! line or other label touches it. One that finds no such place is left out, unless it was asked for.

use crate::geometry::{Box, Cells, Fixed, Growing, Point, Segment};
use crate::plan::Ends;
use std::f64::consts::TAU;

/// What a character takes of the font's size across; the page tells the reader's program to keep to it.
pub const ADVANCE: f64 = 0.6;
/// The parts of the font's size above and below the line that letters stand on.
pub const ASCENT: f64 = 0.8;
pub const DESCENT: f64 = 0.2;

/// What stays free around a label and a leader line.
const CLEAR: f64 = 1.7;
/// Two dots nearer than this share every place beside them.
const CROWDED: f64 = 2.0;
/// A dot smaller than this is hard to see, so its number is at a leader line: beside it, it could seem to be another's.
const SEEN: f64 = 0.8;
const NEAR: [f64; 3] = [12.0, 20.0, 32.0];
const FAR: [f64; 9] = [12.0, 20.0, 32.0, 50.0, 75.0, 110.0, 170.0, 260.0, 400.0];
const ANGLES: usize = 16;

pub struct Label {
    pub dot: usize,
    pub text: String,
    pub bounds: Box,
    pub leader: Option<Segment>,
}

/// The drawing that the labels are put into: dot i has radius i, and line i has ends i and may be held.
pub struct Scene<'a> {
    pub dots: &'a [Point],
    pub radii: &'a [f64],
    pub lines: &'a [Segment],
    pub ends: &'a [Ends],
    pub held: &'a [bool],
    /// What a held line takes to either side beyond what others do; 0 where none is held.
    pub excess: f64,
    /// Where labels may stand.
    pub area: Box,
    pub size: f64,
    pub cells: Cells,
    pub dot_cells: &'a Fixed,
    pub line_cells: &'a Fixed,
}

/// How wide a text is drawn: wide letters of other scripts take a whole size.
pub fn width(text: &str, size: f64) -> f64 {
    text.chars().map(|c| if (c as u32) < 0x1100 { ADVANCE } else { 1.0 }).sum::<f64>() * size
}

/// What a leader line may pass over.
#[derive(Clone, Copy, PartialEq)]
enum Leave {
    Nothing,
    Lines,
    LinesAndDots,
}

struct Placing<'a> {
    scene: &'a Scene<'a>,
    labels: Vec<Label>,
    label_of: Vec<Option<usize>>,
    cells: Growing,
}

/// The labels: the numbers of the dots that are asked for first, then of the others, then names where there is room.
/// The first dot that was asked for and finds no place is the error.
pub fn place(scene: &Scene, numbers: &[String], names: &[String], asked: &[usize]) -> Result<Vec<Label>, usize> {
    let n = scene.dots.len();
    let cells = Growing::new(scene.cells);
    let mut placing = Placing { scene, labels: Vec::new(), label_of: vec![None; n], cells };
    for &dot in asked {
        if placing.label_of[dot].is_none() && !placing.put_asked(dot, &numbers[dot]) {
            return Err(dot);
        }
    }
    for (dot, number) in numbers.iter().enumerate() {
        if placing.label_of[dot].is_none() && !placing.crowded(dot) {
            placing.put(dot, number, &NEAR, Leave::Nothing);
        }
    }
    for (dot, name) in names.iter().enumerate().filter(|(_, name)| !name.is_empty()) {
        if placing.label_of[dot].is_some() {
            placing.put(dot, &format!("{} {name}", numbers[dot]), &NEAR[..1], Leave::Nothing);
        }
    }
    Ok(placing.labels)
}

impl Placing<'_> {
    fn crowded(&self, dot: usize) -> bool {
        let at = self.scene.dots[dot];
        let mut near = self.scene.dot_cells.near(&Box::around(at, CROWDED));
        near.any(|other| other != dot && self.scene.dots[other].to(at) < CROWDED)
    }

    fn put_asked(&mut self, dot: usize, text: &str) -> bool {
        let ways = [Leave::Nothing, Leave::Lines, Leave::LinesAndDots];
        ways.into_iter().any(|leave| self.put(dot, text, &FAR, leave))
    }

    /// Puts a dot's label, or puts it anew, at the first place that is good; it stays as it was where there is none.
    fn put(&mut self, dot: usize, text: &str, lengths: &[f64], leave: Leave) -> bool {
        let size = self.scene.size;
        let extent = (width(text, size), (ASCENT + DESCENT) * size);
        let (at, radius) = (self.scene.dots[dot], self.scene.radii[dot]);
        let good = |b: &Box| radius >= SEEN && self.free(dot, b) && self.nearest(dot, b);
        let beside = beside(at, radius, extent).into_iter().find(good);
        let placed = match beside {
            Some(bounds) => Some((bounds, None)),
            None => self.at_a_leader(dot, extent, lengths, leave).map(|(bounds, leader)| (bounds, Some(leader))),
        };
        let Some((bounds, leader)) = placed else { return false };
        let label = Label { dot, text: text.to_string(), bounds, leader };
        let covered = leader.map_or(bounds, |l| {
            let way = l.bounds();
            Box {
                left: bounds.left.min(way.left),
                top: bounds.top.min(way.top),
                right: bounds.right.max(way.right),
                bottom: bounds.bottom.max(way.bottom),
            }
        });
        let index = *self.label_of[dot].get_or_insert(self.labels.len());
        if index == self.labels.len() {
            self.labels.push(label);
        } else {
            self.labels[index] = label;
        }
        self.cells.put(index, &covered);
        true
    }

    fn at_a_leader(&self, dot: usize, extent: (f64, f64), lengths: &[f64], leave: Leave) -> Option<(Box, Segment)> {
        let (at, radius) = (self.scene.dots[dot], self.scene.radii[dot]);
        let ways = lengths.iter().flat_map(|&l| (0..ANGLES).map(move |i| (l, TAU * i as f64 / ANGLES as f64)));
        ways.map(|(length, angle)| {
            let end = at.moved((radius + length) * angle.cos(), (radius + length) * angle.sin());
            (hung(end, angle, extent), Segment { from: at, to: end })
        })
        .find(|(bounds, leader)| {
            self.free(dot, bounds) && self.apart(dot, bounds) && self.clear(dot, bounds, leader, leave)
        })
    }

    /// Whether the box is on the page and no dot, line, label or leader line touches it.
    fn free(&self, dot: usize, b: &Box) -> bool {
        let scene = self.scene;
        let wide = b.grown(CLEAR);
        // two numbers must not read as one
        let loose = Box { left: b.left - ADVANCE * scene.size, right: b.right + ADVANCE * scene.size, ..wide };
        scene.area.holds(b)
            && !self.struck(&wide)
            && !scene.dot_cells.near(&b.grown(CLEAR + 5.0)).any(|i| {
                let room = scene.radii[i] + if i == dot { 1.0 } else { CLEAR };
                b.distance(scene.dots[i]) < room
            })
            && !self.cells.near(&loose).any(|i| {
                let other = &self.labels[i];
                other.dot != dot && (loose.meets(&other.bounds) || other.leader.is_some_and(|l| wide.is_cut_by(&l)))
            })
    }

    /// Whether a line goes through the box; in a crowd the cell of its middle tells first.
    fn struck(&self, b: &Box) -> bool {
        let scene = self.scene;
        let middle = Point { x: (b.left + b.right) / 2.0, y: (b.top + b.bottom) / 2.0 };
        let wide = b.grown(scene.excess);
        let mut near = scene.line_cells.near(&Box::around(middle, 0.0)).chain(scene.line_cells.near(&wide));
        near.any(|i| if scene.held[i] { &wide } else { b }.is_cut_by(&scene.lines[i]))
    }

    /// Whether the box's own dot is the nearest by far.
    fn nearest(&self, dot: usize, b: &Box) -> bool {
        let reach = 1.5 * b.distance(self.scene.dots[dot]) + 1.0;
        let mut near = self.scene.dot_cells.near(&b.grown(reach));
        !near.any(|i| i != dot && b.distance(self.scene.dots[i]) < reach)
    }

    /// Whether no other dot is so near a box with a leader line that the line could be overlooked.
    fn apart(&self, dot: usize, b: &Box) -> bool {
        let reach = 0.6 * self.scene.size;
        let mut near = self.scene.dot_cells.near(&b.grown(reach));
        !near.any(|i| i != dot && b.distance(self.scene.dots[i]) < reach)
    }

    /// Whether the leader line touches nothing but its dot and what it may pass over.
    fn clear(&self, dot: usize, bounds: &Box, leader: &Segment, leave: Leave) -> bool {
        let scene = self.scene;
        let way = leader.bounds().grown(CLEAR);
        let over_lines = leave != Leave::Nothing
            || !scene.line_cells.near(&way).any(|i| {
                let (a, b) = scene.ends[i];
                a != Some(dot) && b != Some(dot) && leader.crosses(&scene.lines[i])
            });
        let over_dots = leave == Leave::LinesAndDots
            || !scene
                .dot_cells
                .near(&way.grown(5.0))
                .any(|i| i != dot && leader.distance(scene.dots[i]) < scene.radii[i] + CLEAR);
        over_lines
            && over_dots
            && !self.cells.near(&way).any(|i| {
                let other = &self.labels[i];
                other.dot != dot
                    && (other.bounds.grown(CLEAR).is_cut_by(leader)
                        || other.leader.is_some_and(|l| l.crosses(leader) || bounds.is_cut_by(&l)))
            })
    }
}

/// The places beside a dot: right and left first, then below and above, then the corners.
fn beside(at: Point, radius: f64, (wide, high): (f64, f64)) -> [Box; 8] {
    let gap = radius + 2.0;
    let corner = 0.8 * gap;
    let place = |left: f64, top: f64| Box {
        left: at.x + left,
        top: at.y + top,
        right: at.x + left + wide,
        bottom: at.y + top + high,
    };
    [
        place(gap, -high / 2.0),
        place(-gap - wide, -high / 2.0),
        place(-wide / 2.0, gap),
        place(-wide / 2.0, -gap - high),
        place(corner, corner),
        place(-corner - wide, -corner - high),
        place(corner, -corner - high),
        place(-corner - wide, corner),
    ]
}

/// The box at the end of a leader line that comes from the angle.
fn hung(end: Point, angle: f64, (wide, high): (f64, f64)) -> Box {
    let (cos, sin) = (angle.cos(), angle.sin());
    let left = if cos > 0.3 {
        end.x + 1.0
    } else if cos < -0.3 {
        end.x - 1.0 - wide
    } else {
        end.x - wide / 2.0
    };
    let top = if cos.abs() > 0.3 {
        end.y - high / 2.0
    } else if sin > 0.0 {
        end.y + 1.0
    } else {
        end.y - 1.0 - high
    };
    Box { left, top, right: left + wide, bottom: top + high }
}
