//! Points, segments and boxes of a page, and cells that find what is near.

#[derive(Clone, Copy, Debug, PartialEq)]
pub struct Point {
    pub x: f64,
    pub y: f64,
}

impl Point {
    pub fn to(self, other: Point) -> f64 {
        (self.x - other.x).hypot(self.y - other.y)
    }

    pub fn moved(self, dx: f64, dy: f64) -> Point {
        Point { x: self.x + dx, y: self.y + dy }
    }
}

#[derive(Clone, Copy, Debug)]
pub struct Segment {
    pub from: Point,
    pub to: Point,
}

impl Segment {
    pub fn distance(&self, p: Point) -> f64 {
        let (dx, dy) = (self.to.x - self.from.x, self.to.y - self.from.y);
        let square = dx * dx + dy * dy;
        let along = if square == 0.0 { 0.0 } else { ((p.x - self.from.x) * dx + (p.y - self.from.y) * dy) / square };
        let along = along.clamp(0.0, 1.0);
        p.to(self.from.moved(along * dx, along * dy))
    }

    /// Whether the two share a point, those in one line left aside.
    pub fn crosses(&self, other: &Segment) -> bool {
        let side =
            |s: &Segment, p: Point| (s.to.x - s.from.x) * (p.y - s.from.y) - (s.to.y - s.from.y) * (p.x - s.from.x);
        side(self, other.from) * side(self, other.to) <= 0.0 && side(other, self.from) * side(other, self.to) <= 0.0
    }

    pub fn bounds(&self) -> Box {
        Box {
            left: self.from.x.min(self.to.x),
            top: self.from.y.min(self.to.y),
            right: self.from.x.max(self.to.x),
            bottom: self.from.y.max(self.to.y),
        }
    }
}

/// A rectangle; y grows downwards, as on a page.
#[derive(Clone, Copy, Debug)]
pub struct Box {
    pub left: f64,
    pub top: f64,
    pub right: f64,
    pub bottom: f64,
}

impl Box {
    pub fn around(p: Point, reach: f64) -> Box {
        Box { left: p.x, top: p.y, right: p.x, bottom: p.y }.grown(reach)
    }

    pub fn grown(&self, by: f64) -> Box {
        Box { left: self.left - by, top: self.top - by, right: self.right + by, bottom: self.bottom + by }
    }

    pub fn holds(&self, other: &Box) -> bool {
        self.left <= other.left && self.top <= other.top && self.right >= other.right && self.bottom >= other.bottom
    }

    pub fn meets(&self, other: &Box) -> bool {
        self.left <= other.right && other.left <= self.right && self.top <= other.bottom && other.top <= self.bottom
    }

    pub fn distance(&self, p: Point) -> f64 {
        let dx = (self.left - p.x).max(p.x - self.right).max(0.0);
        let dy = (self.top - p.y).max(p.y - self.bottom).max(0.0);
        dx.hypot(dy)
    }

    /// From where to where the segment is inside, in parts of its way: it is cut to the box, side by side.
    fn inside(&self, s: &Segment) -> Option<(f64, f64)> {
        let (mut enters, mut leaves) = (0.0f64, 1.0f64);
        let sides = [
            (s.to.x - s.from.x, self.left - s.from.x, self.right - s.from.x),
            (s.to.y - s.from.y, self.top - s.from.y, self.bottom - s.from.y),
        ];
        for (d, low, high) in sides {
            if d == 0.0 {
                if low > 0.0 || high < 0.0 {
                    return None;
                }
                continue;
            }
            enters = enters.max((low / d).min(high / d));
            leaves = leaves.min((low / d).max(high / d));
        }
        (enters <= leaves).then_some((enters, leaves))
    }

    /// Whether a part of the segment is inside, be it a point.
    pub fn is_cut_by(&self, s: &Segment) -> bool {
        self.inside(s).is_some()
    }

    /// The part of the segment that is inside; none where that is a point, which has no length to be seen. An end that
    /// is inside stays just what it is.
    pub fn part(&self, s: &Segment) -> Option<Segment> {
        let (enters, leaves) = self.inside(s).filter(|(enters, leaves)| enters < leaves)?;
        let cut = |way: f64| {
            let p = s.from.moved(way * (s.to.x - s.from.x), way * (s.to.y - s.from.y));
            // far ends leave the point a hair off
            Point { x: p.x.clamp(self.left, self.right), y: p.y.clamp(self.top, self.bottom) }
        };
        Some(Segment {
            from: if enters > 0.0 { cut(enters) } else { s.from },
            to: if leaves < 1.0 { cut(leaves) } else { s.to },
        })
    }
}

/// A page in cells. What is asked for outside the page is in the cells at its edge.
#[derive(Clone, Copy)]
pub struct Cells {
    across: f64,
    down: f64,
}

const SIDE: usize = 128;

impl Cells {
    pub fn of(width: f64, height: f64) -> Cells {
        Cells { across: width / SIDE as f64, down: height / SIDE as f64 }
    }

    fn index(at: f64, size: f64) -> usize {
        (at / size).clamp(0.0, (SIDE - 1) as f64) as usize
    }

    /// The cells that a box meets.
    fn under(&self, b: &Box) -> impl Iterator<Item = usize> {
        let columns = Cells::index(b.left, self.across)..=Cells::index(b.right, self.across);
        let rows = Cells::index(b.top, self.down)..=Cells::index(b.bottom, self.down);
        rows.flat_map(move |row| columns.clone().map(move |column| row * SIDE + column))
    }

    /// The cells that a segment meets, column by column.
    fn along(&self, s: &Segment) -> impl Iterator<Item = usize> {
        let (cells, s) = (*self, *s);
        let (a, b) = if s.from.x <= s.to.x { (s.from, s.to) } else { (s.to, s.from) };
        let height = move |x: f64| {
            let way = if b.x > a.x { ((x - a.x) / (b.x - a.x)).clamp(0.0, 1.0) } else { 1.0 };
            a.y + way * (b.y - a.y)
        };
        let (first, last) = (Cells::index(a.x, cells.across), Cells::index(b.x, cells.across));
        (first..=last).flat_map(move |column| {
            let enters = if column == first { a.y } else { height(column as f64 * cells.across) };
            let leaves = if column == last { b.y } else { height((column + 1) as f64 * cells.across) };
            // a hair more, so that rounding leaves no cell out
            let top = Cells::index(enters.min(leaves) - 1e-6, cells.down);
            let bottom = Cells::index(enters.max(leaves) + 1e-6, cells.down);
            (top..=bottom).map(move |row| row * SIDE + column)
        })
    }
}

/// Numbered things that stay where they are, by cell.
pub struct Fixed {
    cells: Cells,
    starts: Vec<u32>,
    items: Vec<u32>,
}

impl Fixed {
    pub fn points(cells: Cells, points: &[Point]) -> Fixed {
        let cell = |p: &Point| std::iter::once(cells.under(&Box::around(*p, 0.0)).next().unwrap());
        Fixed::gathered(cells, points, cell)
    }

    pub fn segments(cells: Cells, segments: &[Segment]) -> Fixed {
        Fixed::gathered(cells, segments, |s| cells.along(s))
    }

    /// Two passes: the first counts what each cell gets, the second puts it there.
    fn gathered<T, I: Iterator<Item = usize>>(cells: Cells, things: &[T], covers: impl Fn(&T) -> I) -> Fixed {
        let mut starts = vec![0u32; SIDE * SIDE + 1];
        for cell in things.iter().flat_map(&covers) {
            starts[cell + 1] += 1;
        }
        for cell in 0..SIDE * SIDE {
            starts[cell + 1] += starts[cell];
        }
        let mut next = starts.clone();
        let mut items = vec![0; starts[SIDE * SIDE] as usize];
        for (i, thing) in things.iter().enumerate() {
            for cell in covers(thing) {
                items[next[cell] as usize] = i as u32;
                next[cell] += 1;
            }
        }
        Fixed { cells, starts, items }
    }

    /// The things in the cells that a box meets; one that is in many cells comes as often.
    pub fn near(&self, b: &Box) -> impl Iterator<Item = usize> + '_ {
        let slots = move |cell: usize| self.starts[cell] as usize..self.starts[cell + 1] as usize;
        self.cells.under(b).flat_map(move |cell| self.items[slots(cell)].iter().map(|&i| i as usize))
    }
}

/// Numbered things that come one by one, by cell.
pub struct Growing {
    cells: Cells,
    items: Vec<Vec<u32>>,
}

impl Growing {
    pub fn new(cells: Cells) -> Growing {
        Growing { cells, items: vec![Vec::new(); SIDE * SIDE] }
    }

    pub fn put(&mut self, item: usize, bounds: &Box) {
        for cell in self.cells.under(bounds) {
            self.items[cell].push(item as u32);
        }
    }

    pub fn near(&self, b: &Box) -> impl Iterator<Item = usize> + '_ {
        self.cells.under(b).flat_map(|cell| self.items[cell].iter().map(|&i| i as usize))
    }
}

#[cfg(test)]
mod tests {
    use super::*;

    fn segment(a: (f64, f64), b: (f64, f64)) -> Segment {
        Segment { from: Point { x: a.0, y: a.1 }, to: Point { x: b.0, y: b.1 } }
    }

    #[test]
    fn a_box_is_cut_by_what_passes_through_it() {
        let b = Box { left: 1.0, top: 1.0, right: 3.0, bottom: 2.0 };
        assert!(b.is_cut_by(&segment((0.0, 0.0), (4.0, 3.0))));
        assert!(b.is_cut_by(&segment((2.0, 0.0), (2.0, 9.0))));
        assert!(b.is_cut_by(&segment((1.5, 1.5), (1.6, 1.5))));
        assert!(!b.is_cut_by(&segment((0.0, 0.0), (4.0, 0.9))));
        assert!(!b.is_cut_by(&segment((0.0, 1.9), (0.9, 3.0))));
    }

    /// The part of a segment in a box, as numbers.
    fn part(b: &Box, s: Segment) -> Option<[f64; 4]> {
        b.part(&s).map(|part| [part.from.x, part.from.y, part.to.x, part.to.y])
    }

    #[test]
    fn a_segment_is_cut_at_the_edges_that_it_passes() {
        let b = Box { left: 1.0, top: 1.0, right: 3.0, bottom: 2.0 };
        assert_eq!(part(&b, segment((0.0, 0.0), (4.0, 4.0))), Some([1.0, 1.0, 2.0, 2.0]));
        assert_eq!(part(&b, segment((4.0, 4.0), (0.0, 0.0))), Some([2.0, 2.0, 1.0, 1.0]));
        assert_eq!(part(&b, segment((2.0, 0.0), (2.0, 9.0))), Some([2.0, 1.0, 2.0, 2.0]));
        assert_eq!(part(&b, segment((2.0, 1.5), (9.0, 1.5))), Some([2.0, 1.5, 3.0, 1.5]));
        assert_eq!(part(&b, segment((0.0, 1.5), (1.5, 1.5))), Some([1.0, 1.5, 1.5, 1.5]));
        assert_eq!(part(&b, segment((0.0, 0.0), (4.0, 0.9))), None);
        // ends inside, and on an edge, are not moved by rounding
        let (from, to) = ((1.1, 1.3), (3.0, 1.7));
        assert_eq!(part(&b, segment(from, to)), Some([from.0, from.1, to.0, to.1]));
    }

    #[test]
    fn a_point_of_a_segment_is_no_part_of_it() {
        let b = Box { left: 0.0, top: 0.0, right: 1.0, bottom: 1.0 };
        let touching =
            [segment((-1.0, 0.0), (1.0, 2.0)), segment((-1.0, -3.0), (0.0, 0.5)), segment((0.5, 1.0), (0.6, 2.0))];
        for s in touching {
            assert!(b.is_cut_by(&s) && b.part(&s).is_none(), "{s:?}");
        }
    }

    /// As far as places of 32 bits are from a window of side 1.
    #[test]
    fn far_ends_leave_the_cut_in_the_box() {
        let (b, far) = (Box { left: 0.0, top: 0.0, right: 1.0, bottom: 1.0 }, f64::from(u32::MAX));
        for (from, to) in [((-far, -far), (far - 1.0, far)), ((-far, -7.0), (3.0, 1.0)), ((0.0, 0.0), (far, 9.0))] {
            let cut = b.part(&segment(from, to)).unwrap();
            assert!(b.holds(&cut.bounds()), "{cut:?}");
            let whole = segment(from, to);
            for end in [cut.from, cut.to] {
                assert!(whole.distance(end) < 1e-6, "{end:?} of {whole:?}");
            }
        }
    }

    #[test]
    fn a_segment_is_found_from_each_point_of_it() {
        let segments = [segment((3.0, 590.0), (790.0, 4.0)), segment((100.0, 20.0), (100.0, 500.0))];
        let fixed = Fixed::segments(Cells::of(800.0, 600.0), &segments);
        for (i, s) in segments.iter().enumerate() {
            for step in 0..=1000 {
                let way = f64::from(step) / 1000.0;
                let p = s.from.moved(way * (s.to.x - s.from.x), way * (s.to.y - s.from.y));
                assert!(fixed.near(&Box::around(p, 0.0)).any(|found| found == i), "{p:?}");
            }
        }
    }
}
