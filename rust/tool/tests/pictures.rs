//! What a person reads in a picture, measured on the SVG itself: which dot a number stands at, what touches it, and
//! whether dots cover lines.

mod common;

use common::{fails, file, out, tree};
use std::collections::{BTreeSet, HashMap, HashSet};

/// What a character takes across, and what letters take above and below their line, in parts of the font's size.
const ADVANCE: f64 = 0.6;
const ASCENT: f64 = 0.8;
const DESCENT: f64 = 0.2;

type Point = (f64, f64);

struct Circle {
    at: Point,
    r: f64,
    title: String,
}

struct Text {
    left: f64,
    top: f64,
    right: f64,
    bottom: f64,
    text: String,
}

/// A picture, taken apart by the ids of its elements.
struct Picture {
    dots: HashMap<u32, Circle>,
    lines: HashMap<u32, (Point, Point)>,
    /// The widths of the lines that are held.
    heavy: HashMap<u32, f64>,
    labels: HashMap<u32, Text>,
    leaders: HashMap<u32, (Point, Point)>,
    stroke: f64,
    rows: Vec<String>,
}

fn attribute<'a>(element: &'a str, name: &str) -> Option<&'a str> {
    let from = element.find(&format!(" {name}=\""))? + name.len() + 3;
    element[from..].split('"').next()
}

fn number(element: &str, name: &str) -> f64 {
    attribute(element, name).unwrap_or_else(|| panic!("no {name} in {element}")).parse().unwrap()
}

fn ends(element: &str) -> (Point, Point) {
    ((number(element, "x1"), number(element, "y1")), (number(element, "x2"), number(element, "y2")))
}

fn content(element: &str) -> String {
    element[..element.find("</").unwrap()].rsplit('>').next().unwrap().to_string()
}

fn read(svg: &str) -> Picture {
    let (mut dots, mut lines, mut heavy, mut labels, mut leaders) = Default::default();
    let (mut rows, mut stroke, mut size) = (Vec::new(), 0.0, 0.0);
    for element in svg.lines() {
        let id = attribute(element, "id").unwrap_or("");
        let lot = id.rsplit('-').next().unwrap().parse().unwrap_or(0);
        if id == "lines" {
            stroke = number(element, "stroke-width");
        } else if id == "labels" {
            size = number(element, "font-size");
        } else if id.starts_with("lot-") {
            let at = (number(element, "cx"), number(element, "cy"));
            let dot = Circle { at, r: number(element, "r"), title: content(element) };
            HashMap::insert(&mut dots, lot, dot);
        } else if id.starts_with("line-") {
            HashMap::insert(&mut lines, lot, ends(element));
            let title = content(element);
            assert_eq!(attribute(element, "stroke"), title.ends_with(", held").then_some("#000"), "{element}");
            if title == format!("line of lot {lot}, held") {
                HashMap::insert(&mut heavy, lot, number(element, "stroke-width"));
            } else {
                assert_eq!((title, attribute(element, "stroke-width")), (format!("line of lot {lot}"), None));
            }
        } else if id.starts_with("leader-") {
            HashMap::insert(&mut leaders, lot, ends(element));
        } else if id.starts_with("label-") {
            let (left, base, text) = (number(element, "x"), number(element, "y"), content(element));
            let wide = ADVANCE * size * text.chars().count() as f64;
            assert!((wide - number(element, "textLength")).abs() < 0.02, "{element}");
            let label =
                Text { left, top: base - ASCENT * size, right: left + wide, bottom: base + DESCENT * size, text };
            HashMap::insert(&mut labels, lot, label);
        } else if element.starts_with("<text") {
            rows.push(content(element));
        }
    }
    Picture { dots, lines, heavy, labels, leaders, stroke, rows }
}

impl Picture {
    /// The width of a lot's line.
    fn width(&self, lot: u32) -> f64 {
        self.heavy.get(&lot).copied().unwrap_or(self.stroke)
    }
}

fn distance(a: Point, b: Point) -> f64 {
    (a.0 - b.0).hypot(a.1 - b.1)
}

fn to_segment(p: Point, (a, b): (Point, Point)) -> f64 {
    let (dx, dy) = (b.0 - a.0, b.1 - a.1);
    let square = dx * dx + dy * dy;
    let way = if square == 0.0 { 0.0 } else { (((p.0 - a.0) * dx + (p.1 - a.1) * dy) / square).clamp(0.0, 1.0) };
    distance(p, (a.0 + way * dx, a.1 + way * dy))
}

impl Text {
    fn distance(&self, p: Point) -> f64 {
        let dx = (self.left - p.0).max(p.0 - self.right).max(0.0);
        let dy = (self.top - p.1).max(p.1 - self.bottom).max(0.0);
        dx.hypot(dy)
    }

    fn meets(&self, o: &Text) -> bool {
        self.left < o.right && o.left < self.right && self.top < o.bottom && o.top < self.bottom
    }

    /// Whether the segment comes into the box: it is walked in steps, with each piece's part in the box.
    fn is_struck_by(&self, (a, b): (Point, Point), thick: f64) -> bool {
        let steps = (distance(a, b) / 0.25).ceil().max(1.0) as usize;
        (0..=steps).any(|i| {
            let way = i as f64 / steps as f64;
            self.distance((a.0 + way * (b.0 - a.0), a.1 + way * (b.1 - a.1))) < thick / 2.0
        })
    }
}

/// Whether two segments cross.
fn cross((a, b): (Point, Point), (c, d): (Point, Point)) -> bool {
    let side = |p: Point, q: Point, r: Point| (q.0 - p.0) * (r.1 - p.1) - (q.1 - p.1) * (r.0 - p.0);
    side(a, b, c) * side(a, b, d) < 0.0 && side(c, d, a) * side(c, d, b) < 0.0
}

/// Numbers stand at their own dots, and nothing touches them.
fn readable(what: &str, p: &Picture, asked: &[u32]) {
    for (&lot, label) in &p.labels {
        assert!(
            label.text == lot.to_string() || label.text.starts_with(&format!("{lot} ")),
            "{what}: {}",
            label.text
        );
        let own = &p.dots[&lot];
        for (&other, dot) in &p.dots {
            assert!(label.distance(dot.at) > dot.r, "{what}: dot {other} touches label {lot}");
        }
        for (&other, &line) in &p.lines {
            assert!(!label.is_struck_by(line, p.width(other)), "{what}: line {other} touches label {lot}");
        }
        for (&other, text) in p.labels.iter().filter(|(&other, _)| other != lot) {
            assert!(!label.meets(text), "{what}: labels {lot} and {other} meet");
        }
        for (&other, &leader) in p.leaders.iter().filter(|(&other, _)| other != lot) {
            assert!(!label.is_struck_by(leader, 0.7), "{what}: the leader of {other} touches label {lot}");
        }
        match p.leaders.get(&lot) {
            Some(&leader) => led(what, p, lot, leader, asked.contains(&lot)),
            None => {
                let near = label.distance(own.at);
                assert!(near < 12.0, "{what}: label {lot} is {near} from its dot");
                for (&other, dot) in p.dots.iter().filter(|(&other, _)| other != lot) {
                    let far = label.distance(dot.at);
                    assert!(far > 1.2 * near, "{what}: label {lot} is {near} from its dot and {far} from {other}");
                }
            }
        }
    }
    for lot in asked {
        assert!(p.labels.contains_key(lot), "{what}: lot {lot} was asked for");
    }
}

/// A leader line goes from the label to its dot, and over no other dot; over lines only where it was asked for.
fn led(what: &str, p: &Picture, lot: u32, leader: (Point, Point), asked: bool) {
    assert_eq!(leader.0, p.dots[&lot].at, "{what}: the leader of {lot} begins at its dot");
    assert!(p.labels[&lot].distance(leader.1) < 2.0, "{what}: the leader of {lot} ends at its label");
    if asked {
        return;
    }
    for (&other, dot) in p.dots.iter().filter(|(&other, _)| other != lot) {
        assert!(to_segment(dot.at, leader) > dot.r, "{what}: the leader of {lot} touches dot {other}");
    }
    for (&other, &line) in p.lines.iter().filter(|(_, line)| line.0 != leader.0 && line.1 != leader.0) {
        assert!(!cross(leader, line), "{what}: the leader of {lot} crosses line {other}");
    }
}

/// The number before a remark of the caption; 0 where it is not there.
fn remarked(p: &Picture, before: &str) -> usize {
    let row = p.rows.iter().find(|row| row.contains(before));
    row.map_or(0, |row| row[..row.find(before).unwrap()].rsplit(' ').next().unwrap().parse().unwrap())
}

/// All is drawn, and what the caption tells is so.
fn honest(what: &str, p: &Picture, lots: usize) {
    assert_eq!((p.dots.len(), p.lines.len()), (lots, lots - 1), "{what}");
    told(what, p);
}

/// What is left out is counted; dots have places of their own and cover no other lot's dot or line but as counted.
fn told(what: &str, p: &Picture) {
    let left_out = p.dots.len() - p.labels.len();
    assert_eq!(remarked(p, if left_out == 1 { " number left" } else { " numbers left" }), left_out, "{what}");
    let places: HashSet<String> = p.dots.values().map(|dot| format!("{:?}", dot.at)).collect();
    assert_eq!(places.len(), p.dots.len(), "{what}: places fall together");
    let touching = p.dots.iter().filter(|(&lot, dot)| {
        let lines = p.lines.iter().filter(|(&other, line)| other != lot && line.0 != dot.at);
        let rooms = lines.map(|(&other, &line)| to_segment(dot.at, line) - p.width(other) / 2.0);
        let on_line = rooms.into_iter().any(|room| room < dot.r);
        let others = p.dots.iter().filter(|(&other, _)| other != lot);
        on_line || others.map(|(_, other)| distance(dot.at, other.at)).any(|far| far < 2.0 * dot.r)
    });
    let told = remarked(p, " dots touch") + remarked(p, " dot touches");
    assert_eq!(touching.count(), told, "{what}: dots that touch another's dot or line");
    let held = remarked(p, " line is held: heavy and black") + remarked(p, " lines are held: heavy and black");
    assert_eq!(p.heavy.len(), held, "{what}: held lines");
    assert!(p.heavy.values().all(|&wide| wide >= 1.5 && wide >= 2.5 * p.stroke), "{what}: held lines are heavy");
}

fn kinds(n: u32) -> Vec<(&'static str, Vec<u32>)> {
    let mut seed = 12345u64;
    let mut below = |bound: u32| {
        seed = seed.wrapping_mul(6364136223846793005).wrapping_add(1442695040888963407);
        ((seed >> 33) % u64::from(bound)) as u32
    };
    let random = (0..n).map(|v| if v == 0 { 0 } else { below(v) }).collect();
    let bushy = (0..n).map(|v| if v == 0 { 0 } else { v - 1 - below(v.min(6)) }).collect();
    vec![
        ("star", vec![0; n as usize]),
        ("chain", (0..n).map(|v| v.saturating_sub(1)).collect()),
        ("broom", (0..n).map(|v| v.saturating_sub(1).min(n / 2)).collect()),
        ("random", random),
        ("bushy", bushy),
    ]
}

#[test]
fn numbers_are_read_at_their_own_dots() {
    for n in [3, 5, 30, 100, 300] {
        for (kind, parents) in kinds(n) {
            let file = tree(&format!("picture-{kind}-{n}.tree"), &parents);
            for rule in ["steep", "balanced"] {
                let what = format!("{kind} of {n}, {rule}");
                let plain = read(&out(&["draw", &file, "--rule", rule]));
                readable(&what, &plain, &[]);
                honest(&what, &plain, n as usize);
                let (last, path) = (n - 1, format!("{}:{}", n / 2, n - 1));
                let marked = out(&["draw", &file, "--rule", rule, "--mark", "1", "--path", &path]);
                readable(&what, &read(&marked), &[1, n / 2, last]);
            }
        }
    }
}

/// Few and many held lines, under a path too.
#[test]
fn held_lines_are_told_without_colours() {
    for n in [2, 5, 30, 100, 300] {
        for (kind, parents) in kinds(n) {
            let file = tree(&format!("picture-held-{kind}-{n}.tree"), &parents);
            for every in [1, 7, n - 1] {
                let held: Vec<u32> = (1..n).filter(|lot| lot % every == 0).collect();
                let options: Vec<String> = held.iter().map(|lot| format!("--hold={lot}")).collect();
                let path = format!("--path={}:{}", n / 2, n - 1);
                let words = ["draw", &file, "--rule=balanced", &path].into_iter();
                let svg = out(&words.chain(options.iter().map(String::as_str)).collect::<Vec<_>>());
                let (what, picture) = (format!("{kind} of {n}, every {every}"), read(&svg));
                assert_eq!(picture.heavy.keys().copied().collect::<BTreeSet<_>>(), held.into_iter().collect());
                readable(&what, &picture, &[n / 2, n - 1]);
                honest(&what, &picture, n as usize);
            }
        }
    }
}

#[test]
fn a_held_line_of_the_five_lots() {
    let five = common::five("picture-held.tree");
    let picture = |words: &[&str]| out(&[&["draw", &five], words].concat());
    let svg = picture(&["--hold", "3", "--hold", "1", "--path", "4:2"]);
    assert!(
        svg.contains("<title>line of lot 3, held</title>") && svg.contains(">2 lines are held: heavy and black<")
    );
    assert!(svg.contains("<title>lot 3, parent 1, at (2, 4), its line is held</title>"), "{svg}");
    // the path goes over the line of lot 1, which shows between its dashes, and not over that of lot 3
    let dashed: Vec<&str> = svg.lines().filter(|line| line.starts_with("<line") && line.contains("dash")).collect();
    assert!(dashed.len() == 1 && dashed[0].contains("<title>line of lot 1, held</title>"), "{svg}");
    assert_eq!(ends(dashed[0]), {
        let (a, b) = read(&svg).lines[&1];
        (b, a)
    });
    assert_eq!(number(dashed[0], "stroke-width"), read(&svg).heavy[&1]);
    // what is free looks as it always did, and what is not drawn is not told
    assert_eq!(picture(&["--hold", "3", "--free", "3", "--mark", "2"]), picture(&["--mark", "2"]));
    let part = picture(&["--hold", "1", "--root", "1"]);
    assert!(!part.contains("heavy") && part.contains("<title>lot 1, parent 0, at (1, 3), its line is held</title>"));
    let part = picture(&["--hold", "1", "--hold", "4", "--root", "1"]);
    assert!(part.contains(">1 line is held: heavy and black<"), "{part}");
}

#[test]
fn a_steep_star_of_a_hundred_has_no_number_at_anothers_dot() {
    let star = tree("picture-star.tree", &[0; 100]);
    let picture = read(&out(&["draw", &star]));
    assert!(picture.labels.len() >= 30, "{} numbers", picture.labels.len());
    readable("star", &picture, &[]);
}

#[test]
fn places_differ_however_many() {
    let parents: Vec<u32> = (0..4096u32).map(|v| v.saturating_sub(1) / 3).collect();
    let large = tree("picture-large.tree", &parents);
    for rule in ["steep", "balanced"] {
        let picture = read(&out(&["draw", &large, "--rule", rule, "--mark", "4095"]));
        let places: HashSet<String> = picture.dots.values().map(|dot| format!("{:?}", dot.at)).collect();
        assert_eq!(places.len(), 4096);
        readable(rule, &picture, &[4095]);
    }
    let tall = out(&["draw", &common::five("picture-tall.tree"), "--lengthen", "2:500000000"]);
    assert!(!tall.contains("NaN") && !tall.contains("inf"));
    honest("tall", &read(&tall), 5);
}

#[test]
fn sixty_five_thousand_lots_are_drawn_in_seconds() {
    for (kind, parents) in kinds(65536) {
        let file = tree(&format!("picture-{kind}-all.tree"), &parents);
        let from = std::time::Instant::now();
        assert!(out(&["draw", &file, "--rule", "balanced"]).contains("65536 lots"));
        assert!(from.elapsed().as_secs() < 20, "{kind}: {:?}", from.elapsed());
    }
}

#[test]
fn a_part_stands_as_on_the_sheet() {
    let parents = &kinds(100)[3].1;
    let file = tree("picture-part.tree", parents);
    let (whole, part) = (read(&out(&["draw", &file])), read(&out(&["draw", &file, "--root", "2", "--depth", "2"])));
    assert!(
        part.dots.len() < 100 && part.rows[0].starts_with(&format!("{} of 100 lots, from lot 2 on", part.dots.len()))
    );
    assert_eq!(part.lines.len(), part.dots.len() - 1);
    readable("part", &part, &[]);
    // one stretching of the page takes every dot of the whole to its place in the part
    let at = |p: &Picture, lot: u32| p.dots[&lot].at;
    for (&lot, dot) in &part.dots {
        assert_eq!(dot.title, whole.dots[&lot].title);
        let depth =
            std::iter::successors(Some(lot), |&v| (v != 2 && v != 0).then(|| parents[v as usize])).count() - 1;
        assert!(depth <= 2, "lot {lot} is {depth} below lot 2");
        let moved = at(&whole, lot).0 - at(&whole, 2).0;
        let drawn = dot.at.0 - at(&part, 2).0;
        assert!((moved == 0.0) == (drawn == 0.0) && moved * drawn >= 0.0, "lot {lot}");
    }
    assert!(fails(&["draw", &file, "--root", "2", "--mark", "0"]).1.contains("lot 0 is not drawn"));
    assert_eq!(fails(&["draw", &file, "--root", "100"]).0, 2);
    assert_eq!(fails(&["draw", &file, "--mark", "100"]).0, 2);
}

#[test]
fn a_path_to_the_same_lot_is_a_ring() {
    let five = common::five("picture-ring.tree");
    for (file, lot) in [(five.as_str(), 3), (five.as_str(), 0), (&tree("picture-alone.tree", &[0]), 0)] {
        let svg = out(&["draw", file, "--path", &format!("{lot}:{lot}")]);
        let (picture, id) = (read(&svg), format!("<circle id=\"path-{lot}-{lot}\""));
        let ring = svg.lines().find(|line| line.starts_with(&id)).expect("a ring");
        let (dot, radius) = (&picture.dots[&lot], number(ring, "r"));
        assert_eq!((number(ring, "cx"), number(ring, "cy")), dot.at);
        let outer = radius + number(ring, "stroke-width") / 2.0;
        assert!(radius > dot.r && outer < picture.labels[&lot].distance(dot.at), "{svg}");
        let told = format!("the path from {lot} to itself has no line; its direction is (1, 1)");
        assert!(picture.rows.contains(&told) && !svg.contains("<polyline") && !svg.contains("NaN"), "{svg}");
        readable("ring", &picture, &[lot]);
    }
}

#[test]
fn titles_names_and_pages() {
    let outline = file("picture-names.txt", b"quay & <co>\n  \"Anna\"\n    Bert\n");
    let svg = out(&["draw", &outline, "--title", "Season <1> & \"2\"", "--page", "A4"]);
    assert!(svg.contains("<title>lot 1, &quot;Anna&quot;, parent 0, at (1, 2)</title>"), "{svg}");
    assert!(svg.contains("<title>lot 0, quay &amp; &lt;co&gt;, the root, at (0, 0)</title>"), "{svg}");
    assert!(svg.contains(">Season &lt;1&gt; &amp; &quot;2&quot;</text>"), "{svg}");
    assert!(svg.contains("width=\"297mm\" height=\"210mm\" viewBox=\"0 0 1122.52 793.7\""), "{svg}");
    assert!(svg.contains(">2 Bert</text>") && svg.contains("<title>line of lot 2</title>"), "{svg}");
    let one = out(&["draw", &tree("picture-one.tree", &[0])]);
    assert!(one.contains(">1 lot, steep: 0 wide, 0 high"), "{one}");
    let two = out(&["draw", &outline, "--path", "0:2", "--path", "2:1", "--page", "640x480"]);
    assert_eq!((two.matches("<polyline").count(), two.matches("rises along").count()), (2, 2));
    let many: Vec<String> = (1..2000).map(|v| format!("--mark={v}")).collect();
    let full = tree("picture-full.tree", &[0; 2000]);
    let words: Vec<&str> = ["draw", &full].into_iter().chain(many.iter().map(String::as_str)).collect();
    let (status, message) = fails(&words);
    assert!(status == 2 && message.contains("no room for its number"), "{message}");
}

/// What a window shows, told once more: in whole numbers, and fractions of them.
struct Screen {
    corner: (i128, i128),
    side: i128,
}

/// A fraction; what is below the line is above 0.
type Fraction = (i128, i128);

fn below(p: Fraction, q: Fraction) -> bool {
    p.0 * q.1 < q.0 * p.1
}

impl Screen {
    fn of(words: &str) -> Screen {
        let numbers: Vec<i128> = words.split(',').map(|word| word.parse().unwrap()).collect();
        Screen { corner: (numbers[0], numbers[1]), side: 1 << numbers[2] }
    }

    fn shows(&self, (x, y): (i128, i128)) -> bool {
        let within = |at: i128, from: i128| from <= at && at < from + self.side;
        within(x, self.corner.0) && within(y, self.corner.1)
    }

    /// From where to where a line, which goes across and up, is in the window, in parts of its way.
    fn passed(&self, from: (i128, i128), to: (i128, i128)) -> Option<(Fraction, Fraction)> {
        let ((a, b), (dx, dy)) = (self.corner, (to.0 - from.0, to.1 - from.1));
        let later = |p: Fraction, q: Fraction| if below(p, q) { q } else { p };
        let sooner = |p: Fraction, q: Fraction| if below(p, q) { p } else { q };
        let enters = later((0, 1), later((a - from.0, dx), (b - from.1, dy)));
        let leaves = sooner((1, 1), sooner((a + self.side - from.0, dx), (b + self.side - from.1, dy)));
        below(enters, leaves).then_some((enters, leaves))
    }
}

/// The left, the top, the width and the height of the frame.
fn frame(svg: &str) -> [f64; 4] {
    let frame = svg.lines().find(|line| line.starts_with("<rect x=")).unwrap();
    ["x", "y", "width", "height"].map(|name| number(frame, name))
}

/// The lots' places, by the sheet as text.
fn places(words: &[&str]) -> Vec<(i128, i128)> {
    let sheet = out(&[&["sheet"], words].concat());
    let lot = |line: &str| {
        let words: Vec<&str> = line.split(' ').collect();
        (words[2].parse().unwrap(), words[3].parse().unwrap())
    };
    sheet.lines().skip(2).map(lot).collect()
}

/// The dots are those of the lots that the window shows, each at its position; the lines are what is in the window of
/// those that pass through it.
fn shows_the_window(what: &str, svg: &str, window: &str, places: &[(i128, i128)], parents: &[u32]) -> Picture {
    let (picture, screen, [left, top, wide, high]) = (read(svg), Screen::of(window), frame(svg));
    let side = screen.side as f64;
    // but for the decimals that are written, which tell places apart that differ by one
    let near = |p: Point, across: f64, up: f64| {
        let right = (left + across * wide, top + high - up * high);
        let off = [((p.0 - right.0).abs(), wide / side), ((p.1 - right.1).abs(), high / side)];
        assert!(off.iter().all(|&(off, cell)| off < f64::min(0.0055, 0.06 * cell)), "{what}: {p:?} is not {right:?}");
    };
    let away = |place: (i128, i128)| (place.0 - screen.corner.0, place.1 - screen.corner.1);
    for (lot, &place) in places.iter().enumerate() {
        let (dot, (x, y)) = (picture.dots.get(&(lot as u32)), away(place));
        assert_eq!(dot.is_some(), screen.shows(place), "{what}: the dot of lot {lot}");
        if let Some(dot) = dot {
            near(dot.at, x as f64 / side, y as f64 / side);
            assert!(dot.title.contains(&format!("at ({}, {})", place.0, place.1)), "{what}: {}", dot.title);
        }
    }
    for lot in 1..places.len() {
        let (from, to, line) = (places[parents[lot] as usize], places[lot], picture.lines.get(&(lot as u32)));
        let passed = screen.passed(from, to);
        assert_eq!(line.is_some(), passed.is_some(), "{what}: the line of lot {lot}");
        let Some((&(a, b), (enters, leaves))) = line.zip(passed) else { continue };
        for (end, (n, d)) in [(a, enters), (b, leaves)] {
            let (x, y) = away(from);
            let (x, y) = (x * d + n * (to.0 - from.0), y * d + n * (to.1 - from.1));
            near(end, x as f64 / d as f64 / side, y as f64 / d as f64 / side);
        }
    }
    picture
}

const FIVE: [u32; 5] = [0, 0, 0, 1, 1];

#[test]
fn a_window_of_the_five_lots() {
    let five = common::five("picture-window.tree");
    let svg = out(&["draw", &five, "--window", "1,3,1"]);
    let picture = shows_the_window("1,3,1", &svg, "1,3,1", &places(&[&five]), &FIVE);
    // side 2 is 688 across and 484 up
    assert_eq!(frame(&svg), [56.0, 60.0, 688.0, 484.0]);
    let at = |lot: u32| picture.dots[&lot].at;
    assert_eq!((picture.dots.len(), at(1), at(2), at(3)), (3, (56.0, 544.0), (56.0, 302.0), (400.0, 302.0)));
    // lot 4 is at the upper edge, outside; the lines of 1 and 2 have but their ends in the window
    assert_eq!((picture.lines.len(), picture.lines[&3]), (2, (at(1), at(3))));
    assert_eq!(picture.lines[&4], (at(1), (400.0, 60.0)));
    let caption = "3 of 5 lots, steep: the window at (1, 3) of side 2, y drawn at 0.70 times the scale of x";
    assert_eq!(picture.rows, [caption]);
    readable("1,3,1", &picture, &[]);
    let [_, _, wide, high] = frame(&out(&["draw", &five, "--window", "1,3,1", "--to-scale"]));
    assert_eq!(wide, high);
}

#[test]
fn lines_pass_through_a_window_that_shows_no_lot() {
    let five = common::five("picture-passing.tree");
    // the lines of lots 1 and 2, which go 1 across and 3 or 4 up from the root
    let svg = out(&["draw", &five, "--window", "0,1,0", "--hold", "2", "--hold", "3"]);
    let picture = shows_the_window("0,1,0", &svg, "0,1,0", &places(&[&five]), &FIVE);
    assert_eq!((picture.dots.len(), picture.labels.len(), picture.lines.len()), (0, 0, 2));
    assert_eq!(picture.lines[&2], ((228.0, 544.0), (400.0, 60.0)));
    assert!(picture.rows[0].starts_with("0 of 5 lots, steep: the window at (0, 1) of side 1,"), "{svg}");
    assert_eq!(picture.rows[1], "1 line is held: heavy and black");
    let empty = read(&out(&["draw", &five, "--window", "4,4,2"]));
    assert_eq!((empty.dots.len(), empty.lines.len()), (0, 0));
}

/// From one lot to the whole sheet, and beyond all places.
#[test]
fn windows_of_every_size() {
    let five = common::five("picture-sizes.tree");
    let far = ["--lengthen=2:500000000"];
    for words in [&[][..], &far] {
        let places = places(&[&[five.as_str()], words].concat());
        let (x, y) = places[2];
        for corner in [(0, 0), (1, 3), (2, 4), (x, y), (x, y - 1), (x - 1, y), (u32::MAX.into(), u32::MAX.into())] {
            for m in 0..32 {
                let window = format!("{},{},{m}", corner.0, corner.1);
                let svg = out(&[&["draw", &five, "--window", &window], words].concat());
                assert!(!svg.contains("NaN") && !svg.contains("inf"), "{window}: {svg}");
                let picture = shows_the_window(&window, &svg, &window, &places, &FIVE);
                let dots: HashSet<String> = picture.dots.values().map(|dot| format!("{:?}", dot.at)).collect();
                assert_eq!(dots.len(), picture.dots.len(), "{window}: places fall together");
            }
        }
    }
    assert!(out(&["draw", &five, "--window=2,4,0"]).contains("<title>1 of 5 lots, steep: the window at (2, 4)"));
    assert!(out(&["draw", &five, "--window=0,0,31"]).contains("<title>5 lots, steep: the window at (0, 0) of side"));
}

/// The points of each piece of the path between two lots, by the ids that it has.
fn traced(svg: &str, path: &str) -> Vec<Vec<Point>> {
    let lines = svg.lines().filter(|line| line.starts_with("<polyline"));
    let pieces: Vec<&str> = lines.filter(|line| attribute(line, "id").unwrap().starts_with(path)).collect();
    for (i, piece) in pieces.iter().enumerate() {
        let which = if i == 0 { String::new() } else { format!("-{}", i + 1) };
        assert_eq!(attribute(piece, "id"), Some(format!("{path}{which}").as_str()));
    }
    let point = |word: &str| word.split_once(',').map(|(x, y)| (x.parse().unwrap(), y.parse().unwrap())).unwrap();
    pieces.iter().map(|piece| attribute(piece, "points").unwrap().split(' ').map(point).collect()).collect()
}

#[test]
fn a_path_that_leaves_the_window_comes_back_as_another_piece() {
    let five = common::five("picture-pieces.tree");
    // from lot 3 at (4, 6) down to lot 1, below the window, and up to lot 4 at (2, 5)
    let words = ["draw", &five, "--lengthen=3:2", "--hold=3", "--window=1,4,2", "--path=3:4", "--path=4:4"];
    let svg = out(&words);
    let picture = read(&svg);
    let turned = |lot: u32| vec![picture.lines[&lot].1, picture.lines[&lot].0];
    let along = |lot: u32| vec![picture.lines[&lot].0, picture.lines[&lot].1];
    assert_eq!(picture.lines[&3].1, picture.dots[&3].at);
    assert_eq!(traced(&svg, "path-3-4"), [turned(3), along(4)]);
    assert!(traced(&svg, "path-4-4").is_empty() && svg.contains("<circle id=\"path-4-4\""), "{svg}");
    // the dashes over the path are cut as the line is
    let dashed = svg.lines().find(|line| line.starts_with("<line") && line.contains("dash")).unwrap();
    assert_eq!(vec![ends(dashed).0, ends(dashed).1], turned(3));
    readable("pieces", &picture, &[3, 4]);
    // where the whole path is in the window, it is in one piece
    let svg = out(&["draw", &five, "--window=1,3,2", "--path=3:4"]);
    let at = |lot: u32| read(&svg).dots[&lot].at;
    assert_eq!(traced(&svg, "path-3-4"), [vec![at(3), at(1), at(4)]]);
}

#[test]
fn windows_of_a_hundred_lots_are_read_as_whole_sheets_are() {
    let outline = concat!(env!("CARGO_MANIFEST_DIR"), "/../../examples/hundred.txt");
    let hundred = common::place("picture-hundred.tree");
    out(&["outline", outline, "-o", &hundred]);
    let tree = std::fs::read(&hundred).unwrap();
    let word = |i: usize| u32::from_le_bytes(tree[4 * i..4 * i + 4].try_into().unwrap());
    let mut trees = vec![("hundred", hundred, (1..=word(0) as usize).map(word).collect())];
    trees.extend(
        kinds(100)
            .into_iter()
            .map(|(kind, parents)| (kind, common::tree(&format!("picture-window-{kind}.tree"), &parents), parents)),
    );
    for (kind, file, parents) in trees {
        for (rule, m) in [("steep", 3), ("steep", 7), ("balanced", 4), ("balanced", 5)] {
            let places = places(&[&file, "--rule", rule]);
            for (lot, off) in [(5, 0), (40, 3), (99, 7)] {
                let (x, y) = places[lot];
                let window = format!("{},{},{m}", (x - off).max(0), (y - off).max(0));
                let what = format!("{kind}, {rule}, {window}");
                let (mark, hold) = (format!("--mark={lot}"), "--hold=7");
                let svg = out(&["draw", &file, "--rule", rule, "--window", &window, &mark, hold]);
                let picture = shows_the_window(&what, &svg, &window, &places, &parents);
                readable(&what, &picture, &[lot as u32]);
                told(&what, &picture);
            }
        }
    }
}

#[test]
fn a_window_of_a_part_has_that_parts_lines() {
    let parents = &kinds(100)[3].1;
    let file = tree("picture-window-part.tree", parents);
    let part = read(&out(&["draw", &file, "--root", "2", "--depth", "2"]));
    let places = places(&[&file]);
    let window = format!("{},{},5", places[2].0, places[2].1 + 1);
    let svg = out(&["draw", &file, "--root", "2", "--depth", "2", "--window", &window]);
    let whole = read(&out(&["draw", &file, "--window", &window]));
    let picture = read(&svg);
    assert!(!picture.dots.is_empty() && picture.dots.len() < whole.dots.len());
    for (lot, dot) in &whole.dots {
        assert_eq!(part.dots.contains_key(lot), picture.dots.get(lot).is_some_and(|own| own.at == dot.at));
    }
    for (lot, line) in &whole.lines {
        assert_eq!(part.lines.contains_key(lot), picture.lines.get(lot) == Some(line), "line {lot}");
    }
    let n = picture.dots.len();
    assert!(picture.rows[0].starts_with(&format!("{n} of 100 lots, from lot 2 on, steep: the window")), "{svg}");
}
