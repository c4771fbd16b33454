//! Document 01 in plain Rust, with what document 02 asks for: written from the documents and built otherwise than the
//! proved code, so that the two can be held against each other. Trees are child lists walked by recursion, balanced
//! slopes are fractions made level by level and sorted, a check tries candidate directions on the vectors of each path.
//! All sums are 128 bits wide.

use std::cmp::Ordering;
use std::collections::{HashMap, HashSet};

pub mod random;

/// What a call refuses with: a number and a lot.
pub type Refusal = (u32, u32);

/// What a call takes: the most lots, and the largest place; with the numbers that refuse more.
#[derive(Clone, Copy, Debug)]
pub struct Limits {
    pub lots: usize,
    pub surplus: u32,
    pub place: i128,
    pub beyond: u32,
}

pub const LARGE: Limits = Limits { lots: 65_536, surplus: 2, place: 2_147_483_647, beyond: 11 };

/// The small cabinet's.
pub const SMALL: Limits = Limits { lots: 1024, surplus: 20, place: 1_048_575, beyond: 21 };

/// The check's.
const CHECK: Limits = Limits { lots: 4096, surplus: 14, place: LARGE.place, beyond: 15 };

/// Numbers that refuse without a touch to the work list.
pub fn spares_work(number: i64) -> bool {
    matches!(number, 1 | 2 | 3 | 14 | 16 | 17 | 19 | 20)
}

/// An accepted table as child lists, in rank order.
pub struct Tree {
    pub parent: Vec<usize>,
    pub children: Vec<Vec<usize>>,
}

/// A slope (across, up).
pub type Slope = (i128, i128);

/// Refusals 1 to 7. `others` are the lengths of the lent lists besides the parent list.
pub fn accept(limits: Limits, parent: &[u32], rank: &[u32], others: &[usize], work: usize) -> Result<Tree, Refusal> {
    accept_lengths(limits, parent, rank, others, work)?;
    accept_lists(parent, rank)
}

/// Refusals 1 to 3.
fn accept_lengths(
    limits: Limits,
    parent: &[u32],
    rank: &[u32],
    others: &[usize],
    work: usize,
) -> Result<(), Refusal> {
    let n = parent.len();
    if n == 0 {
        return Err((1, 0));
    }
    if n > limits.lots {
        return Err((limits.surplus, 0));
    }
    if rank.len() != n || others.iter().any(|&l| l != n) || work != 4 * n {
        return Err((3, 0));
    }
    Ok(())
}

/// Refusals 4 to 7.
pub fn accept_lists(parent: &[u32], rank: &[u32]) -> Result<Tree, Refusal> {
    let n = parent.len();
    if (parent[0], rank[0]) != (0, 0) {
        return Err((4, 0));
    }
    if let Some(v) = (1..n).find(|&v| parent[v] as usize >= n) {
        return Err((5, v as u32));
    }
    let mut children: Vec<Vec<usize>> = vec![Vec::new(); n];
    let mut holders: HashMap<(u32, u32), u32> = HashMap::new();
    for v in 1..n {
        children[parent[v] as usize].push(v);
        *holders.entry((parent[v], rank[v])).or_default() += 1;
    }
    let bad = |v: usize| rank[v] as usize >= children[parent[v] as usize].len() || holders[&(parent[v], rank[v])] > 1;
    if let Some(v) = (1..n).find(|&v| bad(v)) {
        return Err((6, v as u32));
    }
    for list in &mut children {
        list.sort_by_key(|&v| rank[v]);
    }
    let mut reached = HashSet::new();
    reach(&children, 0, &mut reached);
    if let Some(v) = (1..n).find(|v| !reached.contains(v)) {
        return Err((7, v as u32));
    }
    Ok(Tree { parent: parent.iter().map(|&p| p as usize).collect(), children })
}

fn reach(children: &[Vec<usize>], v: usize, reached: &mut HashSet<usize>) {
    reached.insert(v);
    for &c in &children[v] {
        reach(children, c, reached);
    }
}

impl Tree {
    pub fn lots(&self) -> usize {
        self.parent.len()
    }

    /// The lots in post-order: the subtrees of the children in rank order, then the lot.
    pub fn post_order(&self) -> Vec<usize> {
        fn walk(tree: &Tree, v: usize, order: &mut Vec<usize>) {
            for &c in &tree.children[v] {
                walk(tree, c, order);
            }
            order.push(v);
        }
        let mut order = Vec::new();
        walk(self, 0, &mut order);
        order
    }

    /// Each lot's post number: its place in post-order, from 1.
    pub fn post_numbers(&self) -> Vec<u32> {
        let mut numbers = vec![0; self.lots()];
        for (v, number) in self.post_order().into_iter().zip(1..) {
            numbers[v] = number;
        }
        numbers
    }

    /// Each lot's edge slope; the root's is (0, 0).
    pub fn slopes(&self, balanced: bool) -> Vec<Slope> {
        let given = if balanced { balanced_slopes(self.lots()) } else { steep_slopes(self.lots()) };
        let mut slopes = vec![(0, 0); self.lots()];
        let mut order = self.post_order();
        assert_eq!(order.pop(), Some(0));
        for (&v, slope) in order.iter().zip(given) {
            slopes[v] = slope;
        }
        slopes
    }

    /// A lot and its ancestors, up to the root.
    pub fn way_up(&self, v: usize) -> Vec<usize> {
        let mut way = vec![v];
        while way[way.len() - 1] != 0 {
            way.push(self.parent[way[way.len() - 1]]);
        }
        way
    }

    /// The lots of the tree path from u to v.
    pub fn path(&self, u: usize, v: usize) -> Vec<usize> {
        let (up, down) = (self.way_up(u), self.way_up(v));
        let meeting = *up.iter().find(|z| down.contains(z)).unwrap();
        let mut path: Vec<usize> = up.iter().copied().take_while(|&z| z != meeting).collect();
        path.push(meeting);
        let tail: Vec<usize> = down.iter().copied().take_while(|&z| z != meeting).collect();
        path.extend(tail.iter().rev());
        path
    }

    /// The lots of v's subtree.
    pub fn subtree(&self, v: usize) -> Vec<usize> {
        let mut lots = vec![v];
        for &c in &self.children[v] {
            lots.extend(self.subtree(c));
        }
        lots
    }
}

/// (1, 1), (1, 2), ..
pub fn steep_slopes(n: usize) -> Vec<Slope> {
    (1..n).map(|j| (1, j as i128)).collect()
}

/// The first n - 1 of the fractions of k levels of the Stern-Brocot tree in increasing order, 2^k at least n.
pub fn balanced_slopes(n: usize) -> Vec<Slope> {
    let mut levels = 0;
    while (1usize << levels) < n {
        levels += 1;
    }
    // a fraction with the two that it was made between
    let mut level = vec![((1, 0), (1, 1), (0, 1))];
    let mut all: Vec<Slope> = Vec::new();
    for _ in 0..levels {
        let mut next = Vec::new();
        for &(low, middle, high) in &level {
            all.push(middle);
            next.push((low, (low.0 + middle.0, low.1 + middle.1), middle));
            next.push((middle, (middle.0 + high.0, middle.1 + high.1), high));
        }
        level = next;
    }
    all.sort_by(less_steep);
    all.truncate(n - 1);
    all
}

fn less_steep(a: &Slope, b: &Slope) -> Ordering {
    (a.1 * b.0).cmp(&(b.1 * a.0))
}

/// The lists of a sheet.
#[derive(Clone, Debug, PartialEq, Eq)]
pub struct Sheet {
    pub times: Vec<u32>,
    pub x: Vec<u32>,
    pub y: Vec<u32>,
    pub held: Vec<u32>,
}

impl Sheet {
    /// Lists that are made one after the other, which need not be a sheet.
    pub fn made(mut list: impl FnMut() -> Vec<u32>) -> Sheet {
        Sheet { times: list(), x: list(), y: list(), held: list() }
    }

    pub fn each(&mut self) -> [&mut Vec<u32>; 4] {
        [&mut self.times, &mut self.x, &mut self.y, &mut self.held]
    }

    pub fn lengths(&self) -> [usize; 4] {
        [&self.times, &self.x, &self.y, &self.held].map(Vec::len)
    }

    fn place(&self, v: usize) -> (i128, i128) {
        (self.x[v] as i128, self.y[v] as i128)
    }
}

/// A reply of three numbers, as include/lineage.h has them.
pub type Reply = [i64; 3];

/// The same with a place behind it.
pub type EachReply = [i64; 4];

fn refused((number, lot): Refusal) -> Reply {
    [0, number as i64, lot as i64]
}

fn at([case, a, b]: Reply, place: i64) -> EachReply {
    [case, a, b, place]
}

fn frame(s: &Sheet) -> Reply {
    let cells = |places: &[u32]| i64::from(*places.iter().max().unwrap()) + 1;
    [1, cells(&s.x), cells(&s.y)]
}

/// The places that these times give.
pub fn places(tree: &Tree, slopes: &[Slope], times: &[u32]) -> Vec<(i128, i128)> {
    fn hang(tree: &Tree, slopes: &[Slope], times: &[u32], v: usize, at: (i128, i128), all: &mut [(i128, i128)]) {
        all[v] = at;
        for &c in &tree.children[v] {
            let long = times[c] as i128;
            let there = (at.0 + long * slopes[c].0, at.1 + long * slopes[c].1);
            hang(tree, slopes, times, c, there, all);
        }
    }
    let mut all = vec![(0, 0); tree.lots()];
    hang(tree, slopes, times, 0, (0, 0), &mut all);
    all
}

pub fn layout(limits: Limits, balanced: bool, parent: &[u32], rank: &[u32], s: &mut Sheet, work: usize) -> Reply {
    let tree = match accept(limits, parent, rank, &s.lengths(), work) {
        Ok(tree) => tree,
        Err(r) => return refused(r),
    };
    let times = vec![1; tree.lots()];
    let places = places(&tree, &tree.slopes(balanced), &times);
    s.x = places.iter().map(|p| p.0 as u32).collect();
    s.y = places.iter().map(|p| p.1 as u32).collect();
    s.times = times;
    s.held = vec![0; tree.lots()];
    frame(s)
}

/// Refusals 1 to 8, and otherwise the tree and its slopes.
fn open_sheet(
    limits: Limits,
    balanced: bool,
    parent: &[u32],
    rank: &[u32],
    s: &Sheet,
    work: usize,
) -> Result<(Tree, Vec<Slope>), Refusal> {
    let tree = accept(limits, parent, rank, &s.lengths(), work)?;
    let slopes = tree.slopes(balanced);
    for (v, slope) in slopes.iter().enumerate() {
        let (time, (x, y)) = (s.times[v] as i128, s.place(v));
        let right = if v == 0 {
            (time, x, y) == (1, 0, 0)
        } else {
            let (px, py) = s.place(tree.parent[v]);
            time >= 1 && x == px + time * slope.0 && y == py + time * slope.1
        };
        let most_held = if v == 0 { 0 } else { 1 };
        if !right || x > limits.place || y > limits.place || s.held[v] > most_held {
            return Err((8, v as u32));
        }
    }
    Ok((tree, slopes))
}

/// The same with 9 and 10, for calls on one lot.
fn open(
    limits: Limits,
    balanced: bool,
    parent: &[u32],
    rank: &[u32],
    s: &Sheet,
    work: usize,
    lot: u32,
) -> Result<(Tree, Vec<Slope>), Refusal> {
    let (tree, slopes) = open_sheet(limits, balanced, parent, rank, s, work)?;
    if lot as usize >= tree.lots() {
        return Err((9, 0));
    }
    if lot == 0 {
        return Err((10, 0));
    }
    Ok((tree, slopes))
}

/// The same with 22, for calls that change the length of the lot's line.
fn open_free(
    limits: Limits,
    balanced: bool,
    parent: &[u32],
    rank: &[u32],
    s: &Sheet,
    work: usize,
    lot: u32,
) -> Result<(Tree, Vec<Slope>), Refusal> {
    let opened = open(limits, balanced, parent, rank, s, work, lot)?;
    match s.held[lot as usize] {
        0 => Ok(opened),
        _ => Err((22, lot)),
    }
}

fn shift(s: &mut Sheet, lots: &[usize], by: (i128, i128)) {
    for &z in lots {
        s.x[z] = (s.x[z] as i128 + by.0) as u32;
        s.y[z] = (s.y[z] as i128 + by.1) as u32;
    }
}

#[allow(clippy::too_many_arguments)]
pub fn lengthen(
    limits: Limits,
    balanced: bool,
    parent: &[u32],
    rank: &[u32],
    s: &mut Sheet,
    work: usize,
    lot: u32,
    count: u32,
) -> Reply {
    let (tree, slopes) = match open_free(limits, balanced, parent, rank, s, work, lot) {
        Ok(opened) => opened,
        Err(r) => return refused(r),
    };
    let v = lot as usize;
    let by = (slopes[v].0 * count as i128, slopes[v].1 * count as i128);
    let lots = tree.subtree(v);
    let beyond = |&z: &usize| s.x[z] as i128 + by.0 > limits.place || s.y[z] as i128 + by.1 > limits.place;
    if lots.iter().any(beyond) {
        return refused((limits.beyond, lot));
    }
    shift(s, &lots, by);
    s.times[v] += count;
    frame(s)
}

#[allow(clippy::too_many_arguments)]
pub fn shorten(
    limits: Limits,
    balanced: bool,
    parent: &[u32],
    rank: &[u32],
    s: &mut Sheet,
    work: usize,
    lot: u32,
    count: u32,
) -> Reply {
    let (tree, slopes) = match open_free(limits, balanced, parent, rank, s, work, lot) {
        Ok(opened) => opened,
        Err(r) => return refused(r),
    };
    let v = lot as usize;
    if count >= s.times[v] {
        return refused((12, lot));
    }
    let by = (-slopes[v].0 * count as i128, -slopes[v].1 * count as i128);
    shift(s, &tree.subtree(v), by);
    s.times[v] -= count;
    frame(s)
}

/// The count by which lengthen brings the lot to the column. Its x grows with the count, so the least count that brings
/// it that far is found by halves, and lengthen is asked on a copy whether that one does it.
#[allow(clippy::too_many_arguments)]
pub fn column(
    limits: Limits,
    balanced: bool,
    parent: &[u32],
    rank: &[u32],
    s: &Sheet,
    work: usize,
    lot: u32,
    column: u32,
) -> Reply {
    let slopes = match open(limits, balanced, parent, rank, s, work, lot) {
        Ok((_, slopes)) => slopes,
        Err(r) => return refused(r),
    };
    let v = lot as usize;
    let falls_short = |count: u32| s.x[v] as i128 + slopes[v].0 * (count as i128) < column as i128;
    // each count goes at least 1 across, so as many as the column are enough
    let (mut least, mut enough) = (0, column);
    while least < enough {
        let middle = least + (enough - least) / 2;
        if falls_short(middle) {
            least = middle + 1;
        } else {
            enough = middle;
        }
    }
    let mut there = s.clone();
    let reply = lengthen(limits, balanced, parent, rank, &mut there, work, lot, least);
    if reply[0] == 1 && there.x[v] == column {
        [1, least.into(), 0]
    } else {
        [2, 0, 0]
    }
}

/// Lengthens each of the lots by its count, in order, up to the first that is refused.
#[allow(clippy::too_many_arguments)]
pub fn lengthen_each(
    balanced: bool,
    parent: &[u32],
    rank: &[u32],
    s: &mut Sheet,
    work: usize,
    lots: &[u32],
    counts: &[u32],
) -> EachReply {
    let tested = || {
        accept_lengths(LARGE, parent, rank, &s.lengths(), work)?;
        if lots.len() != counts.len() {
            return Err((19, 0));
        }
        open_sheet(LARGE, balanced, parent, rank, s, work)
    };
    if let Err(r) = tested() {
        return at(refused(r), 0);
    }
    let mut reply = frame(s);
    for (place, (&lot, &count)) in (1..).zip(lots.iter().zip(counts)) {
        reply = lengthen(LARGE, balanced, parent, rank, s, work, lot, count);
        if reply[0] == 0 {
            return at(reply, place);
        }
    }
    at(reply, 0)
}

/// Holds the line of a lot, or frees it.
pub fn hold(balanced: bool, parent: &[u32], rank: &[u32], s: &mut Sheet, work: usize, lot: u32, hold: bool) -> Reply {
    match open(LARGE, balanced, parent, rank, s, work, lot) {
        Ok(_) => {
            s.held[lot as usize] = hold.into();
            frame(s)
        }
        Err(r) => refused(r),
    }
}

pub fn direction(balanced: bool, parent: &[u32], rank: &[u32], work: usize, from: u32, to: u32) -> Reply {
    let tree = match accept(LARGE, parent, rank, &[], work) {
        Ok(tree) => tree,
        Err(r) => return refused(r),
    };
    let (u, v) = (from as usize, to as usize);
    if u >= tree.lots() || v >= tree.lots() {
        return refused((9, 0));
    }
    let (d, e) = heading(&tree, &tree.slopes(balanced), u, v);
    [1, d as i64, e as i64]
}

/// The direction from u to v; a lot is its own ancestor.
pub fn heading(tree: &Tree, s: &[Slope], u: usize, v: usize) -> (i128, i128) {
    let (up, down) = (tree.way_up(u), tree.way_up(v));
    if down.contains(&u) {
        return (1, 1);
    }
    if up.contains(&v) {
        return (-1, -1);
    }
    let p = *up.iter().take_while(|z| !down.contains(z)).last().unwrap();
    let q = *down.iter().take_while(|z| !up.contains(z)).last().unwrap();
    let siblings = &tree.children[tree.parent[p]];
    let place = |z| siblings.iter().position(|&c| c == z).unwrap();
    if place(p) < place(q) {
        (-(s[p].1 + s[v].1), s[p].0 + s[v].0)
    } else {
        (s[q].1 + s[u].1, -(s[q].0 + s[u].0))
    }
}

/// The least and the lot's own post number in each lot's subtree: its reply; the lists are filled where the table is
/// accepted.
pub fn post_numbers(parent: &[u32], rank: &[u32], first: &mut Vec<u32>, last: &mut Vec<u32>, work: usize) -> Reply {
    let tree = match accept(LARGE, parent, rank, &[first.len(), last.len()], work) {
        Ok(tree) => tree,
        Err(r) => return refused(r),
    };
    let numbers = tree.post_numbers();
    let least = |v| tree.subtree(v).into_iter().map(|z| numbers[z]).min().unwrap();
    *first = (0..tree.lots()).map(least).collect();
    *last = numbers;
    [1, tree.lots() as i64, 0]
}

/// The tree of n lots whose fresh steep sheet is the tallest: from the root on each new lot is hung on the last one,
/// and the tree is laid out. Its reply is the frame; the lists are filled where they are n long.
pub fn tallest(n: u32, parent: &mut Vec<u32>, rank: &mut Vec<u32>) -> Reply {
    let lots = n as usize;
    if lots == 0 {
        return refused((1, 0));
    }
    if lots > LARGE.lots {
        return refused((LARGE.surplus, 0));
    }
    if parent.len() != lots || rank.len() != lots {
        return refused((3, 0));
    }
    let mut chain = vec![0];
    while chain.len() < lots {
        let last = chain.len() as u32 - 1;
        chain.push(last);
    }
    (*parent, *rank) = (chain, vec![0; lots]);
    layout(LARGE, false, parent, rank, &mut Sheet::made(|| vec![0; lots]), 4 * lots)
}

/// What the window of side 2^m at the corner (a, b) shows of the place (x, y): its position is set where it is shown.
pub fn window(x: u32, y: u32, (a, b): (u32, u32), m: u32, point: &mut [f64; 2]) -> Reply {
    if m > 31 {
        return refused((18, 0));
    }
    let side = 1i128 << m;
    let (across, up) = (i128::from(x) - i128::from(a), i128::from(y) - i128::from(b));
    if !(0..side).contains(&across) || !(0..side).contains(&up) {
        return [2, 0, 0];
    }
    *point = [across, up].map(|distance| fraction(distance as u64, m));
    [1, 0, 0]
}

/// The f64 that is n / 2^m, for an n below 2^53, put together from its bits: the highest 1 of n gives the exponent, and
/// those behind it are the fraction.
fn fraction(n: u64, m: u32) -> f64 {
    let Some(highest) = n.checked_ilog2() else { return 0.0 };
    let exponent = u64::from(1023 + highest - m);
    let behind = (n ^ 1 << highest) << (52 - highest);
    f64::from_bits(exponent << 52 | behind)
}

pub fn check(parent: &[u32], rank: &[u32], x: &[u32], y: &[u32], work: usize) -> Reply {
    let tree = match accept(CHECK, parent, rank, &[x.len(), y.len()], work) {
        Ok(tree) => tree,
        Err(r) => return refused(r),
    };
    let n = tree.lots();
    if let Some(v) = (0..n).find(|&v| x[v].max(y[v]) as i128 > CHECK.place) {
        return refused((CHECK.beyond, v as u32));
    }
    let places: Vec<(i128, i128)> = (0..n).map(|v| (x[v] as i128, y[v] as i128)).collect();
    for u in 0..n {
        for v in u + 1..n {
            if !has_direction(&vectors(&places, &tree.path(u, v))) {
                return [2, u as i64, v as i64];
            }
        }
    }
    [1, 0, 0]
}

/// The edges of a path, each walked from lot to lot.
pub fn vectors(places: &[(i128, i128)], path: &[usize]) -> Vec<(i128, i128)> {
    let step = |w: &[usize]| (places[w[1]].0 - places[w[0]].0, places[w[1]].1 - places[w[0]].1);
    path.windows(2).map(step).collect()
}

/// Whether every vector rises along a direction.
pub fn rises(vectors: &[(i128, i128)], (d, e): (i128, i128)) -> bool {
    vectors.iter().all(|&(across, up)| d * across + e * up > 0)
}

/// Whether some direction makes all vectors rise. If one does, then one of these does: a vector itself, where all point
/// the same way; or one vector turned left plus another turned right, for the two outermost vectors.
pub fn has_direction(vectors: &[(i128, i128)]) -> bool {
    let turned = |a: &(i128, i128), b: &(i128, i128)| (b.1 - a.1, a.0 - b.0);
    vectors.is_empty()
        || vectors.iter().any(|&a| rises(vectors, a))
        || vectors.iter().any(|a| vectors.iter().any(|b| rises(vectors, turned(a, b))))
}

/// The n that a file states, or 0 where it is too short to state one.
pub fn stated_nodes(bytes: &[u8]) -> u32 {
    bytes.first_chunk().map_or(0, |four| u32::from_le_bytes(*four))
}

/// The reader: its reply; `parent` and `rank` are filled where the file's table is accepted.
pub fn read_tree(bytes: &[u8], parent: &mut Vec<u32>, rank: &mut Vec<u32>, work: usize) -> Reply {
    if bytes.len() < 4 {
        return refused((16, 0));
    }
    let numbers: Vec<u32> = bytes.chunks_exact(4).map(|b| u32::from_le_bytes(b.try_into().unwrap())).collect();
    let n = numbers[0] as usize;
    if n == 0 {
        return refused((1, 0));
    }
    if n > LARGE.lots {
        return refused((LARGE.surplus, 0));
    }
    if bytes.len() != 4 + 8 * n {
        return refused((17, 0));
    }
    if parent.len() != n || rank.len() != n || work != 4 * n {
        return refused((3, 0));
    }
    let (parents, ranks) = numbers[1..].split_at(n);
    if let Err(r) = accept_lists(parents, ranks) {
        return refused(r);
    }
    *parent = parents.to_vec();
    *rank = ranks.to_vec();
    [1, n as i64, 0]
}

/// The writer: its reply; `bytes` are filled where the table is accepted and they are as many as its file has.
pub fn write_tree(parent: &[u32], rank: &[u32], bytes: &mut Vec<u8>, work: usize) -> Reply {
    if let Err(r) = accept(LARGE, parent, rank, &[], work) {
        return refused(r);
    }
    let n = parent.len();
    if bytes.len() != 4 + 8 * n {
        return refused((17, 0));
    }
    let numbers = [&[n as u32][..], parent, rank].concat();
    *bytes = numbers.iter().flat_map(|w| w.to_le_bytes()).collect();
    [1, bytes.len() as i64, 0]
}

#[cfg(test)]
mod tests {
    use super::*;

    #[test]
    fn three_balanced_levels() {
        let up_over_across: Vec<_> = balanced_slopes(8).iter().map(|s| (s.1, s.0)).collect();
        assert_eq!(up_over_across, [(1, 3), (1, 2), (2, 3), (1, 1), (3, 2), (2, 1), (3, 1)]);
    }

    #[test]
    fn post_numbers_of_the_five_lots() {
        let tree = accept_lists(&[0, 0, 0, 1, 1], &[0, 0, 1, 0, 1]).unwrap();
        assert_eq!(tree.post_order(), [3, 4, 1, 2, 0]);
        assert_eq!(tree.post_numbers(), [5, 3, 4, 1, 2]);
    }

    #[test]
    fn first_and_last_of_the_five_lots() {
        let (mut first, mut last) = (vec![9; 5], vec![9; 5]);
        let reply = post_numbers(&[0, 0, 0, 1, 1], &[0, 0, 1, 0, 1], &mut first, &mut last, 20);
        assert_eq!((reply, &first[..], &last[..]), ([1, 5, 0], &[1, 1, 4, 1, 2][..], &[5, 3, 4, 1, 2][..]));
    }

    #[test]
    fn a_held_line_of_the_five_lots() {
        let (parent, rank) = ([0, 0, 0, 1, 1], [0, 0, 1, 0, 1]);
        let mut s = Sheet::made(|| vec![7; 5]);
        assert_eq!(layout(LARGE, false, &parent, &rank, &mut s, 20), [1, 3, 6]);
        assert_eq!(s.held, [0; 5]);
        assert_eq!(hold(false, &parent, &rank, &mut s, 20, 3, true), [1, 3, 6]);
        assert_eq!(lengthen(LARGE, false, &parent, &rank, &mut s, 20, 3, 0), [0, 22, 3]);
        assert_eq!(lengthen(LARGE, false, &parent, &rank, &mut s, 20, 1, 2), [1, 5, 12]);
        assert_eq!((s.times[3], s.x[3], s.y[3], &s.held[..]), (1, 4, 10, &[0, 0, 0, 1, 0][..]));
        assert_eq!(hold(false, &parent, &rank, &mut s, 20, 0, true), [0, 10, 0]);
        s.held[0] = 1;
        s.times[1] = 9;
        assert_eq!(hold(false, &parent, &rank, &mut s, 20, 3, false), [0, 8, 0]);
    }

    #[test]
    fn lists_of_lengthens_of_the_five_lots() {
        let (parent, rank) = ([0, 0, 0, 1, 1], [0, 0, 1, 0, 1]);
        let mut s = Sheet::made(|| vec![7; 5]);
        layout(LARGE, false, &parent, &rank, &mut s, 20);
        let mut each = |rank: &[u32], lots: &[u32], counts: &[u32]| {
            let reply = lengthen_each(false, &parent, rank, &mut s, 20, lots, counts);
            (reply, s.times.clone())
        };
        assert_eq!(each(&rank, &[], &[]), ([1, 3, 6, 0], vec![1; 5]));
        assert_eq!(each(&[1; 5], &[1], &[]), ([0, 19, 0, 0], vec![1; 5]));
        assert_eq!(each(&[1; 4], &[1], &[]), ([0, 3, 0, 0], vec![1; 5]));
        assert_eq!(each(&rank, &[1, 3], &[2, 1]), ([1, 6, 12, 0], vec![1, 3, 1, 2, 1]));
        assert_eq!(each(&rank, &[1, 0, 3], &[2, 1, 1]), ([0, 10, 0, 2], vec![1, 5, 1, 2, 1]));
    }

    #[test]
    fn columns_of_the_five_lots() {
        let (parent, rank) = ([0, 0, 0, 1, 1], [0, 0, 1, 0, 1]);
        let mut s = Sheet::made(|| vec![7; 5]);
        layout(LARGE, true, &parent, &rank, &mut s, 20);
        assert_eq!((&s.x[..], &s.y[..]), (&[0, 3, 1, 6, 5][..], &[0, 2, 1, 3, 3][..]));
        let asked = |limits, s: &Sheet, lot, at| column(limits, true, &parent, &rank, s, 20, lot, at);
        for (at, count) in [(3, 0), (6, 1), (9, 2), (2_147_483_643, 715_827_880)] {
            assert_eq!(asked(LARGE, &s, 1, at), [1, count, 0]);
        }
        // lot 3 is 3 farther out than lot 1
        for at in [0, 2, 4, 5, 2_147_483_644, 2_147_483_646, 2_147_483_648, u32::MAX] {
            assert_eq!(asked(LARGE, &s, 1, at), [2, 0, 0]);
        }
        assert_eq!((asked(LARGE, &s, 0, 0), asked(LARGE, &s, 5, 3)), ([0, 10, 0], [0, 9, 0]));
        // 1,048,575 is 3 times 349,525
        assert_eq!((asked(SMALL, &s, 1, 1_048_572), asked(SMALL, &s, 1, 1_048_575)), ([1, 349_523, 0], [2, 0, 0]));
        s.held[1] = 1;
        assert_eq!((asked(LARGE, &s, 1, 3), asked(LARGE, &s, 3, 9)), ([2, 0, 0], [1, 1, 0]));
        s.x[4] = 6;
        assert_eq!(asked(LARGE, &s, 5, 3), [0, 8, 4]);
    }

    #[test]
    fn tallest_of_five_lots() {
        let (mut parent, mut rank) = (vec![9; 5], vec![8; 5]);
        assert_eq!(tallest(0, &mut parent, &mut rank), [0, 1, 0]);
        assert_eq!(tallest(65_537, &mut parent, &mut rank), [0, 2, 0]);
        assert_eq!(tallest(65_536, &mut parent, &mut rank), [0, 3, 0]);
        assert_eq!(tallest(5, &mut parent, &mut vec![8; 4]), [0, 3, 0]);
        assert_eq!((&parent[..], &rank[..]), (&[9; 5][..], &[8; 5][..]));
        assert_eq!(tallest(5, &mut parent, &mut rank), [1, 5, 11]);
        assert_eq!((&parent[..], &rank[..]), (&[0, 0, 1, 2, 3][..], &[0; 5][..]));
        assert_eq!(tallest(1, &mut vec![9], &mut vec![8]), [1, 1, 1]);
    }

    #[test]
    fn windows() {
        let mut point = [7.0; 2];
        assert_eq!(window(5, 7, (4, 4), 2, &mut point), [1, 0, 0]);
        assert_eq!(point, [0.25, 0.75]);
        assert_eq!(window(u32::MAX, 9, (u32::MAX, 9), 31, &mut point), [1, 0, 0]);
        assert_eq!(point, [0.0, 0.0]);
        for (corner, m, right) in [((5, 8), 2, [2, 0, 0]), ((6, 4), 2, [2, 0, 0]), ((5, 7), 32, [0, 18, 0])] {
            point = [7.0; 2];
            assert_eq!((window(5, 7, corner, m, &mut point), point), (right, [7.0; 2]));
        }
        assert_eq!((fraction(6, 3), fraction(1, 31)), (0.75, 2f64.powi(-31)));
        assert_eq!(fraction((1 << 31) - 1, 31), 1.0 - 2f64.powi(-31));
    }

    #[test]
    fn two_lots_on_the_small_cabinet() {
        let pair = [0, 0];
        let mut s = Sheet::made(|| vec![7; 2]);
        assert_eq!(layout(SMALL, false, &pair, &pair, &mut s, 8), [1, 2, 2]);
        assert_eq!(lengthen(SMALL, false, &pair, &pair, &mut s, 8, 1, 1_048_575), [0, 21, 1]);
        assert_eq!(lengthen(SMALL, false, &pair, &pair, &mut s, 8, 1, 1_048_574), [1, 1_048_576, 1_048_576]);
        assert_eq!(lengthen(LARGE, false, &pair, &pair, &mut s, 8, 1, 1), [1, 1_048_577, 1_048_577]);
        assert_eq!(shorten(SMALL, false, &pair, &pair, &mut s, 8, 1, 1), [0, 8, 1]);
        assert_eq!(layout(SMALL, false, &[0; 1025], &pair, &mut s, 8), [0, 20, 0]);
    }

    #[test]
    fn opposite_vectors_have_no_direction() {
        assert!(!has_direction(&[(1, 0), (-1, 0)]));
        assert!(!has_direction(&[(1, 0), (-1, 1), (-1, -1)]));
        assert!(has_direction(&[(1, 0), (-5, 1), (2, 3)]));
        assert!(!has_direction(&[(0, 0)]));
    }
}
