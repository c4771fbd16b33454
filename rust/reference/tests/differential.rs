//! The proved library beside the plain Rust version: random calls of every kind, every reply and every list compared.
//!
//! LINEAGE_SEED sets the seed, which each test prints; LINEAGE_CALLS the number of calls of each kind (200,000).

use lineage::raw;
use reference::random::Random;
use reference::{spares_work, Limits, Reply, Sheet, LARGE, SMALL};

fn calls() -> usize {
    std::env::var("LINEAGE_CALLS").map_or(200_000, |s| s.parse().expect("LINEAGE_CALLS"))
}

/// A list with another length, now and then.
fn lend(random: &mut Random, list: &mut Vec<u32>) {
    if random.once_in(40) {
        random.cut(list);
    }
}

fn lend_sheet(random: &mut Random, s: &mut Sheet) {
    s.each().into_iter().for_each(|list| lend(random, list));
}

fn lists(s: &mut Sheet) -> raw::Lists<&mut [u32]> {
    raw::Lists { times: &mut s.times, x: &mut s.x, y: &mut s.y, held: &mut s.held }
}

/// The same for a call that only reads them.
fn read(s: &Sheet) -> raw::Lists<&[u32]> {
    raw::Lists { times: &s.times, x: &s.x, y: &s.y, held: &s.held }
}

/// A cabinet: its limits, and the calls that it has of its own.
struct Cabinet {
    limits: Limits,
    calls: &'static raw::Entries,
}

static LARGE_ONE: Cabinet = Cabinet { limits: LARGE, calls: &raw::LARGE };
static SMALL_ONE: Cabinet = Cabinet { limits: SMALL, calls: &raw::SMALL };

/// What every call is lent besides its lists, a work list and a reply of N numbers, and what they held before.
struct Lent<const N: usize> {
    work: Vec<u32>,
    work_before: Vec<u32>,
    reply: Vec<i64>,
    reply_before: Vec<i64>,
}

impl<const N: usize> Lent<N> {
    /// Both of the right lengths, but for a few calls.
    fn new(random: &mut Random, n: usize) -> Self {
        let length = if random.once_in(20) { random.below(5 * n + 2) } else { 4 * n };
        let seed = random.bits() as u32;
        let work: Vec<u32> = (0..length as u32).map(|i| i.wrapping_mul(2_654_435_761) ^ seed).collect();
        let length = if random.once_in(100) { random.below(6) } else { N };
        Lent::of(work, (0..length).map(|_| random.bits() as i64).collect())
    }

    fn of(work: Vec<u32>, reply: Vec<i64>) -> Self {
        Lent { work_before: work.clone(), work, reply_before: reply.clone(), reply }
    }

    /// What the plain version answers, where the reply is N long and so the call is made.
    fn right(&self, plain: impl FnOnce(usize) -> [i64; N]) -> [i64; N] {
        if self.reply.len() == N {
            plain(self.work.len())
        } else {
            [0; N]
        }
    }

    /// Compares the reply and the work list, or sees that nothing was done where the reply is not N long.
    fn compare(&self, said: &str, called: bool, right: [i64; N], spares: fn(i64) -> bool) {
        let same_work = self.work == self.work_before;
        if self.reply.len() != N {
            assert!(!called && self.reply == self.reply_before && same_work, "{said}: a reply of another length");
            return;
        }
        assert!(called, "{said}: refused a reply of {N}");
        assert_eq!(self.reply, right, "{said}");
        assert!(right[0] != 0 || !spares(right[1]) || same_work, "{said}: the work list changed");
    }
}

/// How often each answer was seen, printed with the test.
#[derive(Default)]
struct Tally(std::collections::BTreeMap<(i64, i64), usize>);

impl Tally {
    fn note<const N: usize>(&mut self, reply: [i64; N]) {
        let key = if reply[0] == 0 { (0, reply[1]) } else { (reply[0], 0) };
        *self.0.entry(key).or_default() += 1;
    }

    fn print(&self, test: &str) {
        let shown = |(&(case, number), count): (&(i64, i64), &usize)| match case {
            0 => format!("refused {number}: {count}"),
            _ => format!("answer {case}: {count}"),
        };
        println!("{test}: {}", self.0.iter().map(shown).collect::<Vec<_>>().join(", "));
    }

    fn has_all(&self, refusals: &[i64]) {
        for &number in refusals {
            assert!(self.0.contains_key(&(0, number)) || calls() < 10_000, "never refused with {number}");
        }
    }
}

/// Layouts of random tables on a cabinet.
fn layouts(test: &str, cabinet: &Cabinet) {
    let mut random = Random::from_environment(test);
    let mut tally = Tally::default();
    for i in 0..calls() {
        let (parent, mut rank) = random.any_table(200);
        let n = parent.len();
        let balanced = random.once_in(2);
        let mut mine = Sheet::made(|| random.list(n));
        lend_sheet(&mut random, &mut mine);
        lend(&mut random, &mut rank);
        let (mut theirs, mut lent) = (mine.clone(), Lent::new(&mut random, n));
        let (s, work, reply) = (lists(&mut theirs), &mut lent.work[..], &mut lent.reply[..]);
        let called = (cabinet.calls.layout)(balanced, &parent, &rank, s, work, reply);
        let right = lent.right(|work| reference::layout(cabinet.limits, balanced, &parent, &rank, &mut mine, work));
        let said = format!("call {i}: {test}({balanced}, {parent:?}, {rank:?})");
        lent.compare(&said, called, right, spares_work);
        assert_eq!(mine, theirs, "{said}");
        tally.note(right);
    }
    tally.print(test);
    tally.has_all(&[1, 3, 4, 5, 6, 7]);
}

#[test]
fn layout() {
    layouts("layout", &LARGE_ONE);
}

#[test]
fn small_layout() {
    layouts("small_layout", &SMALL_ONE);
}

/// A call on one lot of a sheet.
#[derive(Clone, Copy, Debug)]
enum Move {
    Lengthen(u32),
    Shorten(u32),
    Hold(bool),
}

/// A call on both, compared. Hold is the large cabinet's.
#[allow(clippy::too_many_arguments)]
fn moved(
    random: &mut Random,
    cabinet: &Cabinet,
    balanced: bool,
    parent: &[u32],
    rank: &[u32],
    s: &mut Sheet,
    lot: u32,
    by: Move,
) -> Reply {
    let (mut theirs, mut lent) = (s.clone(), Lent::new(random, parent.len()));
    let limits = cabinet.limits;
    let said = format!("{by:?} of {lot}, balanced {balanced}, {parent:?}, {rank:?}, {s:?}, {limits:?}");
    let (lists, work, reply) = (lists(&mut theirs), &mut lent.work[..], &mut lent.reply[..]);
    let called = match by {
        Move::Lengthen(count) => (cabinet.calls.lengthen)(balanced, parent, rank, lists, work, lot, count, reply),
        Move::Shorten(count) => (cabinet.calls.shorten)(balanced, parent, rank, lists, work, lot, count, reply),
        Move::Hold(hold) => raw::hold(balanced, parent, rank, lists, work, lot, hold, reply),
    };
    let right = lent.right(|work| match by {
        Move::Lengthen(count) => reference::lengthen(limits, balanced, parent, rank, s, work, lot, count),
        Move::Shorten(count) => reference::shorten(limits, balanced, parent, rank, s, work, lot, count),
        Move::Hold(hold) => reference::hold(balanced, parent, rank, s, work, lot, hold),
    });
    lent.compare(&said, called, right, spares_work);
    assert_eq!(*s, theirs, "{said}");
    right
}

fn lot_of(random: &mut Random, n: usize) -> u32 {
    if random.once_in(15) {
        random.number()
    } else {
        random.below(n) as u32
    }
}

fn slope_of(balanced: bool, parent: &[u32], rank: &[u32], lot: u32) -> (i128, i128) {
    if parent.is_empty() || rank.len() != parent.len() {
        return (1, 1);
    }
    let tree = reference::accept_lists(parent, rank).ok();
    tree.and_then(|t| t.slopes(balanced).get(lot as usize).copied()).unwrap_or((1, 1))
}

/// Calls on random sheets, of the kind that `kind` makes of a count and the lot's times. Each refuses with 1 to 10, but
/// for 2 or 20, which asks for more lots than these have.
fn moves(test: &str, cabinet: &Cabinet, last: &[i64], kind: fn(&mut Random, u32, u32) -> Move) {
    let mut random = Random::from_environment(test);
    let (mut tally, mut by_held, mut by_edge) = (Tally::default(), 0, 0);
    for _ in 0..calls() {
        let (parent, mut rank) = random.any_table(60);
        let balanced = random.once_in(2);
        let mut s = random.sheet(balanced, &parent, &rank);
        lend_sheet(&mut random, &mut s);
        lend(&mut random, &mut rank);
        let lot = lot_of(&mut random, parent.len());
        let slope = slope_of(balanced, &parent, &rank, lot);
        let count = random.count(cabinet.limits, &s, slope);
        let times = s.times.get(lot as usize).copied().unwrap_or(1);
        let by = kind(&mut random, count, times);
        let right = moved(&mut random, cabinet, balanced, &parent, &rank, &mut s, lot, by);
        tally.note(right);
        if right[..2] == [0, 8] {
            // 8 left the lists as they were, so they tell whether held alone is wrong, or the edge alone is passed
            let mut freed = Sheet { held: vec![0; s.held.len()], ..s.clone() };
            let sheet = |s: &mut Sheet, limits| {
                let right = reference::shorten(limits, balanced, &parent, &rank, s, 4 * parent.len(), lot, 0);
                right[..2] != [0, 8]
            };
            by_held += usize::from(sheet(&mut freed, cabinet.limits));
            by_edge += usize::from(sheet(&mut s, LARGE));
        }
    }
    tally.print(test);
    tally.has_all(&[&[1, 3, 4, 5, 6, 7, 8, 9, 10], last].concat());
    println!("{test}: of the refusals 8 there are {by_held} for held alone, and {by_edge} for the small edge alone");
    assert!(by_held > 0 || calls() < 10_000, "8 is never by held alone");
    let has_edge = cabinet.limits.place < LARGE.place;
    assert!(by_edge > 0 || !has_edge || calls() < 10_000, "8 is never by the small edge alone");
}

/// Often by about as much as there is.
fn any_shorten(random: &mut Random, count: u32, times: u32) -> Move {
    let about = times.wrapping_add(random.below(3) as u32).wrapping_sub(2);
    Move::Shorten(if random.once_in(2) { about } else { count })
}

#[test]
fn lengthen() {
    moves("lengthen", &LARGE_ONE, &[22, 11], |_, count, _| Move::Lengthen(count));
}

#[test]
fn small_lengthen() {
    moves("small_lengthen", &SMALL_ONE, &[22, 21], |_, count, _| Move::Lengthen(count));
}

#[test]
fn shorten() {
    moves("shorten", &LARGE_ONE, &[22, 12], any_shorten);
}

#[test]
fn small_shorten() {
    moves("small_shorten", &SMALL_ONE, &[22, 12], any_shorten);
}

#[test]
fn hold() {
    moves("hold", &LARGE_ONE, &[], |random, _, _| Move::Hold(random.once_in(2)));
}

/// The small cabinet replies and leaves what the large one does, or refuses with 21 where that one leaves a place beyond
/// the small edge or refuses with 11.
#[test]
fn small_as_large() {
    let mut random = Random::from_environment("small_as_large");
    let (mut same, mut beyond) = (Tally::default(), [0; 2]);
    for _ in 0..calls() {
        let (parent, mut rank) = random.any_table(60);
        let balanced = random.once_in(2);
        let s = random.sheet(balanced, &parent, &rank);
        lend(&mut random, &mut rank);
        let far = |s: &Sheet| s.x.iter().chain(&s.y).any(|&place| i128::from(place) > SMALL.place);
        if far(&s) {
            continue;
        }
        let lot = lot_of(&mut random, parent.len());
        let limits = random.one_of(&[LARGE, SMALL]);
        let count = random.count(limits, &s, slope_of(balanced, &parent, &rank, lot));
        let kind = random.below(4);
        let made = |cabinet: &Cabinet| {
            let (mut s, mut work, mut reply) = (s.clone(), vec![0; 4 * parent.len()], [0; 3]);
            let l = lists(&mut s);
            match kind {
                0 => (cabinet.calls.layout)(balanced, &parent, &rank, l, &mut work, &mut reply),
                1 => (cabinet.calls.shorten)(balanced, &parent, &rank, l, &mut work, lot, count, &mut reply),
                _ => (cabinet.calls.lengthen)(balanced, &parent, &rank, l, &mut work, lot, count, &mut reply),
            };
            (reply, s)
        };
        let (small, large) = (made(&SMALL_ONE), made(&LARGE_ONE));
        if small.0[..2] == [0, 21] {
            let refused = large.0[..2] == [0, 11];
            assert!(small.1 == s && (refused || far(&large.1)), "{small:?} {large:?}");
            beyond[usize::from(refused)] += 1;
        } else {
            assert_eq!(small, large);
            same.note(small.0);
        }
    }
    same.print("small_as_large");
    same.has_all(&[1, 3, 4, 5, 6, 7, 8, 9, 10, 22, 12]);
    println!(
        "small_as_large: 21 where the large cabinet accepts: {}, where it refuses with 11: {}",
        beyond[0], beyond[1]
    );
    assert!(beyond.iter().all(|&count| count > 0) || calls() < 10_000);
}

/// A column for a lot: its own, one that a count brings it to, often where its subtree has just room, one beside that,
/// one to its left, or any.
fn column_of(
    random: &mut Random,
    limits: Limits,
    balanced: bool,
    parent: &[u32],
    rank: &[u32],
    s: &Sheet,
    lot: u32,
) -> u32 {
    let v = lot as usize;
    if v >= parent.len() {
        return random.number();
    }
    let lots = reference::accept_lists(parent, rank).map_or(vec![v], |tree| tree.subtree(v));
    let of = |list: &[u32]| lots.iter().map(|&z| list[z]).collect::<Vec<u32>>();
    let below = Sheet { x: of(&s.x), y: of(&s.y), ..s.clone() };
    let slope = slope_of(balanced, parent, rank, lot);
    let x = i128::from(s.x[v]);
    let there = x + slope.0 * i128::from(random.count(limits, &below, slope));
    let near = random.below(5) as i128 - 2;
    let column = match random.below(8) {
        0 => x,
        1 => there + near,
        2 => limits.place + x - i128::from(*below.x.iter().max().unwrap()) + near,
        3 => random.below(s.x[v] as usize) as i128,
        4 => random.number().into(),
        _ => there,
    };
    column.clamp(0, u32::MAX.into()) as u32
}

/// A count, or why there is none: the line is held, or one of the other grounds, of which no two go together.
fn outcome(balanced: bool, parent: &[u32], rank: &[u32], s: &Sheet, lot: u32, column: u32) -> &'static str {
    let answer = |s: &Sheet| reference::column(LARGE, balanced, parent, rank, s, 4 * parent.len(), lot, column);
    let freed = Sheet { held: vec![0; parent.len()], ..s.clone() };
    let gap = i128::from(column) - i128::from(s.x[lot as usize]);
    match (answer(s), answer(&freed)) {
        ([1, 0, _], _) => "a count of 0",
        ([1, ..], _) => "a count",
        (_, [1, 0, _]) => "held where it stands",
        (_, [1, ..]) => "held",
        _ if s.held[lot as usize] == 1 => "held, and another",
        _ if gap < 0 => "left",
        _ if gap % slope_of(balanced, parent, rank, lot).0 != 0 => "no multiple",
        _ if i128::from(column) > LARGE.place => "the column beyond",
        _ => "another place beyond",
    }
}

/// Columns on random sheets, and where there is a count, lengthen brings the lot there.
#[test]
fn column() {
    let mut random = Random::from_environment("column");
    let (mut tally, mut outcomes) = (Tally::default(), std::collections::BTreeMap::new());
    for i in 0..calls() {
        let (parent, mut rank) = random.any_table(60);
        let balanced = random.once_in(2);
        let mut s = random.sheet(balanced, &parent, &rank);
        let lot = lot_of(&mut random, parent.len());
        let column = column_of(&mut random, LARGE, balanced, &parent, &rank, &s, lot);
        lend_sheet(&mut random, &mut s);
        lend(&mut random, &mut rank);
        let said = format!("call {i}: column({balanced}, {parent:?}, {rank:?}, {s:?}, {lot}, {column})");
        let (before, mut lent) = (s.clone(), Lent::new(&mut random, parent.len()));
        let called = raw::column(balanced, &parent, &rank, read(&s), &mut lent.work, lot, column, &mut lent.reply);
        let right = lent.right(|work| reference::column(LARGE, balanced, &parent, &rank, &before, work, lot, column));
        lent.compare(&said, called, right, spares_work);
        assert_eq!(s, before, "{said}");
        tally.note(right);
        if right[0] != 0 {
            *outcomes.entry(outcome(balanced, &parent, &rank, &s, lot, column)).or_insert(0) += 1;
        }
        if let [1, count, _] = right {
            let (l, work, reply) = (lists(&mut s), &mut lent.work[..], &mut lent.reply[..]);
            raw::lengthen(balanced, &parent, &rank, l, work, lot, count as u32, reply);
            assert_eq!((lent.reply[0], s.x[lot as usize]), (1, column), "{said}");
        }
    }
    tally.print("column");
    tally.has_all(&[1, 3, 4, 5, 6, 7, 8, 9, 10]);
    println!("column: {outcomes:?}");
    assert!(outcomes.len() == 9 || calls() < 10_000, "some outcome is never seen");
}

/// Columns on both cabinets, of sheets that the crate takes up: the small one has no call of its own for them.
#[test]
fn columns_of_sheets() {
    let mut random = Random::from_environment("columns_of_sheets");
    let (mut tally, mut beyond) = (Tally::default(), 0);
    for i in 0..calls() {
        let (parent, rank) = random.any_table(60);
        let balanced = random.once_in(2);
        let s = random.sheet(balanced, &parent, &rank);
        let lot = lot_of(&mut random, parent.len());
        let limits = random.one_of(&[LARGE, SMALL]);
        let column = column_of(&mut random, limits, balanced, &parent, &rank, &s, lot);
        let asked = |cabinet| {
            let (tree, rule) =
                (lineage::Tree::new(parent.clone(), rank.clone())?, lineage::Rule::ALL[balanced as usize]);
            let Sheet { times, x, y, held } = s.clone();
            lineage::Sheet::from_lists_in(tree, rule, cabinet, times, x, y, held)?.column(lot, column)
        };
        let compared = |cabinet, limits| {
            let reply = match asked(cabinet) {
                Ok(Some(count)) => [1, count.into(), 0],
                Ok(None) => [2, 0, 0],
                Err(refused) => [0, refused.number.into(), refused.lot.into()],
            };
            let right = reference::column(limits, balanced, &parent, &rank, &s, 4 * parent.len(), lot, column);
            assert_eq!(
                reply, right,
                "call {i}: {balanced}, {parent:?}, {rank:?}, {s:?}, {lot}, {column}, {limits:?}"
            );
            right
        };
        let large = compared(lineage::Cabinet::Large, LARGE);
        let small = compared(lineage::Cabinet::Small, SMALL);
        tally.note(small);
        beyond += usize::from((large[0], small[0]) == (1, 2));
    }
    tally.print("columns_of_sheets");
    tally.has_all(&[1, 4, 5, 6, 7, 8, 9, 10]);
    println!("columns_of_sheets: the large cabinet has a count and the small one none: {beyond}");
    assert!(beyond > 0 || calls() < 10_000, "no column is beyond the small edge alone");
}

/// A list of lots and one of counts, often longer than the table: most of the lots have lines, some stand there twice,
/// and now and then the two differ in length.
fn lengthens(random: &mut Random, balanced: bool, parent: &[u32], rank: &[u32], s: &Sheet) -> (Vec<u32>, Vec<u32>) {
    let n = parent.len();
    let (mut lots, mut counts) = (Vec::new(), Vec::new());
    for _ in 0..random.below(9) {
        let lot = if random.once_in(5) { lot_of(random, n) } else { 1 + random.below(n.max(2) - 1) as u32 };
        lots.push(lot);
        counts.push(random.count(LARGE, s, slope_of(balanced, parent, rank, lot)));
    }
    if random.once_in(20) {
        let list = if random.once_in(2) { &mut lots } else { &mut counts };
        random.cut(list);
    }
    (lots, counts)
}

#[test]
fn lengthen_each() {
    let mut random = Random::from_environment("lengthen_each");
    let (mut tally, mut places) = (Tally::default(), [0; 9]);
    for i in 0..calls() {
        let (parent, mut rank) = random.any_table(60);
        let balanced = random.once_in(2);
        let mut mine = random.sheet(balanced, &parent, &rank);
        let (lots, counts) = lengthens(&mut random, balanced, &parent, &rank, &mine);
        lend_sheet(&mut random, &mut mine);
        lend(&mut random, &mut rank);
        let said =
            format!("call {i}: lengthen_each({balanced}, {parent:?}, {rank:?}, {mine:?}, {lots:?}, {counts:?})");
        let (mut theirs, mut lent) = (mine.clone(), Lent::new(&mut random, parent.len()));
        let (s, work, reply) = (lists(&mut theirs), &mut lent.work[..], &mut lent.reply[..]);
        let called = raw::lengthen_each(balanced, &parent, &rank, s, work, &lots, &counts, reply);
        let right =
            lent.right(|work| reference::lengthen_each(balanced, &parent, &rank, &mut mine, work, &lots, &counts));
        lent.compare(&said, called, right, spares_work);
        assert_eq!(mine, theirs, "{said}");
        tally.note(right);
        places[right[3] as usize] += 1;
    }
    tally.print("lengthen_each");
    tally.has_all(&[1, 3, 19, 4, 5, 6, 7, 8, 9, 10, 22, 11]);
    println!("lengthen_each: refused at places 1 to 8: {:?}", &places[1..]);
    assert!(places.iter().all(|&count| count > 0) || calls() < 10_000, "never refused at some place");
}

/// Lists of calls on one sheet, from the fresh one, with the sums of document 01's "Lists of calls" kept beside.
#[test]
fn lists_of_calls() {
    let mut random = Random::from_environment("lists_of_calls");
    let mut tally = Tally::default();
    let mut made = 0;
    while made < calls() {
        let n = random.lots(30);
        let (parent, rank) = random.table(n);
        let balanced = random.once_in(2);
        let cabinet = random.one_of(&[&LARGE_ONE, &SMALL_ONE]);
        let mut s = Sheet::made(|| vec![0; n]);
        reference::layout(cabinet.limits, balanced, &parent, &rank, &mut s, 4 * n);
        let tree = reference::accept_lists(&parent, &rank).unwrap();
        let slopes = tree.slopes(balanced);
        let (mut added, mut held) = (vec![1i128; n], vec![0; n]);
        for _ in 0..random.below(40) {
            let lot = lot_of(&mut random, n);
            let slope = slopes.get(lot as usize).copied().unwrap_or((1, 1));
            let count = random.count(cabinet.limits, &s, slope);
            let by = match random.below(7) {
                0..=2 => Move::Lengthen(count),
                3..=4 => Move::Shorten(count),
                kind => Move::Hold(kind == 5),
            };
            let right = moved(&mut random, cabinet, balanced, &parent, &rank, &mut s, lot, by);
            if right[0] == 1 {
                match by {
                    Move::Lengthen(count) => added[lot as usize] += i128::from(count),
                    Move::Shorten(count) => added[lot as usize] -= i128::from(count),
                    Move::Hold(hold) => held[lot as usize] = hold.into(),
                }
            }
            tally.note(right);
            made += 1;
        }
        assert_eq!(s.held, held);
        assert!(s.x.iter().chain(&s.y).all(|&place| i128::from(place) <= cabinet.limits.place));
        for v in 0..n {
            let way = tree.way_up(v);
            let sum =
                |part: fn(&(i128, i128)) -> i128| way.iter().map(|&z| part(&slopes[z]) * added[z]).sum::<i128>();
            assert_eq!((s.x[v] as i128, s.y[v] as i128), (sum(|s| s.0), sum(|s| s.1)));
        }
    }
    tally.print("lists_of_calls");
    tally.has_all(&[9, 10, 22, 11, 21, 12]);
}

#[test]
fn direction() {
    let mut random = Random::from_environment("direction");
    let (mut tally, mut to_itself) = (Tally::default(), 0);
    for i in 0..calls() {
        let (parent, mut rank) = random.any_table(100);
        lend(&mut random, &mut rank);
        let n = parent.len();
        let balanced = random.once_in(2);
        let (from, to) = (lot_of(&mut random, n), lot_of(&mut random, n));
        let mut lent = Lent::new(&mut random, n);
        let called = raw::direction(balanced, &parent, &rank, &mut lent.work, from, to, &mut lent.reply);
        let right = lent.right(|work| reference::direction(balanced, &parent, &rank, work, from, to));
        let said = format!("call {i}: direction({balanced}, {parent:?}, {rank:?}, {from}, {to})");
        lent.compare(&said, called, right, spares_work);
        tally.note(right);
        to_itself += usize::from(from == to && right[0] == 1);
    }
    tally.print("direction");
    tally.has_all(&[1, 3, 4, 5, 6, 7, 9]);
    println!("of the answers {to_itself} go from a lot to itself");
    assert!(to_itself > 0 || calls() < 10_000, "never from a lot to itself");
}

#[test]
fn post_numbers() {
    let mut random = Random::from_environment("post_numbers");
    let mut tally = Tally::default();
    for i in 0..calls() {
        let (parent, mut rank) = random.any_table(100);
        let n = parent.len();
        let (mut mine_f, mut mine_l) = (random.list(n), random.list(n));
        for list in [&mut rank, &mut mine_f, &mut mine_l] {
            lend(&mut random, list);
        }
        let (mut f, mut l, mut lent) = (mine_f.clone(), mine_l.clone(), Lent::new(&mut random, n));
        let called = raw::post_numbers(&parent, &rank, &mut f, &mut l, &mut lent.work, &mut lent.reply);
        let right = lent.right(|work| reference::post_numbers(&parent, &rank, &mut mine_f, &mut mine_l, work));
        let said = format!("call {i}: post_numbers({parent:?}, {rank:?})");
        lent.compare(&said, called, right, spares_work);
        assert_eq!((mine_f, mine_l), (f, l), "{said}");
        tally.note(right);
    }
    tally.print("post_numbers");
    tally.has_all(&[1, 3, 4, 5, 6, 7]);
}

/// A lot is in another's subtree exactly when its number lies between the other's two.
#[test]
fn subtrees() {
    let mut random = Random::from_environment("subtrees");
    for _ in 0..calls() / 100 {
        let lots = random.lots(60);
        let (parent, rank) = random.table(lots);
        let mine = reference::accept_lists(&parent, &rank).unwrap();
        let theirs = lineage::Tree::new(parent, rank).unwrap();
        let (numbers, n) = (theirs.post_numbers(), lots as u32);
        for z in 0..n {
            let above = mine.way_up(z as usize);
            for v in 0..n {
                assert_eq!(numbers.under(v, z), above.contains(&(v as usize)), "{z} under {v} in {theirs:?}");
            }
            assert!(!numbers.under(n, z) && !numbers.under(z, n), "there is no lot {n} in {theirs:?}");
        }
    }
}

#[test]
fn check() {
    let mut random = Random::from_environment("check");
    let mut tally = Tally::default();
    for i in 0..calls() {
        let (parent, mut rank) = random.any_table(24);
        let n = parent.len();
        let (mut x, mut y) = (random.coordinate(n), random.coordinate(n));
        if random.once_in(3) && rank.len() == n {
            let balanced = random.once_in(2);
            let sheet = random.sheet(balanced, &parent, &rank);
            (x, y) = (sheet.x, sheet.y);
        }
        lend(&mut random, &mut rank);
        lend(&mut random, &mut x);
        lend(&mut random, &mut y);
        let mut lent = Lent::new(&mut random, n);
        let called = raw::check(&parent, &rank, &x, &y, &mut lent.work, &mut lent.reply);
        let right = lent.right(|work| reference::check(&parent, &rank, &x, &y, work));
        let said = format!("call {i}: check({parent:?}, {rank:?}, {x:?}, {y:?})");
        lent.compare(&said, called, right, spares_work);
        tally.note(right);
    }
    tally.print("check");
    tally.has_all(&[1, 3, 4, 5, 6, 7, 15]);
}

/// Trees of any number of lots, mostly of as many as the lists are long; no work list is lent.
#[test]
fn tallest() {
    let mut random = Random::from_environment("tallest");
    let mut tally = Tally::default();
    for i in 0..calls() {
        let lots = if random.once_in(20) { 0 } else { random.lots(200) };
        let n = if random.once_in(8) { random.number() } else { lots as u32 };
        let (mut mine_p, mut mine_r) = (random.list(lots), random.list(lots));
        lend(&mut random, &mut mine_p);
        lend(&mut random, &mut mine_r);
        let said = format!("call {i}: tallest({n}, {mine_p:?}, {mine_r:?})");
        let (mut p, mut r, mut lent) = (mine_p.clone(), mine_r.clone(), Lent::new(&mut random, 0));
        let called = raw::tallest(n, &mut p, &mut r, &mut lent.reply);
        let right = lent.right(|_| reference::tallest(n, &mut mine_p, &mut mine_r));
        lent.compare(&said, called, right, spares_work);
        assert_eq!((mine_p, mine_r), (p, r), "{said}");
        tally.note(right);
    }
    tally.print("tallest");
    tally.has_all(&[1, 2, 3]);
}

/// A coordinate, mostly near an edge of a window of side 2^m that begins at the corner, or within it.
fn coordinate(random: &mut Random, corner: u32, m: u32) -> u32 {
    let side = 1u64 << m.min(33);
    let near = match random.below(4) {
        0 => u64::from(corner),
        1 => u64::from(corner) + side,
        2 => u64::from(corner) + random.bits() % side,
        _ => u64::from(random.number()),
    };
    (near + random.bits() % 5).wrapping_sub(2) as u32
}

/// The whole number that a position times 2^m is, by the bits of the float; `None` where it is none.
fn times_side(position: f64, m: u32) -> Option<u32> {
    let (bits, one) = (position.to_bits(), 1 << 52);
    if bits == 0 {
        return Some(0);
    }
    // (2^52 + fraction) / 2^(1075 - exponent); a sign would make the exponent too large
    let significand: u64 = one | (bits % one);
    let down = 1075u64.checked_sub((bits >> 52) + u64::from(m))?;
    (down <= u64::from(significand.trailing_zeros())).then(|| (significand >> down) as u32)
}

/// Windows at the edges and in the middle of the numbers there are. Where a place is shown, its position times the side
/// is the whole number, by the bits of the float.
#[test]
fn window() {
    let mut random = Random::from_environment("window");
    let mut tally = Tally::default();
    for i in 0..calls() {
        let m = if random.once_in(10) { random.number() } else { random.below(34) as u32 };
        let corner = (random.number(), random.number());
        let (x, y) = (coordinate(&mut random, corner.0, m), coordinate(&mut random, corner.1, m));
        let said = format!("call {i}: window({x}, {y}, {corner:?}, {m})");
        let length = if random.once_in(100) { random.below(4) } else { 2 };
        let before: Vec<f64> = (0..length).map(|_| random.below(1000) as f64).collect();
        let (mut point, mut lent) = (before.clone(), Lent::new(&mut random, 0));
        let called = raw::window(x, y, corner.0, corner.1, m, &mut point, &mut lent.reply);
        let Ok(mut right_point) = <[f64; 2]>::try_from(&before[..]) else {
            assert!(!called && point == before && lent.reply == lent.reply_before, "{said}: a point of {length}");
            continue;
        };
        let right = lent.right(|_| reference::window(x, y, corner, m, &mut right_point));
        lent.compare(&said, called, right, spares_work);
        assert_eq!(point, right_point, "{said}");
        if right[0] == 1 {
            let whole = [Some(x - corner.0), Some(y - corner.1)];
            assert_eq!([times_side(point[0], m), times_side(point[1], m)], whole, "{said}");
        }
        tally.note(right);
    }
    tally.print("window");
    tally.has_all(&[18]);
}

/// The file of a table, with another number of lots, other bytes or another length now and then.
fn any_file(random: &mut Random, parent: &[u32], rank: &[u32]) -> Vec<u8> {
    let stated = if random.once_in(20) { random.number() } else { parent.len() as u32 };
    let numbers = [&[stated][..], parent, rank].concat();
    let mut bytes: Vec<u8> = numbers.iter().flat_map(|w| w.to_le_bytes()).collect();
    match random.below(20) {
        0 => bytes.push(random.bits() as u8),
        1 => bytes.truncate(random.below(bytes.len())),
        2 => bytes.truncate(random.below(5)),
        3 => {
            let at = random.below(bytes.len());
            bytes[at] = random.bits() as u8;
        }
        _ => {}
    }
    bytes
}

#[test]
fn read_tree() {
    let mut random = Random::from_environment("read_tree");
    let mut tally = Tally::default();
    for i in 0..calls() {
        let (parent, rank) = random.any_table(100);
        let n = parent.len();
        let bytes = any_file(&mut random, &parent, &rank);
        assert_eq!(raw::stated_nodes(&bytes), reference::stated_nodes(&bytes), "call {i}: stated_nodes({bytes:?})");
        let (mut mine_p, mut mine_r) = (random.list(n), random.list(n));
        lend(&mut random, &mut mine_p);
        lend(&mut random, &mut mine_r);
        let (mut p, mut r, mut lent) = (mine_p.clone(), mine_r.clone(), Lent::new(&mut random, n));
        let called = raw::read_tree(&bytes, &mut p, &mut r, &mut lent.work, &mut lent.reply);
        let right = lent.right(|work| reference::read_tree(&bytes, &mut mine_p, &mut mine_r, work));
        let said = format!("call {i}: read_tree({bytes:?})");
        lent.compare(&said, called, right, spares_work);
        assert_eq!((mine_p, mine_r), (p, r), "{said}");
        tally.note(right);
    }
    tally.print("read_tree");
    tally.has_all(&[1, 2, 3, 4, 5, 6, 7, 16, 17]);
}

#[test]
fn write_tree() {
    let mut random = Random::from_environment("write_tree");
    let mut tally = Tally::default();
    for i in 0..calls() {
        let (parent, mut rank) = random.any_table(100);
        lend(&mut random, &mut rank);
        let n = parent.len();
        let length = if random.once_in(20) { random.below(8 * n + 20) } else { 4 + 8 * n };
        let mut mine: Vec<u8> = (0..length).map(|_| random.bits() as u8).collect();
        let (mut theirs, mut lent) = (mine.clone(), Lent::new(&mut random, n));
        let called = raw::write_tree(&parent, &rank, &mut theirs, &mut lent.work, &mut lent.reply);
        let right = lent.right(|work| reference::write_tree(&parent, &rank, &mut mine, work));
        let said = format!("call {i}: write_tree({parent:?}, {rank:?})");
        lent.compare(&said, called, right, |number| number <= 3);
        assert_eq!(mine, theirs, "{said}");
        tally.note(right);
    }
    tally.print("write_tree");
    tally.has_all(&[1, 3, 4, 5, 6, 7, 17]);
}

/// A chain, a star or a binary tree of n lots.
fn shaped(shape: &str, n: usize) -> (Vec<u32>, Vec<u32>) {
    let lot = |v: usize| match shape {
        "chain" => (v, 0),
        "star" => (0, v),
        _ => (v / 2, v % 2),
    };
    let other = (0..n - 1).map(|v| (lot(v).0 as u32, lot(v).1 as u32));
    std::iter::once((0, 0)).chain(other).unzip()
}

/// Layout of n lots under both rules, the last but one lengthened and shortened again, the last lot's line held, the
/// columns of both, a list of lengthens that stops there, and the direction between two lots that are far apart.
fn limits_of_lots(cabinet: &Cabinet, shape: &str, n: usize) {
    let (parent, rank) = shaped(shape, n);
    let limits = cabinet.limits;
    for balanced in [false, true] {
        let mut mine = Sheet::made(|| vec![9; n]);
        let mut theirs = mine.clone();
        let (mut w, mut reply) = (vec![3; 4 * n], [0; 3]);
        (cabinet.calls.layout)(balanced, &parent, &rank, lists(&mut theirs), &mut w, &mut reply);
        let right = reference::layout(limits, balanced, &parent, &rank, &mut mine, 4 * n);
        assert_eq!(reply, right, "{shape} {n} {balanced}");
        assert!(mine == theirs, "{shape} {n} {balanced}");
        let accepted = n <= limits.lots;
        assert_eq!(right[..2] == [0, limits.surplus.into()], !accepted);
        let last = n as u32 - 1;
        (cabinet.calls.lengthen)(balanced, &parent, &rank, lists(&mut theirs), &mut w, last - 1, 2, &mut reply);
        let right = reference::lengthen(limits, balanced, &parent, &rank, &mut mine, 4 * n, last - 1, 2);
        assert_eq!((reply, right[0]), (right, accepted.into()), "{shape} {n} {balanced}");
        assert!(mine == theirs, "{shape} {n} {balanced}");
        let column = mine.x[n - 2];
        (cabinet.calls.shorten)(balanced, &parent, &rank, lists(&mut theirs), &mut w, last - 1, 2, &mut reply);
        let right = reference::shorten(limits, balanced, &parent, &rank, &mut mine, 4 * n, last - 1, 2);
        assert_eq!((reply, right[0]), (right, accepted.into()), "{shape} {n} {balanced}");
        assert!(mine == theirs, "{shape} {n} {balanced}");
        raw::hold(balanced, &parent, &rank, lists(&mut theirs), &mut w, last, true, &mut reply);
        let right = reference::hold(balanced, &parent, &rank, &mut mine, 4 * n, last, true);
        assert_eq!(reply, right, "{shape} {n} {balanced}");
        assert!(mine == theirs, "{shape} {n} {balanced}");
        for (lot, column, answer) in [(last - 1, column, [1, 2, 0]), (last, mine.x[n - 1], [2, 0, 0])] {
            raw::column(balanced, &parent, &rank, read(&theirs), &mut w, lot, column, &mut reply);
            let right = reference::column(LARGE, balanced, &parent, &rank, &mine, 4 * n, lot, column);
            assert_eq!((reply, right == answer), (right, accepted), "{shape} {n} {balanced}");
        }
        let (lots, mut each) = ([last - 1, last, 1], [0; 4]);
        raw::lengthen_each(balanced, &parent, &rank, lists(&mut theirs), &mut w, &lots, &[1; 3], &mut each);
        let right = reference::lengthen_each(balanced, &parent, &rank, &mut mine, 4 * n, &lots, &[1; 3]);
        assert_eq!(each, right, "{shape} {n} {balanced}");
        assert!(mine == theirs, "{shape} {n} {balanced}");
        assert_eq!(right[3], if accepted { 2 } else { 0 });
        let far = (n / 2) as u32;
        raw::direction(balanced, &parent, &rank, &mut w, 1, far, &mut reply);
        if shape != "chain" {
            let right = reference::direction(balanced, &parent, &rank, 4 * n, 1, far);
            assert_eq!(reply, right, "{shape} {n} {balanced}");
        }
    }
}

/// The post numbers of n lots. The plain version goes through every subtree, so a large chain takes it too long.
fn limits_of_numbers(shape: &str, n: usize) {
    let (parent, rank) = shaped(shape, n);
    let (mut mine_f, mut mine_l) = (vec![8; n], vec![9; n]);
    let (mut f, mut l, mut lent) = (mine_f.clone(), mine_l.clone(), Lent::of(vec![3; 4 * n], vec![0; 3]));
    let called = raw::post_numbers(&parent, &rank, &mut f, &mut l, &mut lent.work, &mut lent.reply);
    let right = reference::post_numbers(&parent, &rank, &mut mine_f, &mut mine_l, 4 * n);
    lent.compare(&format!("{shape} {n}"), called, right, spares_work);
    assert!((mine_f, mine_l) == (f, l), "{shape} {n}");
    assert_eq!(right[0], (n <= 65_536) as i64);
}

/// The tallest tree of n lots, in lists of that length.
fn limits_of_tallest(n: usize) {
    let (mut mine_p, mut mine_r) = (vec![8; n], vec![9; n]);
    let (mut p, mut r, mut reply) = (mine_p.clone(), mine_r.clone(), [0; 3]);
    raw::tallest(n as u32, &mut p, &mut r, &mut reply);
    let right = reference::tallest(n as u32, &mut mine_p, &mut mine_r);
    assert_eq!((reply, right[0]), (right, (n <= 65_536) as i64), "{n}");
    assert!((mine_p, mine_r) == (p, r), "{n}");
}

/// 65,536 and 65,537 lots, of each shape, and 1,024 and 1,025 on the small cabinet. The plain version walks by
/// recursion, so it has a stack of its own.
#[test]
fn lots_at_the_limits() {
    let large = std::thread::Builder::new().stack_size(1 << 30).spawn(|| {
        for (shape, n) in [("chain", 65_536), ("star", 65_536), ("binary", 65_536), ("chain", 65_537)] {
            limits_of_lots(&LARGE_ONE, shape, n);
        }
        for shape in ["chain", "star", "binary"] {
            for n in [1024, 1025] {
                limits_of_lots(&SMALL_ONE, shape, n);
            }
        }
        limits_of_lots(&SMALL_ONE, "star", 65_537);
        for (shape, n) in [("star", 65_536), ("binary", 65_536), ("chain", 65_537)] {
            limits_of_numbers(shape, n);
        }
        limits_of_tallest(65_536);
        limits_of_tallest(65_537);
    });
    large.unwrap().join().unwrap();
}

/// 4,096 and 4,097 lots.
#[test]
fn check_at_the_limits() {
    for (n, right) in [(4096, [1, 0, 0]), (4097, [0, 14, 0])] {
        let (parent, rank) = shaped("star", n);
        let (x, y): (Vec<u32>, Vec<u32>) = (0..n as u32).map(|v| (v, v * v)).unzip();
        let (mut w, mut reply) = (vec![5; 4 * n], [0; 3]);
        raw::check(&parent, &rank, &x, &y, &mut w, &mut reply);
        assert_eq!(reply, right);
        assert_eq!(w == vec![5; 4 * n], n == 4097);
    }
}
