//! Times each call of the proved library beside the plain C version, and under both rules, in turn, and prints medians
//! and ratios.
//!
//!     cargo run --release -p bench [-- ROUNDS]

use lineage::raw;

/// The thread's own time in microseconds, which other programs on the machine do not count in.
fn now() -> f64 {
    #[repr(C)]
    struct Time {
        seconds: i64,
        nanoseconds: i64,
    }
    extern "C" {
        fn clock_gettime(clock: i32, time: *mut Time) -> i32;
    }
    const CLOCK_THREAD_CPUTIME_ID: i32 = 3;
    let mut time = Time { seconds: 0, nanoseconds: 0 };
    // SAFETY: the struct is the C library's on 64-bit Linux.
    assert_eq!(unsafe { clock_gettime(CLOCK_THREAD_CPUTIME_ID, &mut time) }, 0);
    time.seconds as f64 * 1e6 + time.nanoseconds as f64 / 1e3
}

/// The plain C version's calls, which have the types of the proved ones.
mod plain_c {
    lineage::calls!(
        [
            layout = plain_layout(mut, mut),
            lengthen = plain_lengthen(mut, const, lot: u32, count: u32),
            shorten = plain_shorten(mut, const, lot: u32, count: u32),
            lengthen_each = plain_lengthen_each(mut, const; lots, counts),
            hold = plain_hold(const, mut, lot: u32, hold: bool)
        ],
        plain_column,
        plain_direction,
        plain_post_numbers,
        plain_check,
        plain_tallest,
        plain_window,
        plain_read_tree,
        plain_write_tree
    );
}

/// A call on lists, under the balanced rule or the steep one.
type Call = fn(&mut Lists, bool);

/// One library's calls, on the lists of `Lists`. Post numbers, the tallest tree, windows and tree files have no rule.
macro_rules! on_lists {
    ($module:ident, $calls:path) => {
        mod $module {
            use super::Lists;
            use $calls as calls;

            pub fn layout(l: &mut Lists, b: bool) {
                let s = l.sheets[usize::from(b)].lent();
                assert!(calls::layout(b, &l.parent, &l.rank, s, &mut l.work, &mut l.reply));
            }

            pub fn lengthen(l: &mut Lists, b: bool) {
                let s = l.sheets[usize::from(b)].lent();
                assert!(calls::lengthen(b, &l.parent, &l.rank, s, &mut l.work, l.lot, 1, &mut l.reply));
            }

            pub fn shorten(l: &mut Lists, b: bool) {
                let s = l.sheets[usize::from(b)].lent();
                assert!(calls::shorten(b, &l.parent, &l.rank, s, &mut l.work, l.lot, 1, &mut l.reply));
            }

            /// Lengthens each of the leaves, in one call.
            pub fn lengthen_each(l: &mut Lists, b: bool) {
                let (s, by, mut reply) = (l.sheets[usize::from(b)].lent(), [1; super::LEAVES], [0; 4]);
                assert!(calls::lengthen_each(b, &l.parent, &l.rank, s, &mut l.work, &l.leaves, &by, &mut reply));
                assert_eq!(reply[3], 0, "refused: {reply:?}");
                l.reply.copy_from_slice(&reply[..3]);
            }

            /// Lengthens each of them by a call of its own.
            pub fn lengthen_singly(l: &mut Lists, b: bool) {
                for &leaf in &l.leaves {
                    let s = l.sheets[usize::from(b)].lent();
                    assert!(calls::lengthen(b, &l.parent, &l.rank, s, &mut l.work, leaf, 1, &mut l.reply));
                }
            }

            /// Lengthens one of them.
            pub fn lengthen_leaf(l: &mut Lists, b: bool) {
                let s = l.sheets[usize::from(b)].lent();
                assert!(calls::lengthen(b, &l.parent, &l.rank, s, &mut l.work, l.leaves[0], 1, &mut l.reply));
            }

            /// To the column that the lot comes to by as much again as its edge goes across.
            pub fn column(l: &mut Lists, b: bool) {
                let s = l.sheets[usize::from(b)].read();
                let column = 2 * s.x[l.lot as usize] - s.x[l.parent[l.lot as usize] as usize];
                assert!(calls::column(b, &l.parent, &l.rank, s, &mut l.work, l.lot, column, &mut l.reply));
            }

            pub fn hold(l: &mut Lists, b: bool) {
                let s = l.sheets[usize::from(b)].lent();
                assert!(calls::hold(b, &l.parent, &l.rank, s, &mut l.work, l.lot, true, &mut l.reply));
            }

            pub fn direction(l: &mut Lists, b: bool) {
                let n = l.lots() as u32;
                assert!(calls::direction(b, &l.parent, &l.rank, &mut l.work, n - 1, n / 2, &mut l.reply));
            }

            /// Any two lists of n numbers do for the first and the last, and a sheet's are put back after the call.
            pub fn post_numbers(l: &mut Lists, b: bool) {
                let s = l.sheets[usize::from(b)].lent();
                assert!(calls::post_numbers(&l.parent, &l.rank, s.x, s.y, &mut l.work, &mut l.reply));
            }

            pub fn check(l: &mut Lists, b: bool) {
                let s = &l.sheets[usize::from(b)];
                assert!(calls::check(&l.parent, &l.rank, &s.x, &s.y, &mut l.work, &mut l.reply));
            }

            /// Any two lists of n numbers do for the tree, as for the post numbers.
            pub fn tallest(l: &mut Lists, b: bool) {
                let (n, s) = (l.lots() as u32, l.sheets[usize::from(b)].lent());
                assert!(calls::tallest(n, s.x, s.y, &mut l.reply));
            }

            /// Each lot in a window with its corner half way to the lot that is stretched, and a side of about that lot's
            /// y. The reply tells how many are shown, and has the bits of all positions in it.
            pub fn window(l: &mut Lists, b: bool) {
                let (s, lot) = (&l.sheets[usize::from(b)], l.lot as usize);
                let (corner, m) = ((s.x[lot] / 2, s.y[lot] / 2), s.y[lot].ilog2());
                let (mut shown, mut bits, mut point) = (0, 0u64, [0.0f64; 2]);
                for (&x, &y) in s.x.iter().zip(&s.y) {
                    assert!(calls::window(x, y, corner.0, corner.1, m, &mut point, &mut l.reply));
                    if l.reply[0] == 1 {
                        shown += 1;
                        bits = point.iter().fold(bits, |all, part| all.rotate_left(1) ^ part.to_bits());
                    }
                }
                l.reply = [1, shown, bits as i64];
            }

            pub fn read_tree(l: &mut Lists, _: bool) {
                assert!(calls::read_tree(&l.bytes, &mut l.parent, &mut l.rank, &mut l.work, &mut l.reply));
            }

            pub fn write_tree(l: &mut Lists, _: bool) {
                assert!(calls::write_tree(&l.parent, &l.rank, &mut l.bytes, &mut l.work, &mut l.reply));
            }
        }
    };
}

on_lists!(proved, lineage::raw);
on_lists!(plain, super::plain_c);

/// The lists that the calls work on: a table with a sheet under each rule, steep first, the lot that is stretched,
/// aligned and held, and the leaves that are lengthened in one call.
#[derive(Clone, PartialEq)]
struct Lists {
    parent: Vec<u32>,
    rank: Vec<u32>,
    sheets: [raw::Lists; 2],
    work: Vec<u32>,
    bytes: Vec<u8>,
    reply: [i64; 3],
    lot: u32,
    leaves: Vec<u32>,
}

impl Lists {
    fn lots(&self) -> usize {
        self.parent.len()
    }

    /// Brings the lists into the processor's caches, so that no call is the first to read them.
    fn read(&self) {
        for list in [&self.parent, &self.rank].into_iter().chain(self.sheets.iter().flat_map(raw::Lists::each)) {
            std::hint::black_box(list.iter().fold(0, |a, b| a ^ b));
        }
    }
}

/// Puts back what a sheet held, where it lies.
fn restore(sheet: &mut raw::Lists, kept: &raw::Lists) {
    for (list, kept) in sheet.each_mut().into_iter().zip(kept.each()) {
        list.copy_from_slice(kept);
    }
}

/// What the trees look like. "shuffled" is a random tree whose lots are numbered at random, so that parents come after
/// children too.
const SHAPES: [&str; 5] = ["chain", "star", "random", "shuffled", "binary"];

/// The same numbers in every run, for each seed.
struct Numbers(u64);

impl Numbers {
    fn below(&mut self, bound: usize) -> usize {
        self.0 = self.0.wrapping_mul(6364136223846793005).wrapping_add(1442695040888963407);
        (self.0 >> 33) as usize % bound
    }
}

/// The lots 0 to n - 1 in another order, lot 0 first.
fn shuffled(n: usize, numbers: &mut Numbers) -> Vec<usize> {
    let mut order: Vec<usize> = (0..n).collect();
    for v in (2..n).rev() {
        order.swap(v, 1 + numbers.below(v));
    }
    order
}

fn lists(shape: &str, n: usize, seed: u64) -> Lists {
    let mut numbers = Numbers(seed);
    let name = if shape == "shuffled" { shuffled(n, &mut numbers) } else { (0..n).collect() };
    let (mut parent, mut rank, mut count) = (vec![0u32; n], vec![0u32; n], vec![0u32; n]);
    for v in 1..n {
        let p = match shape {
            "chain" => v - 1,
            "star" => 0,
            "binary" => (v - 1) / 2,
            _ => numbers.below(v),
        };
        parent[name[v]] = name[p] as u32;
        rank[name[v]] = count[p];
        count[p] += 1;
    }
    let sheets = [raw::Lists::of(n), raw::Lists::of(n)];
    let ends: Vec<u32> = (0..n).filter(|&v| count[v] == 0).map(|v| name[v] as u32).collect();
    let leaves = (0..LEAVES).map(|i| ends[i * ends.len() / LEAVES]).collect();
    Lists { parent, rank, sheets, work: vec![0; 4 * n], bytes: vec![0; 4 + 8 * n], reply: [0; 3], lot: 1, leaves }
}

/// Trees of one shape, laid out under both rules. Random ones differ, so that a processor which learns a small tree's
/// branches by heart does not make one version of a call look faster.
fn trees(shape: &str, n: usize, count: u64) -> Vec<Lists> {
    let mut trees: Vec<Lists> = (1..=count).map(|seed| lists(shape, n, seed)).collect();
    for l in &mut trees {
        BOTH.iter().for_each(|&b| plain::layout(l, b));
        choose_lot(l);
    }
    trees
}

fn median(mut numbers: Vec<f64>) -> f64 {
    numbers.sort_by(f64::total_cmp);
    numbers[numbers.len() / 2]
}

/// The microseconds that a call took, round by round.
#[derive(Clone, Default)]
struct Took(Vec<f64>);

impl Took {
    fn median(&self) -> f64 {
        median(self.0.clone())
    }

    fn least(&self) -> f64 {
        self.0.iter().copied().fold(f64::INFINITY, f64::min)
    }

    /// How many times as long as the other: the median of the rounds' ratios, which a machine that slows down for some
    /// rounds does not change, and the ratio of the fastest.
    fn over(&self, other: &Took) -> (f64, f64) {
        let ratios = self.0.iter().zip(&other.0).map(|(a, b)| a / b).collect();
        (median(ratios), self.least() / other.least())
    }
}

/// Sees that a call by both libraries gives the same reply and leaves the same in every list but the work list.
fn compare(l: &Lists, b: bool, calls: [Call; 2]) {
    let [proved, plain] = calls.map(|call| {
        let mut after = l.clone();
        call(&mut after, b);
        after.work.clear();
        after
    });
    assert!(proved == plain, "the two differ: {:?}, {:?}", proved.reply, plain.reply);
}

/// Makes a call by both libraries and under each of the rules in turn, round after round, each time on the same sheet.
/// A round's calls are made on one tree, but for the second rule's, which are made on the one half way round: so what
/// the processor has learnt of a tree is equally old for each. What the proved call and the C version took, for each
/// rule.
fn in_turn(rounds: usize, trees: &mut [Lists], rules: &[bool], calls: [Call; 2]) -> Vec<[Took; 2]> {
    for l in &*trees {
        rules.iter().for_each(|&b| compare(l, b, calls));
    }
    let count = trees.len();
    let kept: Vec<[raw::Lists; 2]> = trees.iter().map(|l| l.sheets.clone()).collect();
    let mut took = vec![<[Took; 2]>::default(); rules.len()];
    for round in 0..count + rounds {
        let mut replies = vec![None; rules.len()];
        for (library, call) in calls.iter().enumerate() {
            for (i, &b) in rules.iter().enumerate() {
                let tree = (round + i * count / 2) % count;
                let l = &mut trees[tree];
                l.read();
                let start = now();
                call(l, b);
                let time = now() - start;
                let reply = *replies[i].get_or_insert(l.reply);
                assert_eq!(reply, l.reply, "the two differ");
                assert_ne!(reply[0], 0, "refused: {reply:?}");
                restore(&mut l.sheets[usize::from(b)], &kept[tree][usize::from(b)]);
                if round >= count {
                    took[i][library].0.push(time);
                }
            }
        }
    }
    took
}

/// How many leaves are lengthened in one call: spread over the tree, and each another but in a chain.
const LEAVES: usize = 64;

const RULES: [&str; 2] = ["steep", "balanced"];
const BOTH: [bool; 2] = [false, true];

/// What is said at the end.
#[derive(Default)]
struct Summary {
    /// the ratio to the C version, by rounds or by the fastest, whichever is smaller
    ratios: Vec<(f64, String)>,
    /// how many times as long as a steep one a balanced call takes
    over_steep: Vec<OverSteep>,
    /// by rule and shape, how many times as long as one lengthen the call for all leaves takes, and how many times as
    /// long as that call a lengthen of each takes
    in_one_call: Vec<(String, [(f64, f64); 2])>,
}

struct OverSteep {
    call: &'static str,
    n: usize,
    ratio: (f64, f64),
}

impl Summary {
    fn line(&mut self, call: &str, rule: &str, shape: &str, n: usize, [proved, plain]: &[Took; 2]) {
        let (a, b, (ratio, least)) = (proved.median(), plain.median(), proved.over(plain));
        println!("| {call} | {rule} | {shape} | {n} | {a:.1} | {b:.1} | {ratio:.2} | {least:.2} |");
        self.ratios.push((ratio.min(least), format!("{call} {rule} {shape} {n}")));
    }

    /// A call under both rules.
    fn ruled(&mut self, call: &'static str, shape: &str, n: usize, took: &[[Took; 2]]) {
        for (rule, both) in RULES.iter().zip(took) {
            self.line(call, rule, shape, n, both);
        }
        self.over_steep.push(OverSteep { call, n, ratio: took[1][0].over(&took[0][0]) });
    }

    /// How many times as long as on a steep sheet of the same tree each call takes on a balanced one: by rounds, and by
    /// the fastest; last the median over the shapes.
    fn balanced_over_steep(&self, n: usize) {
        println!("\nbalanced over steep, {n} lots:\n\n| Call | {} | median |", SHAPES.join(" | "));
        println!("|---|{}---|", "---|".repeat(SHAPES.len()));
        for call in ["layout", "lengthen", "column", "shorten", "hold", "direction"] {
            let ratios: Vec<_> =
                self.over_steep.iter().filter(|o| (o.call, o.n) == (call, n)).map(|o| o.ratio).collect();
            let shown: Vec<_> = ratios.iter().map(|(ratio, least)| format!("{ratio:.2} ({least:.2})")).collect();
            let middle = median(ratios.iter().map(|r| r.0).collect());
            println!("| {call} | {} | {middle:.2} |", shown.join(" | "));
        }
    }

    /// What one call for all leaves saves: by rounds, and by the fastest.
    fn leaves_in_one_call(&self) {
        println!("\n{LEAVES} leaves lengthened in one call:\n");
        println!("| Rule and shape | over one lengthen | {LEAVES} lengthens over it |\n|---|---|---|");
        for (what, [over_one, singly_over_it]) in &self.in_one_call {
            let shown = |(ratio, least): &(f64, f64)| format!("{ratio:.2} ({least:.2})");
            println!("| {what} | {} | {} |", shown(over_one), shown(singly_over_it));
        }
    }

    fn worst(&mut self) {
        self.ratios.sort_by(|a, b| b.0.total_cmp(&a.0));
        let over = self.ratios.iter().filter(|w| w.0 > 1.10).count();
        println!("\n{over} of {} above 1.10 times the C version, by rounds and by the fastest:", self.ratios.len());
        for (ratio, what) in self.ratios.iter().take(8) {
            println!("    {ratio:.2}  {what}");
        }
    }
}

/// Whether the lot's edge can be made longer by 1; the sheet stays.
fn stretches(l: &mut Lists, b: bool) -> bool {
    plain::lengthen(l, b);
    let accepted = l.reply[0] == 1;
    if accepted {
        plain::shorten(l, b);
    }
    accepted
}

/// Chooses a child of the root, or else a lot further on, that can be stretched on both fresh sheets.
fn choose_lot(l: &mut Lists) {
    let n = l.lots() as u32;
    l.lot = l.parent[1..].iter().position(|&p| p == 0).map_or(1, |v| v as u32 + 1);
    while !BOTH.iter().all(|&b| stretches(l, b)) {
        l.lot += (n - l.lot) / 8;
    }
}

/// The calls that lay out, stretch, align and hold, and the direction, under both rules.
fn ruled_calls(summary: &mut Summary, rounds: usize, trees: &mut [Lists], shape: &str) {
    let mut time = |call, trees: &mut [Lists], calls| {
        summary.ruled(call, shape, trees[0].lots(), &in_turn(rounds, trees, &BOTH, calls));
    };
    time("layout", trees, [proved::layout, plain::layout]);
    time("lengthen", trees, [proved::lengthen, plain::lengthen]);
    time("column", trees, [proved::column, plain::column]);
    for l in &mut *trees {
        BOTH.iter().for_each(|&b| plain::lengthen(l, b));
    }
    time("shorten", trees, [proved::shorten, plain::shorten]);
    time("hold", trees, [proved::hold, plain::hold]);
    time("direction", trees, [proved::direction, plain::direction]);
}

/// The leaves lengthened in one call, and singly, which takes so long that it has fewer rounds.
fn leaves(summary: &mut Summary, rounds: usize, trees: &mut [Lists], shape: &str) {
    let n = trees[0].lots();
    let each = in_turn(rounds, trees, &BOTH, [proved::lengthen_each, plain::lengthen_each]);
    let one = in_turn(rounds, trees, &BOTH, [proved::lengthen_leaf, plain::lengthen_leaf]);
    let fewer = (rounds / 8).max(1);
    let singly = in_turn(fewer, trees, &BOTH, [proved::lengthen_singly, plain::lengthen_singly]);
    for (i, rule) in RULES.iter().enumerate() {
        summary.line("lengthen_each", rule, shape, n, &each[i]);
        summary.line("lengthen, one leaf", rule, shape, n, &one[i]);
        summary.line("lengthen, each leaf", rule, shape, n, &singly[i]);
        let over = [each[i][0].over(&one[i][0]), singly[i][0].over(&each[i][0])];
        summary.in_one_call.push((format!("{rule} {shape}"), over));
    }
}

/// The calls that have no rule. The one for the tallest tree is given none, so it is timed among one shape's alone.
fn other_calls(summary: &mut Summary, rounds: usize, trees: &mut [Lists], shape: &str) {
    let mut time = |call, calls| {
        summary.line(call, "", shape, trees[0].lots(), &in_turn(rounds, trees, &[false], calls)[0]);
    };
    time("post_numbers", [proved::post_numbers, plain::post_numbers]);
    time("write_tree", [proved::write_tree, plain::write_tree]);
    time("read_tree", [proved::read_tree, plain::read_tree]);
    if shape == "chain" {
        time("tallest", [proved::tallest, plain::tallest]);
    }
    time("window, each lot", [proved::window, plain::window]);
}

fn checks(summary: &mut Summary, rounds: usize, shape: &str, n: usize) {
    let took = in_turn(rounds, &mut trees(shape, n, 1), &BOTH, [proved::check, plain::check]);
    summary.ruled("check", shape, n, &took);
}

fn main() {
    let rounds: usize = std::env::args().nth(1).map_or(41, |s| s.parse().expect("a number of rounds"));
    let mut summary = Summary::default();
    println!("| Call | Rule | Shape | n | proved, µs | C, µs | ratio | of the fastest |");
    println!("|---|---|---|---|---|---|---|---|");
    let sizes = [(1024, 16, 20 * rounds), (65_536, 1, rounds)];
    for (n, count, rounds) in sizes {
        for shape in SHAPES {
            let mut trees = trees(shape, n, count);
            ruled_calls(&mut summary, rounds, &mut trees, shape);
            other_calls(&mut summary, rounds, &mut trees, shape);
        }
    }
    for n in [1024, 4096] {
        for shape in SHAPES {
            checks(&mut summary, (rounds / 2).max(3), shape, n);
        }
    }
    for shape in SHAPES {
        leaves(&mut summary, rounds, &mut trees(shape, 65_536, 1), shape);
    }
    for (n, ..) in sizes {
        summary.balanced_over_steep(n);
    }
    summary.leaves_in_one_call();
    summary.worst();
}
