//! Document 02's stretches in either order, through the C interface: lengthens that are all accepted on a fresh sheet
//! are accepted in every other order, singly and in one call, and leave the lists and the frame that the sums of their
//! counts say. On both cabinets, under both rules.

use lineage::raw;
use reference::random::Random;
use reference::{Limits, Reply, Sheet, LARGE, SMALL};

/// How many rearrangements are made on each cabinet under each rule.
const REARRANGEMENTS: usize = 50_000;

/// A lot and a count.
type Lengthen = (u32, u32);

fn lists(s: &mut Sheet) -> raw::Lists<&mut [u32]> {
    raw::Lists { times: &mut s.times, x: &mut s.x, y: &mut s.y, held: &mut s.held }
}

/// What is lent to every call of a list, with the cabinet's limits and calls.
#[derive(Debug)]
struct Desk {
    limits: Limits,
    calls: &'static raw::Entries,
    balanced: bool,
    parent: Vec<u32>,
    rank: Vec<u32>,
}

impl Desk {
    fn work(&self) -> Vec<u32> {
        vec![0; 4 * self.parent.len()]
    }

    /// The fresh sheet, and layout's reply.
    fn fresh(&self) -> (Sheet, Reply) {
        let (mut s, mut reply) = (Sheet::made(|| vec![7; self.parent.len()]), [0; 3]);
        let called =
            (self.calls.layout)(self.balanced, &self.parent, &self.rank, lists(&mut s), &mut self.work(), &mut reply);
        assert!(called && reply[0] == 1, "{self:?}");
        (s, reply)
    }

    fn lengthen(&self, s: &mut Sheet, (lot, count): Lengthen) -> Reply {
        let (table, work, mut reply) = ((&self.parent, &self.rank), &mut self.work(), [0; 3]);
        assert!((self.calls.lengthen)(self.balanced, table.0, table.1, lists(s), work, lot, count, &mut reply));
        reply
    }

    /// Lengthens that are all accepted, one after the other: such as leave room, fill it, or change nothing.
    fn accepted(&self, random: &mut Random) -> Vec<Lengthen> {
        let (mut s, _) = self.fresh();
        let slopes = reference::accept_lists(&self.parent, &self.rank).unwrap().slopes(self.balanced);
        let tries = random.below(9);
        let mut any = || {
            let lot = random.below(self.parent.len());
            let lengthen = (lot as u32, random.count(self.limits, &s, slopes[lot]));
            (self.lengthen(&mut s, lengthen)[0] == 1).then_some(lengthen)
        };
        (0..tries).filter_map(|_| any()).collect()
    }

    /// The sheet that the sums of the counts say, and its frame.
    fn summed(&self, calls: &[Lengthen]) -> (Sheet, Reply) {
        let tree = reference::accept_lists(&self.parent, &self.rank).unwrap();
        let mut times = vec![1; tree.lots()];
        calls.iter().for_each(|&(lot, count)| times[lot as usize] += count);
        let places = reference::places(&tree, &tree.slopes(self.balanced), &times);
        let (x, y): (Vec<u32>, Vec<u32>) = places.iter().map(|&(x, y)| (x as u32, y as u32)).unzip();
        let cells = |places: &[u32]| i64::from(*places.iter().max().unwrap()) + 1;
        let reply = [1, cells(&x), cells(&y)];
        (Sheet { held: vec![0; times.len()], times, x, y }, reply)
    }

    /// The sheet that the calls leave of the fresh one, and the last one's reply, or layout's; each must be accepted.
    fn after(&self, calls: &[Lengthen]) -> (Sheet, Reply) {
        let (mut s, mut reply) = self.fresh();
        for &lengthen in calls {
            reply = self.lengthen(&mut s, lengthen);
            assert_eq!(reply[0], 1, "{lengthen:?} of {calls:?}: {reply:?}, {self:?}");
        }
        (s, reply)
    }

    /// The same by one call for the whole list, which the large cabinet has.
    fn after_each(&self, calls: &[Lengthen]) -> (Sheet, Reply) {
        let ((mut s, _), mut reply) = (self.fresh(), [0; 4]);
        let (lots, counts): (Vec<u32>, Vec<u32>) = calls.iter().copied().unzip();
        let (table, work) = ((&self.parent, &self.rank), &mut self.work());
        assert!(raw::lengthen_each(self.balanced, table.0, table.1, lists(&mut s), work, &lots, &counts, &mut reply));
        (s, [reply[0], reply[1], reply[2]])
    }
}

/// The list in another order: two of it exchanged, from back to front, or at random.
fn rearranged(random: &mut Random, calls: &[Lengthen]) -> Vec<Lengthen> {
    let mut others = calls.to_vec();
    let n = others.len();
    match random.below(4) {
        0 if n > 1 => others.swap(random.below(n), random.below(n)),
        1 => others.reverse(),
        _ => (1..n).rev().for_each(|i| others.swap(i, random.below(i + 1))),
    }
    others
}

fn any_order(test: &str, limits: Limits, calls: &'static raw::Entries) {
    let mut random = Random::from_environment(test);
    for balanced in [false, true] {
        let (mut made, mut different, mut full) = (0, 0, 0);
        while made < REARRANGEMENTS {
            let n = random.lots(200);
            let (parent, rank) = random.table(n);
            let desk = Desk { limits, calls, balanced, parent, rank };
            let calls = desk.accepted(&mut random);
            let right = desk.summed(&calls);
            assert_eq!(desk.after(&calls), right, "{calls:?}, {desk:?}");
            for _ in 0..=calls.len() {
                let others = rearranged(&mut random, &calls);
                assert_eq!(desk.after(&others), right, "{others:?} for {calls:?}, {desk:?}");
                if limits.place == LARGE.place {
                    assert_eq!(desk.after_each(&others), right, "{others:?} for {calls:?} in one call, {desk:?}");
                }
                made += 1;
                different += usize::from(others != calls);
            }
            full += usize::from(i128::from(right.1[1].max(right.1[2])) == limits.place + 1);
        }
        println!("{test}, balanced {balanced}: {made} rearrangements, {different} of them others than the list");
        println!("{test}, balanced {balanced}: {full} sheets with a place on the edge");
        assert!(different > made / 2 && full > 0);
    }
}

#[test]
fn large() {
    any_order("orders, large", LARGE, &raw::LARGE);
}

#[test]
fn small() {
    any_order("orders, small", SMALL, &raw::SMALL);
}
