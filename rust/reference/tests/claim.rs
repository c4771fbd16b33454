//! Demand 3 by brute force on small trees: after lists of calls every path rises along its direction, no two edges
//! share a point but a common end, places are the sums of the calls, and the check says Monotone. A held line keeps its
//! length until it is freed, and moves with the lots above it. A list of lengthens made in one call counts as the
//! single calls that it tries. On both cabinets no place is beyond the cabinet's edge.

use lineage::{Cabinet, Frame, Refused, Rule, Sheet, Stopped, Tree, Verdict};
use reference::random::Random;

type Place = (i128, i128);

/// Twice the signed area of a triangle.
fn area(a: Place, b: Place, c: Place) -> i128 {
    (b.0 - a.0) * (c.1 - a.1) - (b.1 - a.1) * (c.0 - a.0)
}

fn within(a: Place, b: Place, p: Place) -> bool {
    p.0 >= a.0.min(b.0) && p.0 <= a.0.max(b.0) && p.1 >= a.1.min(b.1) && p.1 <= a.1.max(b.1)
}

/// Whether two segments share a point that is not an end of both.
fn cross_badly(a: Place, b: Place, c: Place, d: Place) -> bool {
    let on = |p: Place, q: Place, r: Place| area(p, q, r) == 0 && within(p, q, r);
    let ends = |p: Place| (p == a || p == b) && (p == c || p == d);
    // an end of one on the other, which is not a common end
    let touch = [(a, on(c, d, a)), (b, on(c, d, b)), (c, on(a, b, c)), (d, on(a, b, d))];
    if touch.iter().any(|&(p, t)| t && !ends(p)) {
        return true;
    }
    let (s, t) = (area(a, b, c).signum() * area(a, b, d).signum(), area(c, d, a).signum() * area(c, d, b).signum());
    // two segments on one line that share more than an end have an end of one inside the other, seen above
    s < 0 && t < 0
}

fn holds(sheet: &Sheet, slopes: &[Place], Said { added, held }: &Said) {
    let tree = sheet.tree();
    let n = tree.lots();
    assert_eq!(sheet.held(), held);
    assert!(sheet.x().iter().chain(sheet.y()).all(|&place| place <= sheet.cabinet().max_place()));
    assert!(sheet.times().iter().zip(added).all(|(&times, &added)| i128::from(times) == added));
    let place = |v: usize| (sheet.x()[v] as i128, sheet.y()[v] as i128);
    let parent = |v: usize| tree.parents()[v] as usize;
    for v in 0..n {
        let (mut z, mut sum) = (v, (0, 0));
        while z != 0 {
            sum = (sum.0 + slopes[z].0 * added[z], sum.1 + slopes[z].1 * added[z]);
            z = parent(z);
        }
        assert_eq!(place(v), sum, "the place of {v}");
    }
    for u in 0..n {
        for v in 0..n {
            let along = sheet.direction(u as u32, v as u32).unwrap();
            for step in tree.path(u as u32, v as u32).expect("two lots").windows(2) {
                let (a, b) = (place(step[0] as usize), place(step[1] as usize));
                let rise = along.d as i128 * (b.0 - a.0) + along.e as i128 * (b.1 - a.1);
                assert!(rise > 0, "{u} to {v} along {along} at {step:?}: {tree:?}");
            }
        }
    }
    for v in 1..n {
        for w in 1..v {
            let bad = cross_badly(place(parent(v)), place(v), place(parent(w)), place(w));
            assert!(!bad, "the edges of {v} and {w} share a point: {tree:?}");
        }
    }
    assert_eq!(sheet.check(), Ok(Verdict::Monotone));
}

/// What the accepted calls of a list say: how long each lot's line is, and whether it is held.
#[derive(Clone)]
struct Said {
    added: Vec<i128>,
    held: Vec<u32>,
}

/// A call on one lot: hold or free it, or change its length by a count.
#[derive(Clone, Copy, PartialEq)]
enum Call {
    Hold,
    Free,
    Lengthen(u32),
    Shorten(u32),
}

impl Call {
    fn any(random: &mut Random) -> Call {
        let count = any_count(random);
        match random.below(9) {
            0..=1 => Call::Hold,
            2 => Call::Free,
            3..=6 => Call::Lengthen(count),
            _ => Call::Shorten(count),
        }
    }

    fn make(self, sheet: &mut Sheet, lot: u32) -> Result<Frame, Refused> {
        match self {
            Call::Hold => sheet.hold(lot),
            Call::Free => sheet.free(lot),
            Call::Lengthen(count) => sheet.lengthen(lot, count),
            Call::Shorten(count) => sheet.shorten(lot, count),
        }
    }

    /// The lengths that it adds.
    fn adds(self) -> i128 {
        match self {
            Call::Hold | Call::Free => 0,
            Call::Lengthen(count) => count.into(),
            Call::Shorten(count) => -i128::from(count),
        }
    }
}

fn any_count(random: &mut Random) -> u32 {
    random.one_of(&[0, 1, 2, 7, 1000, 30_000, 30_000_000])
}

/// Makes a call, and sees that a held line refuses to change its length and moves with the lots above it.
fn made(sheet: &mut Sheet, slopes: &[Place], said: &mut Said, call: Call, lot: u32) -> Result<Frame, Refused> {
    let before = sheet.clone();
    let answer = call.make(sheet, lot).inspect_err(|refused| {
        let is_held = said.held.get(lot as usize) == Some(&1);
        let stretches = !matches!(call, Call::Hold | Call::Free);
        assert_eq!(refused.number == 22, is_held && stretches, "22 is for held lines alone");
    });
    assert!(answer.is_ok() || *sheet == before, "a refusal changed the sheet");
    assert_eq!(answer?, sheet.frame());
    let v = lot as usize;
    match call {
        Call::Hold => said.held[v] = 1,
        Call::Free => said.held[v] = 0,
        _ => assert_eq!(said.held[v], 0, "the length of a held line changed"),
    }
    said.added[v] += call.adds();
    for z in 0..sheet.tree().lots() as u32 {
        let moves = sheet.tree().path(0, z).expect("a lot").contains(&lot);
        let by = if moves { call.adds() } else { 0 };
        let at = |s: &Sheet| s.place(z).map(|(x, y)| (x as i128, y as i128)).expect("a lot");
        let (from, to) = (at(&before), at(sheet));
        assert_eq!(to, (from.0 + by * slopes[v].0, from.1 + by * slopes[v].1), "lot {z}");
    }
    answer
}

/// Makes a list of lengthens in one call, and the same singly, up to the first that is refused, on a copy of the sheet.
fn made_each(sheet: &mut Sheet, slopes: &[Place], said: &mut Said, lengthens: &[(u32, u32)]) {
    let (mut singly, mut right) = (sheet.clone(), Ok(sheet.frame()));
    for (place, &(lot, count)) in (1..).zip(lengthens) {
        let single = made(&mut singly, slopes, said, Call::Lengthen(count), lot);
        right = single.map_err(|refused| Stopped { place, refused });
        if right.is_err() {
            break;
        }
    }
    assert_eq!(sheet.lengthen_each(lengthens), right);
    assert!(*sheet == singly && sheet.frame() == singly.frame(), "{lengthens:?} are not the single calls");
}

/// A list of calls from the fresh sheet, under both rules, on either cabinet; how many lines were held and moved.
fn every_list(random: &mut Random, tree: &Tree, calls: usize) -> usize {
    let mut moved = 0;
    for rule in Rule::ALL {
        let mut sheet = Sheet::new_in(tree.clone(), rule, random.one_of(&Cabinet::ALL)).unwrap();
        let n = tree.lots();
        let slopes = reference::accept_lists(tree.parents(), tree.ranks()).unwrap().slopes(rule == Rule::Balanced);
        let mut said = Said { added: vec![1; n], held: vec![0; n] };
        holds(&sheet, &slopes, &said);
        for _ in 0..calls {
            let before = sheet.clone();
            if random.once_in(4) {
                let lengthens: Vec<(u32, u32)> =
                    (0..random.below(6)).map(|_| (random.below(n + 1) as u32, any_count(random))).collect();
                made_each(&mut sheet, &slopes, &mut said, &lengthens);
            } else {
                let lot = random.below(n + 1) as u32;
                let _ = made(&mut sheet, &slopes, &mut said, Call::any(random), lot);
            }
            let has_moved = |&v: &usize| sheet.held()[v] == 1 && sheet.place(v as u32) != before.place(v as u32);
            moved += (0..n).filter(has_moved).count();
        }
        holds(&sheet, &slopes, &said);
    }
    moved
}

/// Every table of at most 5 lots.
#[test]
fn every_small_tree() {
    let mut random = Random::from_environment("every_small_tree");
    let (mut trees, mut moved) = (0, 0);
    for n in 1..=5usize {
        let tables = n.pow(2 * (n as u32 - 1));
        for code in 0..tables {
            let (mut parent, mut rank, mut rest) = (vec![0; n], vec![0; n], code);
            for v in 1..n {
                parent[v] = (rest % n) as u32;
                rest /= n;
                rank[v] = (rest % n) as u32;
                rest /= n;
            }
            let accepted = reference::accept_lists(&parent, &rank);
            match Tree::new(parent, rank) {
                Ok(tree) => {
                    assert!(accepted.is_ok());
                    trees += 1;
                    moved += every_list(&mut random, &tree, 8);
                }
                Err(refused) => assert_eq!(accepted.err(), Some((refused.number, refused.lot))),
            }
        }
    }
    println!("every_small_tree: {trees} tables accepted, held lines moved {moved} times");
    assert!(moved > 0);
    // shapes of ordered trees (1, 1, 2, 5, 14) times the orders of the lots below the root (1, 1, 2, 6, 24)
    assert_eq!(trees, 1 + 1 + 4 + 30 + 336);
}

#[test]
fn random_trees() {
    let mut random = Random::from_environment("random_trees");
    let mut moved = 0;
    for _ in 0..600 {
        let n = 1 + random.below(16);
        let (parent, rank) = random.table(n);
        moved += every_list(&mut random, &Tree::new(parent, rank).unwrap(), 16);
    }
    println!("random_trees: held lines moved {moved} times");
    assert!(moved > 0);
}
