//! The limits that the crate names are those of the library, to the last lot and place.

use lineage::{
    check, raw, Cabinet, Call, Frame, Point, Refused, Rule, Sheet, Stopped, Tree, Verdict, Window, CHECK_LOTS,
    MAX_EXPONENT, MAX_LOTS, MAX_PLACE, SMALL_LOTS, SMALL_PLACE,
};

/// A root with n - 1 children.
fn star(n: u32) -> Result<Tree, Refused> {
    Tree::new(vec![0; n as usize], (0..n).map(|v| v.saturating_sub(1)).collect())
}

fn number<T: std::fmt::Debug>(refused: Result<T, Refused>) -> u32 {
    refused.unwrap_err().number
}

#[test]
fn lots() {
    let tree = star(MAX_LOTS).unwrap();
    assert_eq!(Sheet::new(tree.clone(), Rule::Steep).unwrap().frame(), Frame { width: 2, height: MAX_LOTS });
    assert_eq!(Tree::from_bytes(&tree.to_bytes()).unwrap(), tree);
    assert_eq!(number(star(MAX_LOTS + 1)), 2);
}

/// Every line of the most lots is held, from the second lot on.
#[test]
fn held_lines() {
    let n = MAX_LOTS as usize;
    let fresh = Sheet::new(star(MAX_LOTS).unwrap(), Rule::Balanced).unwrap();
    let (times, x, y) = (fresh.times().to_vec(), fresh.x().to_vec(), fresh.y().to_vec());
    let held = (0..MAX_LOTS).map(|v| v.min(1)).collect();
    let mut sheet = Sheet::from_lists(fresh.tree().clone(), Rule::Balanced, times, x, y, held).unwrap();
    for lot in [1, MAX_LOTS - 1] {
        assert_eq!(number(sheet.lengthen(lot, 1)), 22);
        assert_eq!(number(sheet.shorten(lot, 0)), 22);
        assert_eq!(sheet.free(lot), Ok(fresh.frame()));
        assert!(sheet.lengthen(lot, 1).is_ok());
    }
    assert_eq!(sheet.held().iter().filter(|&&held| held == 1).count(), n - 3);
    assert_eq!((number(sheet.hold(MAX_LOTS)), number(sheet.hold(0)), number(sheet.free(0))), (9, 10, 10));
}

/// Every line of the most lots is lengthened in one call, and one line in a list much longer than the tree, up to the
/// limit.
#[test]
fn lists_of_lengthens() {
    let mut sheet = Sheet::new(star(MAX_LOTS).unwrap(), Rule::Steep).unwrap();
    let all: Vec<(u32, u32)> = (1..MAX_LOTS).map(|lot| (lot, 1)).collect();
    assert_eq!(sheet.lengthen_each(&all), Ok(Frame { width: 3, height: 2 * MAX_LOTS - 1 }));
    assert!(sheet.times()[1..].iter().all(|&times| times == 2));

    let mut sheet = Sheet::new(star(2).unwrap(), Rule::Steep).unwrap();
    let mut long = vec![(1, 1); 100_000];
    assert_eq!(sheet.lengthen_each(&long), Ok(Frame { width: 100_002, height: 100_002 }));
    long.extend([(1, MAX_PLACE - 200_001), (1, 0), (1, 1), (1, 0)]);
    let refused = Refused { call: Call::Lengthen, number: 11, lot: 1 };
    assert_eq!(sheet.lengthen_each(&long), Err(Stopped { place: 100_003, refused }));
    assert_eq!((sheet.times()[1], sheet.frame().width), (MAX_PLACE, MAX_PLACE + 1));
}

/// Lots of the most lots are brought to columns, and one of two to the last column of each cabinet.
#[test]
fn columns() {
    let mut sheet = Sheet::new(star(MAX_LOTS).unwrap(), Rule::Balanced).unwrap();
    for lot in [1, MAX_LOTS - 1] {
        let across = sheet.x()[lot as usize];
        assert_eq!(sheet.column(lot, 3 * across), Ok(Some(2)));
        sheet.lengthen(lot, 2).unwrap();
        assert_eq!(sheet.column(lot, 3 * across), Ok(Some(0)));
        assert_eq!(sheet.column(lot, 3 * across - 1), Ok(None));
    }
    assert_eq!((number(sheet.column(MAX_LOTS, 1)), number(sheet.column(0, 0))), (9, 10));

    for cabinet in Cabinet::ALL {
        let sheet = Sheet::new_in(star(2).unwrap(), Rule::Steep, cabinet).unwrap();
        let most = cabinet.max_place();
        assert_eq!(sheet.column(1, most), Ok(Some(most - 1)));
        assert_eq!((sheet.column(1, most + 1), sheet.column(1, u32::MAX)), (Ok(None), Ok(None)));
    }
}

/// The balanced slopes (across, up) of k levels between two neighbours, in order.
fn levels(k: u32, left: (u32, u32), right: (u32, u32)) -> Vec<(u32, u32)> {
    if k == 0 {
        return Vec::new();
    }
    let middle = (left.0 + right.0, left.1 + right.1);
    [levels(k - 1, left, middle), vec![middle], levels(k - 1, middle, right)].concat()
}

/// Each slope of up to ten levels, which the table has, and of eleven, which it hasn't: in a star a lot's place is its
/// slope, and lengthened by 1 it is twice its slope.
#[test]
fn single_slopes() {
    for n in (1..=10).flat_map(|k| [1 << k, (1 << k) + 1]) {
        let mut sheet = Sheet::new(star(n).unwrap(), Rule::Balanced).unwrap();
        let all: Vec<(u32, u32)> = (1..n).map(|lot| (lot, 1)).collect();
        sheet.lengthen_each(&all).unwrap();
        let slopes = levels(n.next_power_of_two().ilog2(), (1, 0), (0, 1));
        for (lot, (across, up)) in (1..n as usize).zip(slopes) {
            assert_eq!((sheet.x()[lot], sheet.y()[lot]), (2 * across, 2 * up), "lot {lot} of {n}");
        }
    }
}

/// The post numbers of a chain, which has the largest subtrees.
#[test]
fn post_numbers() {
    let chain: Vec<u32> = (0..=MAX_LOTS).map(|v| v.saturating_sub(1)).collect();
    let n = chain.len();
    let (rank, mut first, mut last, mut work, mut reply) =
        (vec![0; n], vec![7; n], vec![8; n], vec![9; 4 * n], [0; 3]);
    assert!(raw::post_numbers(&chain, &rank, &mut first, &mut last, &mut work, &mut reply));
    assert_eq!(reply, [0, 2, 0]);
    assert!((first, last, work) == (vec![7; n], vec![8; n], vec![9; 4 * n]), "a refusal changes nothing");

    let numbers = Tree::new(chain[..n - 1].to_vec(), vec![0; n - 1]).unwrap().post_numbers();
    assert!(numbers.first.iter().all(|&first| first == 1));
    assert!(numbers.last.iter().copied().eq((1..=MAX_LOTS).rev()));
}

/// The tallest tree of up to the most lots is accepted, and each cabinet that takes it draws the frame that is told. Of
/// more lots it is refused, and no lists of that length are made.
#[test]
fn tallest() {
    for (n, height) in [(1, 1), (2, 2), (SMALL_LOTS, 523_777), (MAX_LOTS, 2_147_450_881)] {
        let (tree, frame) = Tree::tallest(n).unwrap();
        assert_eq!(frame, Frame { width: n, height });
        assert!(tree.parents().iter().copied().eq((0..n).map(|v| v.saturating_sub(1))));
        assert_eq!(Tree::new(tree.parents().to_vec(), vec![0; n as usize]), Ok(tree.clone()));
        for cabinet in Cabinet::ALL.into_iter().filter(|cabinet| n <= cabinet.max_lots()) {
            assert_eq!(Sheet::new_in(tree.clone(), Rule::Steep, cabinet).unwrap().frame(), frame);
        }
    }
    for (n, number) in [(0, 1), (MAX_LOTS + 1, 2), (u32::MAX, 2)] {
        assert_eq!(Tree::tallest(n), Err(Refused { call: Call::Tallest, number, lot: 0 }));
    }
}

/// The windows of every side there is, from the root and at the last numbers; a position times the side is the distance
/// from the corner.
#[test]
fn windows() {
    for exponent in 0..=MAX_EXPONENT {
        let side = 1 << exponent;
        let window = Window::new((0, 0), exponent).unwrap();
        assert_eq!((window.corner(), window.exponent(), window.side()), ((0, 0), exponent, side));
        let last = window.show((side - 1, 0)).unwrap();
        assert!(last.across < 1.0 && last.across * f64::from(side) == f64::from(side - 1) && last.up == 0.0);
        assert_eq!((window.show((side, 0)), window.show((0, side))), (None, None));

        let end = Window::new((u32::MAX, u32::MAX), exponent).unwrap();
        assert_eq!(end.show((u32::MAX, u32::MAX)), Some(Point { across: 0.0, up: 0.0 }));
        assert_eq!((end.show((0, u32::MAX)), end.show((u32::MAX, 0))), (None, None));
    }
    for exponent in [MAX_EXPONENT + 1, 64, u32::MAX] {
        assert_eq!(Window::new((0, 0), exponent), Err(Refused { call: Call::Window, number: 18, lot: 0 }));
    }
}

#[test]
fn lots_to_check() {
    let sheet = |n| Sheet::new(star(n).unwrap(), Rule::Balanced).unwrap();
    assert_eq!(sheet(CHECK_LOTS).check(), Ok(Verdict::Monotone));
    assert_eq!(number(sheet(CHECK_LOTS + 1).check()), 14);
}

#[test]
fn places() {
    let pair = star(2).unwrap();
    let mut sheet = Sheet::new(pair.clone(), Rule::Steep).unwrap();
    assert_eq!(number(sheet.lengthen(1, MAX_PLACE)), 11);
    assert_eq!(sheet.lengthen(1, MAX_PLACE - 1), Ok(Frame { width: MAX_PLACE + 1, height: MAX_PLACE + 1 }));
    assert_eq!(check(&pair, &[0, MAX_PLACE], &[0, 0]), Ok(Verdict::Monotone));
    assert_eq!(number(check(&pair, &[0, MAX_PLACE + 1], &[0, 0])), 15);
}

/// The small cabinet takes 1,024 lots and no more, and its replies and sheets are the large one's.
#[test]
fn lots_on_the_small_cabinet() {
    for rule in Rule::ALL {
        let tree = star(SMALL_LOTS).unwrap();
        let mut small = Sheet::new_in(tree.clone(), rule, Cabinet::Small).unwrap();
        let mut large = Sheet::new(tree, rule).unwrap();
        assert_eq!((small.cabinet(), large.cabinet()), (Cabinet::Small, Cabinet::Large));
        for lot in [0, 1, SMALL_LOTS - 1, SMALL_LOTS] {
            assert_eq!(small.lengthen(lot, 1), large.lengthen(lot, 1));
            assert_eq!(small.shorten(lot, 2), large.shorten(lot, 2));
            assert_eq!(small.column(lot, 60), large.column(lot, 60));
            assert_eq!(small.hold(lot), large.hold(lot));
            assert_eq!(small.lengthen(lot, 0), large.lengthen(lot, 0));
        }
        assert!(small == large && small.frame() == large.frame());
        for n in [SMALL_LOTS + 1, CHECK_LOTS, MAX_LOTS] {
            let fresh = Sheet::new(star(n).unwrap(), rule).unwrap();
            let refused = Sheet::new_in(fresh.tree().clone(), rule, Cabinet::Small).unwrap_err();
            assert_eq!(refused, Refused { call: Call::Layout, number: 20, lot: 0 });
            assert_eq!(number(taken_up(&fresh, Cabinet::Small)), 20);
            assert_eq!(taken_up(&fresh, Cabinet::Large), Ok(fresh));
        }
    }
}

/// The sheet of the same lists on a cabinet.
fn taken_up(sheet: &Sheet, cabinet: Cabinet) -> Result<Sheet, Refused> {
    let [times, x, y, held] = [sheet.times(), sheet.x(), sheet.y(), sheet.held()].map(|list| list.to_vec());
    Sheet::from_lists_in(sheet.tree().clone(), sheet.rule(), cabinet, times, x, y, held)
}

#[test]
fn places_on_the_small_cabinet() {
    let mut sheet = Sheet::new_in(star(2).unwrap(), Rule::Steep, Cabinet::Small).unwrap();
    let edge = Frame { width: SMALL_PLACE + 1, height: SMALL_PLACE + 1 };
    assert_eq!(sheet.lengthen(1, SMALL_PLACE), Err(Refused { call: Call::Lengthen, number: 21, lot: 1 }));
    assert_eq!(sheet.lengthen(1, u32::MAX), Err(Refused { call: Call::Lengthen, number: 21, lot: 1 }));
    assert_eq!(sheet.lengthen(1, SMALL_PLACE - 1), Ok(edge));
    for cabinet in Cabinet::ALL {
        assert_eq!(taken_up(&sheet, cabinet).map(|sheet| (sheet.cabinet(), sheet.frame())), Ok((cabinet, edge)));
    }

    // a sheet that the large cabinet has lengthened by one more
    let mut beyond = taken_up(&sheet, Cabinet::Large).unwrap();
    beyond.lengthen(1, 1).unwrap();
    assert_eq!(taken_up(&beyond, Cabinet::Small), Err(Refused { call: Call::Open, number: 8, lot: 1 }));
    assert_eq!(beyond.shorten(1, 1).map(|_| taken_up(&beyond, Cabinet::Small)), Ok(Ok(sheet)));
}

/// The small cabinet's list of lengthens is its single ones.
#[test]
fn lists_on_the_small_cabinet() {
    let mut sheet = Sheet::new_in(star(3).unwrap(), Rule::Steep, Cabinet::Small).unwrap();
    assert_eq!(sheet.lengthen_each(&[]), Ok(sheet.frame()));
    assert_eq!(sheet.lengthen_each(&[(1, 2), (2, 1)]), Ok(Frame { width: 4, height: 5 }));
    let refused = Refused { call: Call::Lengthen, number: 21, lot: 2 };
    assert_eq!(sheet.lengthen_each(&[(1, 7), (2, SMALL_PLACE / 2), (1, 1)]), Err(Stopped { place: 2, refused }));
    assert_eq!((sheet.times(), sheet.frame()), (&[1, 10, 2][..], Frame { width: 11, height: 11 }));
}

/// A file that states more lots than there can be is refused, however long it is, and no list of that length is made.
#[test]
fn stated_lots() {
    for n in [MAX_LOTS + 1, u32::MAX] {
        assert_eq!(number(Tree::from_bytes(&n.to_le_bytes())), 2);
    }
    assert_eq!(number(Tree::from_bytes(&MAX_LOTS.to_le_bytes())), 17);
    assert_eq!(number(Tree::from_bytes(&[1, 0, 0])), 16);
}
