//! Document 02's tallest sheet by brute force: no tree has a taller or a wider fresh steep sheet than the tallest of as
//! many lots, and one is as tall exactly when no lot has two children.

use lineage::{Frame, Rule, Sheet, Tree};
use reference::random::Random;

/// Whether no lot has two children.
fn is_chain(tree: &Tree) -> bool {
    tree.children().iter().all(|children| children.len() <= 1)
}

/// Lays a tree out, sees that it is no taller or wider than the tallest, and tells whether it is as tall.
fn is_tallest(tree: &Tree, tallest: Frame) -> bool {
    let frame = Sheet::new(tree.clone(), Rule::Steep).unwrap().frame();
    assert!(frame.height <= tallest.height && frame.width <= tallest.width, "{tree:?}: {frame:?}");
    assert_eq!(frame.height == tallest.height, is_chain(tree), "{tree:?}: {frame:?}");
    frame.height == tallest.height
}

/// The table of these parents, with children in the order of their numbers; `None` where it is none.
fn table(parent: Vec<u32>) -> Option<Tree> {
    let mut children = vec![0; parent.len()];
    let mut rank = vec![0];
    for &p in &parent[1..] {
        rank.push(children[p as usize]);
        children[p as usize] += 1;
    }
    Tree::new(parent, rank).ok()
}

/// Every list of parents of at most 7 lots. Every tree stands among them, numbered in every way, so every order of
/// children too.
#[test]
fn every_small_tree() {
    for n in 1..=7u32 {
        let (_, tallest) = Tree::tallest(n).unwrap();
        let (mut trees, mut chains) = (0, 0);
        for code in 0..n.pow(n - 1) {
            let parent = std::iter::once(0).chain((0..n - 1).map(|digit| code / n.pow(digit) % n)).collect();
            if let Some(tree) = table(parent) {
                trees += 1;
                chains += u32::from(is_tallest(&tree, tallest));
            }
        }
        // Cayley's formula, and the orders of the lots below the root
        assert_eq!((trees, chains), (n.pow(n.max(2) - 2), (1..n).product()), "{n} lots");
    }
}

#[test]
fn random_trees() {
    let mut random = Random::from_environment("tallest, random_trees");
    let (trees, mut chains) = (20_000, 0);
    for _ in 0..trees {
        let n = random.lots(300);
        let (parent, rank) = random.table(n);
        let (_, tallest) = Tree::tallest(n as u32).unwrap();
        chains += usize::from(is_tallest(&Tree::new(parent, rank).unwrap(), tallest));
    }
    println!("tallest, random_trees: {chains} chains of {trees} trees");
    assert!(0 < chains && chains < trees);
}
