//! Lineage sheets on the grid: drawings of a rooted tree with whole-number places in which, for any two nodes, some
//! direction makes every edge of the path between them rise.
//!
//! All the work is done by the proved static library; this crate lends it lists and names what it answers. Document
//! 01's words are kept: a node is a *lot*, a drawing a *sheet*, the bounding box from the root, in grid cells, its
//! *frame*.
//!
//! The library is liblineage.a in the folder that the environment variable LINEAGE_LIB_DIR names, or else the
//! repository's own, which the Rattle toolchain builds.
//!
//! ```
//! use lineage::{Direction, Frame, Rule, Sheet, Tree};
//!
//! let tree = Tree::new(vec![0, 0, 0, 1, 1], vec![0, 0, 1, 0, 1])?;
//! let mut sheet = Sheet::new(tree, Rule::Steep)?;
//! assert_eq!(sheet.frame(), Frame { width: 3, height: 6 });
//! assert_eq!(sheet.place(4), Some((2, 5)));
//!
//! sheet.lengthen(1, 2)?;
//! assert_eq!(sheet.place(4), Some((4, 11)));
//! assert_eq!(sheet.direction(3, 2)?, Direction { d: -7, e: 2 });
//!
//! let refused = sheet.shorten(1, 3).unwrap_err();
//! assert_eq!(refused.number, 12);
//! assert_eq!(
//!     refused.to_string(),
//!     "shorten refused (12) at lot 1: the count is not below the lot's times"
//! );
//! # Ok::<(), lineage::Refused>(())
//! ```

#![warn(missing_docs, clippy::missing_panics_doc)]

pub mod raw;
mod refusal;
mod window;

pub use refusal::{Call, Ground, Refused, Stopped, GROUNDS};
use std::fmt;
pub use window::{Point, Window};

/// How edges get their slopes.
#[derive(Clone, Copy, Debug, PartialEq, Eq)]
pub enum Rule {
    /// The j-th slope goes 1 across and j up.
    Steep,
    /// The j-th slope is the j-th fraction of the first levels of the Stern-Brocot tree.
    Balanced,
}

impl Rule {
    /// Both rules, steep first.
    pub const ALL: [Rule; 2] = [Rule::Steep, Rule::Balanced];

    fn balanced(self) -> bool {
        self == Rule::Balanced
    }
}

impl fmt::Display for Rule {
    fn fmt(&self, f: &mut fmt::Formatter<'_>) -> fmt::Result {
        f.write_str(match self {
            Rule::Steep => "steep",
            Rule::Balanced => "balanced",
        })
    }
}

/// What draws a sheet: it says how many lots a sheet can have, and how far out their places can be. Within its limits
/// the small cabinet answers what the large one answers, and leaves what that leaves.
///
/// ```
/// use lineage::{Cabinet, Rule, Sheet, Tree, SMALL_PLACE};
///
/// let pair = Tree::new(vec![0, 0], vec![0, 0])?;
/// let mut small = Sheet::new_in(pair.clone(), Rule::Steep, Cabinet::Small)?;
/// let mut large = Sheet::new(pair, Rule::Steep)?;
/// assert_eq!(small.lengthen(1, SMALL_PLACE - 1), large.lengthen(1, SMALL_PLACE - 1));
/// assert_eq!(small, large);
///
/// let refused = small.lengthen(1, 1).unwrap_err();
/// assert_eq!(refused.to_string(), "lengthen refused (21) at lot 1: some place would be above 1,048,575");
/// assert!(large.lengthen(1, 1).is_ok());
/// # Ok::<(), lineage::Refused>(())
/// ```
#[derive(Clone, Copy, Debug, PartialEq, Eq)]
pub enum Cabinet {
    /// Up to [`MAX_LOTS`] lots, with places up to [`MAX_PLACE`].
    Large,
    /// Up to [`SMALL_LOTS`] lots, with places up to [`SMALL_PLACE`].
    Small,
}

impl Cabinet {
    /// Both cabinets, the large one first.
    pub const ALL: [Cabinet; 2] = [Cabinet::Large, Cabinet::Small];

    /// The most lots of a tree.
    pub fn max_lots(self) -> u32 {
        match self {
            Cabinet::Large => MAX_LOTS,
            Cabinet::Small => SMALL_LOTS,
        }
    }

    /// The largest x and y on a sheet.
    pub fn max_place(self) -> u32 {
        match self {
            Cabinet::Large => MAX_PLACE,
            Cabinet::Small => SMALL_PLACE,
        }
    }

    fn entries(self) -> &'static raw::Entries {
        match self {
            Cabinet::Large => &raw::LARGE,
            Cabinet::Small => &raw::SMALL,
        }
    }
}

/// The most lots of a tree.
pub const MAX_LOTS: u32 = 65_536;

/// The most lots of a tree on the small cabinet.
pub const SMALL_LOTS: u32 = 1024;

/// The most lots of a drawing that the check takes.
pub const CHECK_LOTS: u32 = 4096;

/// The largest x and y on a sheet.
pub const MAX_PLACE: u32 = 2_147_483_647;

/// The largest x and y on a sheet of the small cabinet.
pub const SMALL_PLACE: u32 = 1_048_575;

/// The largest exponent of a window's side.
pub const MAX_EXPONENT: u32 = 31;

/// Makes a call with a reply of three numbers, which it sets: the reply's case and its two numbers, or the refusal that
/// it is.
fn asked(call: Call, make: impl FnOnce(&mut raw::Reply) -> bool) -> Result<(i64, i64, i64), Refused> {
    let mut reply = [0; 3];
    make(&mut reply); // true, as the reply is three long
    match reply {
        [0, number, lot] => Err(Refused { call, number: number as u32, lot: lot as u32 }),
        [case, a, b] => Ok((case, a, b)),
    }
}

/// The same for a call whose two numbers are a frame.
fn framed(call: Call, make: impl FnOnce(&mut raw::Reply) -> bool) -> Result<Frame, Refused> {
    let (_, width, height) = asked(call, make)?;
    Ok(Frame { width: width as u32, height: height as u32 })
}

/// An accepted tree table.
#[derive(Clone, Debug, PartialEq, Eq)]
pub struct Tree {
    parent: Vec<u32>,
    rank: Vec<u32>,
}

impl Tree {
    /// The table of these lists, if none of refusals 1 to 7 applies.
    pub fn new(parent: Vec<u32>, rank: Vec<u32>) -> Result<Tree, Refused> {
        file_of(&parent, &rank)?;
        Ok(Tree { parent, rank })
    }

    /// The table in the bytes of a tree file.
    ///
    /// ```
    /// let tree = lineage::Tree::new(vec![0, 0], vec![0, 0])?;
    /// let bytes = tree.to_bytes();
    /// assert_eq!(bytes, [2, 0, 0, 0, 0, 0, 0, 0, 0, 0, 0, 0, 0, 0, 0, 0, 0, 0, 0, 0]);
    /// assert_eq!(lineage::Tree::from_bytes(&bytes)?, tree);
    /// assert_eq!(lineage::Tree::from_bytes(&bytes[..19]).unwrap_err().number, 17);
    /// # Ok::<(), lineage::Refused>(())
    /// ```
    pub fn from_bytes(bytes: &[u8]) -> Result<Tree, Refused> {
        // where more are stated the reader refuses, whatever it is lent
        let n = raw::stated_nodes(bytes).min(MAX_LOTS) as usize;
        let (mut parent, mut rank, mut work) = (vec![0; n], vec![0; n], vec![0; 4 * n]);
        asked(Call::ReadTree, |reply| raw::read_tree(bytes, &mut parent, &mut rank, &mut work, reply))?;
        Ok(Tree { parent, rank })
    }

    /// The tree of n lots whose fresh steep sheet is the tallest, with that sheet's frame, for paper that is ordered
    /// before a tree is known. It is the chain in which each lot v from 1 up has parent v - 1. No tree of n lots has a
    /// taller or a wider fresh steep sheet, and one is as tall exactly when no lot has two children. That this is so is
    /// proved. Refused with 1 where n is 0, and with 2 where it is above [`MAX_LOTS`].
    ///
    /// ```
    /// use lineage::{Call, Frame, Refused, Rule, Sheet, Tree};
    ///
    /// let (tree, frame) = Tree::tallest(5)?;
    /// assert_eq!(frame, Frame { width: 5, height: 11 });
    /// assert_eq!((tree.parents(), tree.ranks()), (&[0, 0, 1, 2, 3][..], &[0; 5][..]));
    /// assert_eq!(Sheet::new(tree, Rule::Steep)?.frame(), frame);
    ///
    /// let other = Tree::new(vec![0, 0, 0, 1, 1], vec![0, 0, 1, 0, 1])?;
    /// assert_eq!(Sheet::new(other, Rule::Steep)?.frame(), Frame { width: 3, height: 6 });
    ///
    /// assert_eq!(Tree::tallest(0), Err(Refused { call: Call::Tallest, number: 1, lot: 0 }));
    /// # Ok::<(), Refused>(())
    /// ```
    pub fn tallest(n: u32) -> Result<(Tree, Frame), Refused> {
        // where there are more the call refuses, whatever it is lent
        let lots = if n <= MAX_LOTS { n as usize } else { 0 };
        let (mut parent, mut rank) = (vec![0; lots], vec![0; lots]);
        let frame = framed(Call::Tallest, |reply| raw::tallest(n, &mut parent, &mut rank, reply))?;
        Ok((Tree { parent, rank }, frame))
    }

    /// The bytes of its tree file.
    ///
    /// # Panics
    ///
    /// Never: the lists of a `Tree` were accepted, and the writer accepts them again.
    pub fn to_bytes(&self) -> Vec<u8> {
        file_of(&self.parent, &self.rank).expect("an accepted table")
    }

    /// The number of lots.
    pub fn lots(&self) -> usize {
        self.parent.len()
    }

    /// Each lot's parent.
    pub fn parents(&self) -> &[u32] {
        &self.parent
    }

    /// Each lot's place among its parent's children.
    pub fn ranks(&self) -> &[u32] {
        &self.rank
    }

    /// The first and the last post number in each lot's subtree.
    ///
    /// ```
    /// let tree = lineage::Tree::new(vec![0, 0, 0, 1, 1], vec![0, 0, 1, 0, 1])?;
    /// let numbers = tree.post_numbers();
    /// assert_eq!(numbers.last, [5, 3, 4, 1, 2]);
    /// assert_eq!(numbers.first, [1, 1, 4, 1, 2]);
    /// assert!(numbers.under(1, 4) && !numbers.under(1, 2));
    /// # Ok::<(), lineage::Refused>(())
    /// ```
    ///
    /// # Panics
    ///
    /// Never: the lists of a `Tree` were accepted, and the call has no refusal besides those of its table.
    pub fn post_numbers(&self) -> PostNumbers {
        let n = self.lots();
        let (mut first, mut last, mut work) = (vec![0; n], vec![0; n], vec![0; 4 * n]);
        let answer = asked(Call::PostNumbers, |reply| {
            raw::post_numbers(&self.parent, &self.rank, &mut first, &mut last, &mut work, reply)
        });
        answer.expect("an accepted table");
        PostNumbers { first, last }
    }

    /// Each lot's children, in rank order.
    pub fn children(&self) -> Vec<Vec<u32>> {
        let mut children = vec![Vec::new(); self.lots()];
        for v in 1..self.lots() {
            children[self.parent[v] as usize].push(v as u32);
        }
        for list in &mut children {
            list.sort_by_key(|&v| self.rank[v as usize]);
        }
        children
    }

    /// The lots of the tree path from u to v, both included; `None` where one of them is no lot.
    ///
    /// ```
    /// let tree = lineage::Tree::new(vec![0, 0, 0, 1, 1], vec![0, 0, 1, 0, 1])?;
    /// assert_eq!(tree.path(3, 2), Some(vec![3, 1, 0, 2]));
    /// assert_eq!(tree.path(3, 5), None);
    /// # Ok::<(), lineage::Refused>(())
    /// ```
    pub fn path(&self, u: u32, v: u32) -> Option<Vec<u32>> {
        if u.max(v) as usize >= self.lots() {
            return None;
        }
        let up = |mut z: u32| {
            let mut way = vec![z];
            while z != 0 {
                z = self.parent[z as usize];
                way.push(z);
            }
            way
        };
        let (mut there, mut back) = (up(u), up(v));
        while there.len() > 1 && back.len() > 1 && there[there.len() - 2] == back[back.len() - 2] {
            there.pop();
            back.pop();
        }
        back.pop();
        there.extend(back.iter().rev());
        Some(there)
    }
}

/// The tree file of these lists, if they are a table.
fn file_of(parent: &[u32], rank: &[u32]) -> Result<Vec<u8>, Refused> {
    // where there are more lots the writer refuses, whatever it is lent
    let n = parent.len().min(MAX_LOTS as usize);
    let (mut bytes, mut work) = (vec![0; 4 + 8 * n], vec![0; 4 * n]);
    asked(Call::WriteTree, |reply| raw::write_tree(parent, rank, &mut bytes, &mut work, reply))?;
    Ok(bytes)
}

/// The post numbers in each lot's subtree: all from its first to its last, and no others.
#[derive(Clone, Debug, PartialEq, Eq)]
pub struct PostNumbers {
    /// The least post number in each lot's subtree.
    pub first: Vec<u32>,
    /// Each lot's own post number, the largest in its subtree.
    pub last: Vec<u32>,
}

impl PostNumbers {
    /// Whether lot z is in v's subtree: its number lies between v's two. It is not where one of them is no lot.
    pub fn under(&self, v: u32, z: u32) -> bool {
        let at = |list: &[u32], lot: u32| list.get(lot as usize).copied();
        match (at(&self.first, v), at(&self.last, z), at(&self.last, v)) {
            (Some(first), Some(own), Some(last)) => (first..=last).contains(&own),
            _ => false,
        }
    }
}

/// The grid cells of a sheet, from the root's.
#[derive(Clone, Copy, Debug, PartialEq, Eq)]
pub struct Frame {
    /// The largest x plus 1.
    pub width: u32,
    /// The largest y plus 1.
    pub height: u32,
}

/// An edge (across, up) rises along it when d × across + e × up is above 0.
#[derive(Clone, Copy, Debug, PartialEq, Eq)]
pub struct Direction {
    /// How far across.
    pub d: i32,
    /// How far up.
    pub e: i32,
}

impl fmt::Display for Direction {
    fn fmt(&self, f: &mut fmt::Formatter<'_>) -> fmt::Result {
        write!(f, "({}, {})", self.d, self.e)
    }
}

/// What the check says of a drawing.
#[derive(Clone, Copy, Debug, PartialEq, Eq)]
pub enum Verdict {
    /// Every pair of lots has a direction.
    Monotone,
    /// The first pair that has none.
    Turns(u32, u32),
}

/// Whether a drawing of the tree, whoever drew it, is monotone.
///
/// ```
/// use lineage::{check, Tree, Verdict};
/// let chain = Tree::new(vec![0, 0, 1, 2], vec![0; 4])?;
/// assert_eq!(check(&chain, &[0, 1, 1, 0], &[0, 0, 1, 1])?, Verdict::Turns(0, 3));
/// assert_eq!(check(&chain, &[0, 1, 2, 3], &[0, 0, 0, 0])?, Verdict::Monotone);
/// # Ok::<(), lineage::Refused>(())
/// ```
pub fn check(tree: &Tree, x: &[u32], y: &[u32]) -> Result<Verdict, Refused> {
    let mut work = vec![0; 4 * tree.lots()];
    Ok(match asked(Call::Check, |reply| raw::check(&tree.parent, &tree.rank, x, y, &mut work, reply))? {
        (1, _, _) => Verdict::Monotone,
        (_, u, v) => Verdict::Turns(u as u32, v as u32),
    })
}

/// A direction along which every edge of the tree path from one lot to another rises, on every sheet under the rule.
/// From a lot to itself, where there is no edge, it is (1, 1).
pub fn direction(tree: &Tree, rule: Rule, from: u32, to: u32) -> Result<Direction, Refused> {
    let (balanced, mut work) = (rule.balanced(), vec![0; 4 * tree.lots()]);
    let (_, d, e) = asked(Call::Direction, |reply| {
        raw::direction(balanced, &tree.parent, &tree.rank, &mut work, from, to, reply)
    })?;
    Ok(Direction { d: d as i32, e: e as i32 })
}

/// A tree drawn under a rule, on the large cabinet unless the small one is asked for. Two sheets are equal where tree,
/// rule, times, places and held lines are.
///
/// ```
/// use lineage::{Rule, Sheet, Tree};
/// let fresh = Sheet::new(Tree::new(vec![0, 0], vec![0, 0])?, Rule::Steep)?;
/// let mut sheet = fresh.clone();
/// sheet.lengthen(1, 2)?;
/// assert_ne!(sheet, fresh);
/// sheet.shorten(1, 2)?;
/// assert_eq!(sheet, fresh);
/// sheet.hold(1)?;
/// assert_ne!(sheet, fresh);
/// # Ok::<(), lineage::Refused>(())
/// ```
#[derive(Clone, Debug)]
pub struct Sheet {
    tree: Tree,
    rule: Rule,
    cabinet: Cabinet,
    lists: raw::Lists,
    work: Vec<u32>,
    frame: Frame,
}

impl Sheet {
    /// The fresh sheet, with every times 1 and no line held.
    pub fn new(tree: Tree, rule: Rule) -> Result<Sheet, Refused> {
        Sheet::new_in(tree, rule, Cabinet::Large)
    }

    /// The same on a cabinet: the small one refuses more than 1,024 lots, with 20.
    pub fn new_in(tree: Tree, rule: Rule, cabinet: Cabinet) -> Result<Sheet, Refused> {
        let lists = raw::Lists::of(tree.lots());
        let mut sheet = Sheet::unasked(tree, rule, cabinet, lists);
        sheet.ask(Call::Layout, cabinet.entries().layout)?;
        Ok(sheet)
    }

    /// The sheet that these lists are, as one that was saved. It is refused with 3 where a list is not as long as the
    /// tree, and with 8 at the first lot whose times, place or held breaks the rule. The library itself says so.
    ///
    /// ```
    /// use lineage::{Call, Frame, Refused, Rule, Sheet, Tree};
    ///
    /// let pair = Tree::new(vec![0, 0], vec![0, 0])?;
    /// let of = |times, x, held| Sheet::from_lists(pair.clone(), Rule::Steep, times, x, vec![0, 5], held);
    /// let mut sheet = of(vec![1, 5], vec![0, 5], vec![0, 1])?;
    /// assert_eq!(sheet.frame(), Frame { width: 6, height: 6 });
    /// assert_eq!(sheet.lengthen(1, 1).unwrap_err().number, 22);
    ///
    /// let refused = |number, lot| Refused { call: Call::Open, number, lot };
    /// assert_eq!(of(vec![1, 5], vec![0, 4], vec![0, 0]).unwrap_err(), refused(8, 1));
    /// assert_eq!(of(vec![1, 5], vec![0, 5], vec![0, 2]).unwrap_err(), refused(8, 1));
    /// assert_eq!(of(vec![1, 5], vec![0, 5], vec![1, 0]).unwrap_err(), refused(8, 0));
    /// assert_eq!(of(vec![1], vec![0, 5], vec![0, 0]).unwrap_err(), refused(3, 0));
    /// assert_eq!(of(vec![1, 5], vec![0, 5], vec![]).unwrap_err(), refused(3, 0));
    ///
    /// let one = Tree::new(vec![0], vec![0])?;
    /// let of = |times| Sheet::from_lists(one.clone(), Rule::Steep, times, vec![0], vec![0], vec![0]);
    /// assert_eq!(of(vec![1])?.frame(), Frame { width: 1, height: 1 });
    /// assert_eq!(of(vec![2]).unwrap_err(), refused(8, 0));
    /// # Ok::<(), Refused>(())
    /// ```
    pub fn from_lists(
        tree: Tree,
        rule: Rule,
        times: Vec<u32>,
        x: Vec<u32>,
        y: Vec<u32>,
        held: Vec<u32>,
    ) -> Result<Sheet, Refused> {
        Sheet::from_lists_in(tree, rule, Cabinet::Large, times, x, y, held)
    }

    /// The same on a cabinet: the small one refuses more than 1,024 lots with 20, and a place above 1,048,575 with 8.
    ///
    /// ```
    /// use lineage::{Cabinet, Rule, Sheet, Tree, SMALL_PLACE};
    ///
    /// let pair = Tree::new(vec![0, 0], vec![0, 0])?;
    /// let of = |at, cabinet| {
    ///     Sheet::from_lists_in(pair.clone(), Rule::Steep, cabinet, vec![1, at], vec![0, at], vec![0, at], vec![0, 0])
    /// };
    /// assert_eq!(of(SMALL_PLACE, Cabinet::Small)?.frame().width, SMALL_PLACE + 1);
    /// let refused = of(SMALL_PLACE + 1, Cabinet::Small).unwrap_err();
    /// assert_eq!((refused.number, refused.lot), (8, 1));
    /// assert!(of(SMALL_PLACE + 1, Cabinet::Large).is_ok());
    /// # Ok::<(), lineage::Refused>(())
    /// ```
    pub fn from_lists_in(
        tree: Tree,
        rule: Rule,
        cabinet: Cabinet,
        times: Vec<u32>,
        x: Vec<u32>,
        y: Vec<u32>,
        held: Vec<u32>,
    ) -> Result<Sheet, Refused> {
        let mut sheet = Sheet::unasked(tree, rule, cabinet, raw::Lists { times, x, y, held });
        if cabinet == Cabinet::Small {
            sheet.test()?;
        }
        sheet.find_frame()?;
        Ok(sheet)
    }

    /// A sheet that no call has been made on; the first one sets its frame.
    fn unasked(tree: Tree, rule: Rule, cabinet: Cabinet, lists: raw::Lists) -> Sheet {
        let work = vec![0; 4 * tree.lots()];
        Sheet { tree, rule, cabinet, lists, work, frame: Frame { width: 0, height: 0 } }
    }

    /// Refused where the lists are no sheet of the cabinet: it is asked for a lot that there is not, and says so, with
    /// 9, only of a sheet.
    fn test(&mut self) -> Result<(), Refused> {
        match self.stretch(Call::Open, self.cabinet.entries().lengthen, self.tree.lots() as u32, 0) {
            Err(refused) if refused.number != 9 => Err(refused),
            _ => Ok(()),
        }
    }

    /// Asks the large cabinet for no lengthen at all: the lists are tested, and the frame becomes what they say.
    fn find_frame(&mut self) -> Result<Frame, Refused> {
        self.ask_each(Call::Open, &[]).map_err(|stopped| stopped.refused)
    }

    /// Makes the edge of a lot longer by `count` times its slope; its whole subtree moves along, held lines too.
    ///
    /// Lengthens that are all accepted on a sheet are so in every other order, with the same sheet at the end. That
    /// this is so is proved.
    ///
    /// ```
    /// use lineage::{Rule, Sheet, Tree};
    ///
    /// let tree = Tree::new(vec![0, 0, 0, 1, 1], vec![0, 0, 1, 0, 1])?;
    /// let mut sheet = Sheet::new(tree, Rule::Balanced)?;
    /// let mut copy = sheet.clone();
    /// for (lot, count) in [(1, 2), (3, 1), (4, 5)] {
    ///     sheet.lengthen(lot, count)?;
    /// }
    /// for (lot, count) in [(4, 5), (1, 2), (3, 1)] {
    ///     copy.lengthen(lot, count)?;
    /// }
    /// assert!(sheet == copy && sheet.frame() == copy.frame());
    /// # Ok::<(), lineage::Refused>(())
    /// ```
    pub fn lengthen(&mut self, lot: u32, count: u32) -> Result<Frame, Refused> {
        self.stretch(Call::Lengthen, self.cabinet.entries().lengthen, lot, count)
    }

    /// Makes it shorter again, to at least one times its slope.
    pub fn shorten(&mut self, lot: u32, count: u32) -> Result<Frame, Refused> {
        self.stretch(Call::Shorten, self.cabinet.entries().shorten, lot, count)
    }

    fn stretch(&mut self, call: Call, make: raw::Stretch, lot: u32, count: u32) -> Result<Frame, Refused> {
        self.ask(call, |balanced, parent, rank, lists, work, reply| {
            make(balanced, parent, rank, lists, work, lot, count, reply)
        })
    }

    /// The count by which [`lengthen`](Sheet::lengthen) brings a lot to a column: its x is the column then. `None`
    /// where no count does: the column is left of the lot, the gap between them is no multiple of the slope's across
    /// part, some place would be beyond the cabinet's edge, or the line is held, also where the lot stands in the
    /// column already. Nothing moves.
    ///
    /// The small cabinet has no such call. The large one's count is the answer there where the small cabinet's own
    /// lengthen, tried on a copy, accepts it; otherwise it is `None`. That this is so is proved.
    ///
    /// ```
    /// use lineage::{Call, Refused, Rule, Sheet, Tree};
    ///
    /// let tree = Tree::new(vec![0, 0, 0, 1, 1], vec![0, 0, 1, 0, 1])?;
    /// let mut sheet = Sheet::new(tree, Rule::Balanced)?;
    /// assert_eq!(sheet.x(), [0, 3, 1, 6, 5]);
    /// assert_eq!(sheet.column(1, 3)?, Some(0));
    /// assert_eq!(sheet.column(1, 9)?, Some(2));
    /// assert_eq!(sheet.column(1, 8)?, None); // it goes 3 across
    /// assert_eq!(sheet.column(1, 0)?, None);
    /// assert_eq!(sheet.column(1, 2_147_483_646)?, None); // lot 3 would be beyond
    /// assert_eq!(sheet.column(0, 0), Err(Refused { call: Call::Column, number: 10, lot: 0 }));
    ///
    /// sheet.lengthen(1, 2)?;
    /// assert_eq!(sheet.x(), [0, 9, 1, 12, 11]);
    /// sheet.hold(1)?;
    /// assert_eq!(sheet.column(1, 9)?, None);
    /// # Ok::<(), Refused>(())
    /// ```
    pub fn column(&self, lot: u32, column: u32) -> Result<Option<u32>, Refused> {
        let Tree { parent, rank } = &self.tree;
        let (balanced, lists, mut work) = (self.rule.balanced(), self.lists.read(), vec![0; self.work.len()]);
        let (case, count, _) =
            asked(Call::Column, |reply| raw::column(balanced, parent, rank, lists, &mut work, lot, column, reply))?;
        let accepted = |&count: &u32| self.cabinet == Cabinet::Large || self.clone().lengthen(lot, count).is_ok();
        Ok((case == 1).then_some(count as u32).filter(accepted))
    }

    /// Lengthens a list of lots, each by its count, as [`lengthen`](Sheet::lengthen) called for one after another
    /// would; on the large cabinet in much less time, as the small one has no such call. It stops at the first that is
    /// refused: those before it stand.
    ///
    /// ```
    /// use lineage::{Call, Frame, Refused, Rule, Sheet, Stopped, Tree};
    ///
    /// let tree = Tree::new(vec![0, 0, 0, 1, 1], vec![0, 0, 1, 0, 1])?;
    /// let mut sheet = Sheet::new(tree, Rule::Steep)?;
    /// assert_eq!(sheet.lengthen_each(&[(1, 2), (3, 1)])?, Frame { width: 6, height: 12 });
    /// assert_eq!(sheet.times(), [1, 3, 1, 2, 1]);
    ///
    /// let refused = Refused { call: Call::Lengthen, number: 10, lot: 0 };
    /// assert_eq!(sheet.lengthen_each(&[(3, 4), (0, 1), (1, 1)]), Err(Stopped { place: 2, refused }));
    /// assert_eq!(sheet.times(), [1, 3, 1, 6, 1]);
    /// assert_eq!(sheet.frame(), Frame { width: 10, height: 16 });
    /// # Ok::<(), Box<dyn std::error::Error>>(())
    /// ```
    ///
    /// # Panics
    ///
    /// Never: the lists of a `Sheet` are a sheet, also after a list that stopped, and so have a frame.
    pub fn lengthen_each(&mut self, lengthens: &[(u32, u32)]) -> Result<Frame, Stopped> {
        if self.cabinet == Cabinet::Small {
            return self.lengthen_singly(lengthens);
        }
        self.ask_each(Call::Lengthen, lengthens).inspect_err(|_| {
            // those before the refused one stand, and its reply has no frame
            self.find_frame().expect("a sheet");
        })
    }

    fn lengthen_singly(&mut self, lengthens: &[(u32, u32)]) -> Result<Frame, Stopped> {
        for (place, &(lot, count)) in (1..).zip(lengthens) {
            self.lengthen(lot, count).map_err(|refused| Stopped { place, refused })?;
        }
        Ok(self.frame)
    }

    /// The same, for refusals at place 0 too.
    fn ask_each(&mut self, call: Call, lengthens: &[(u32, u32)]) -> Result<Frame, Stopped> {
        let (lots, counts): (Vec<u32>, Vec<u32>) = lengthens.iter().copied().unzip();
        let mut place = 0;
        let asked = self.ask(call, |balanced, parent, rank, lists, work, reply| {
            let mut four: raw::EachReply = [0; 4];
            let called = raw::lengthen_each(balanced, parent, rank, lists, work, &lots, &counts, &mut four);
            reply.copy_from_slice(&four[..3]);
            place = four[3] as usize;
            called
        });
        asked.map_err(|refused| Stopped { place, refused })
    }

    /// Holds the line of a lot: it keeps its length, and lengthen and shorten refuse it with 22, until it is freed. It
    /// still moves with the lots above it. A line that is held already may be held again.
    ///
    /// ```
    /// use lineage::{Call, Refused, Rule, Sheet, Tree};
    ///
    /// let tree = Tree::new(vec![0, 0, 0, 1, 1], vec![0, 0, 1, 0, 1])?;
    /// let mut sheet = Sheet::new(tree, Rule::Steep)?;
    /// sheet.hold(3)?;
    /// assert_eq!(sheet.held(), [0, 0, 0, 1, 0]);
    /// assert_eq!(sheet.lengthen(3, 0), Err(Refused { call: Call::Lengthen, number: 22, lot: 3 }));
    ///
    /// sheet.lengthen(1, 2)?;
    /// assert_eq!((sheet.times()[3], sheet.place(3)), (1, Some((4, 10))));
    ///
    /// sheet.free(3)?;
    /// sheet.lengthen(3, 1)?;
    /// assert_eq!(sheet.place(3), Some((5, 11)));
    /// # Ok::<(), Refused>(())
    /// ```
    pub fn hold(&mut self, lot: u32) -> Result<Frame, Refused> {
        self.set_held(lot, true)
    }

    /// Frees it again.
    pub fn free(&mut self, lot: u32) -> Result<Frame, Refused> {
        self.set_held(lot, false)
    }

    fn set_held(&mut self, lot: u32, hold: bool) -> Result<Frame, Refused> {
        self.ask(Call::Hold, |balanced, parent, rank, lists, work, reply| {
            raw::hold(balanced, parent, rank, lists, work, lot, hold, reply)
        })
    }

    /// Makes a call, which is lent the sheet; the frame that it answers is the sheet's then.
    fn ask(
        &mut self,
        call: Call,
        make: impl FnOnce(bool, &[u32], &[u32], raw::Lists<&mut [u32]>, &mut [u32], &mut [i64]) -> bool,
    ) -> Result<Frame, Refused> {
        let Tree { parent, rank } = &self.tree;
        let (balanced, lists, work) = (self.rule.balanced(), self.lists.lent(), &mut self.work);
        self.frame = framed(call, |reply| make(balanced, parent, rank, lists, work, reply))?;
        Ok(self.frame)
    }

    /// A direction along which the path from one lot to another rises.
    pub fn direction(&self, from: u32, to: u32) -> Result<Direction, Refused> {
        direction(&self.tree, self.rule, from, to)
    }

    /// What the check says of the sheet: never that it turns, which is proved.
    pub fn check(&self) -> Result<Verdict, Refused> {
        check(&self.tree, self.x(), self.y())
    }

    /// The tree that is drawn.
    pub fn tree(&self) -> &Tree {
        &self.tree
    }

    /// The rule that it is drawn under.
    pub fn rule(&self) -> Rule {
        self.rule
    }

    /// The cabinet that draws it.
    pub fn cabinet(&self) -> Cabinet {
        self.cabinet
    }

    /// The grid cells that it takes: the largest x plus 1 and the largest y plus 1.
    pub fn frame(&self) -> Frame {
        self.frame
    }

    /// How many times its slope each lot's edge is long.
    pub fn times(&self) -> &[u32] {
        &self.lists.times
    }

    /// Each lot's x.
    pub fn x(&self) -> &[u32] {
        &self.lists.x
    }

    /// Each lot's y.
    pub fn y(&self) -> &[u32] {
        &self.lists.y
    }

    /// 1 where the lot's line is held, otherwise 0.
    pub fn held(&self) -> &[u32] {
        &self.lists.held
    }

    /// The place of a lot; `None` where there is no such lot.
    pub fn place(&self, lot: u32) -> Option<(u32, u32)> {
        Some((*self.x().get(lot as usize)?, *self.y().get(lot as usize)?))
    }
}

impl PartialEq for Sheet {
    fn eq(&self, other: &Sheet) -> bool {
        // the frame follows from the places, what the work list holds means nothing, and a cabinet only sets limits
        (&self.tree, self.rule, &self.lists) == (&other.tree, other.rule, &other.lists)
    }
}

impl Eq for Sheet {}
