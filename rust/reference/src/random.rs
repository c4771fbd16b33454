//! Random tables, sheets, drawings and files, from a seed.

use crate::{accept_lists, places, Limits, Sheet};

/// A small generator (SplitMix64).
pub struct Random(u64);

impl Random {
    pub fn new(seed: u64) -> Random {
        Random(seed)
    }

    /// The seed in the environment variable LINEAGE_SEED, or one from the clock; printed.
    pub fn from_environment(test: &str) -> Random {
        let clock = std::time::SystemTime::now().duration_since(std::time::UNIX_EPOCH).unwrap();
        let given = std::env::var("LINEAGE_SEED").ok().map(|s| s.parse().expect("LINEAGE_SEED"));
        let seed = given.unwrap_or(clock.as_nanos() as u64);
        println!("{test}: LINEAGE_SEED={seed}");
        Random(seed)
    }

    /// 64 random bits.
    pub fn bits(&mut self) -> u64 {
        self.0 = self.0.wrapping_add(0x9e37_79b9_7f4a_7c15);
        let mut z = self.0;
        z = (z ^ (z >> 30)).wrapping_mul(0xbf58_476d_1ce4_e5b9);
        z = (z ^ (z >> 27)).wrapping_mul(0x94d0_49bb_1331_11eb);
        z ^ (z >> 31)
    }

    /// A number below n.
    pub fn below(&mut self, n: usize) -> usize {
        (self.bits() % n.max(1) as u64) as usize
    }

    /// Once in n times.
    pub fn once_in(&mut self, n: usize) -> bool {
        self.below(n) == 0
    }

    /// One of these.
    pub fn one_of<T: Copy>(&mut self, of: &[T]) -> T {
        of[self.below(of.len())]
    }

    /// A number of any size: often small, often at an edge.
    pub fn number(&mut self) -> u32 {
        match self.below(8) {
            0..=3 => self.below(12) as u32,
            4 => self.one_of(&[0, 1, 65_535, 65_536, 0xf_ffff, 0x10_0000, 0x7fff_ffff, 0x8000_0000, u32::MAX]),
            5 => self.bits() as u32,
            _ => (self.bits() as u32) >> self.below(32),
        }
    }

    /// A number of lots: small as a rule.
    pub fn lots(&mut self, most: usize) -> usize {
        let n = match self.below(40) {
            0 => 1,
            1 => 1 + self.below(most),
            2..=5 => 1 + self.below(most.min(40)),
            _ => 1 + self.below(most.min(10)),
        };
        n.min(most)
    }

    /// An accepted table of n lots: a chain, a star, or any tree, with the lots renumbered at random.
    pub fn table(&mut self, n: usize) -> (Vec<u32>, Vec<u32>) {
        let shape = self.below(5);
        let mut parent = vec![0; n];
        for (v, p) in parent.iter_mut().enumerate().skip(1) {
            *p = match shape {
                0 => v - 1,
                1 => 0,
                2 => (v - 1) / 2,
                3 => v - 1 - self.below(v.min(3)),
                _ => self.below(v),
            };
        }
        let mut name: Vec<usize> = (0..n).collect();
        if !self.once_in(4) {
            for v in (2..n).rev() {
                name.swap(v, 1 + self.below(v));
            }
        }
        let (mut parents, mut ranks) = (vec![0; n], vec![0; n]);
        let mut children = vec![Vec::new(); n];
        for v in 1..n {
            parents[name[v]] = name[parent[v]] as u32;
            children[parent[v]].push(name[v]);
        }
        for list in &mut children {
            for i in (1..list.len()).rev() {
                list.swap(i, self.below(i + 1));
            }
            for (r, &v) in list.iter().enumerate() {
                ranks[v] = r as u32;
            }
        }
        (parents, ranks)
    }

    /// Changes an entry or two of a list, mostly to numbers below `about`.
    pub fn damage(&mut self, list: &mut [u32], about: usize) {
        if list.is_empty() {
            return;
        }
        for _ in 0..1 + self.below(2) {
            let i = self.below(list.len());
            list[i] = match self.below(4) {
                0 => self.number(),
                1 => list[i].wrapping_add(1),
                2 => list[i].wrapping_sub(1),
                _ => self.below(about + 1) as u32,
            };
        }
    }

    /// Another length for a list.
    pub fn cut(&mut self, list: &mut Vec<u32>) {
        match self.below(3) {
            0 => list.push(7),
            1 => drop(list.pop()),
            _ => list.truncate(self.below(list.len() + 1)),
        }
    }

    /// A table that may be damaged.
    pub fn any_table(&mut self, most: usize) -> (Vec<u32>, Vec<u32>) {
        let n = self.lots(most);
        let (mut parent, mut rank) = self.table(n);
        match self.below(6) {
            0 => self.damage(&mut parent, n),
            1 => self.damage(&mut rank, n),
            2 if self.once_in(3) => {
                self.damage(&mut parent, n);
                self.damage(&mut rank, n);
            }
            3 if self.once_in(6) => {
                parent.clear();
                rank.clear();
            }
            _ => {}
        }
        (parent, rank)
    }

    /// Numbers of any size.
    pub fn list(&mut self, n: usize) -> Vec<u32> {
        (0..n).map(|_| self.number()).collect()
    }

    /// Which lines are held: none, some or most, and now and then an entry that no sheet has.
    fn held(&mut self, n: usize) -> Vec<u32> {
        let eighths = self.one_of(&[0, 1, 4, 7]);
        let mut held: Vec<u32> = (0..n).map(|v| u32::from(v > 0 && self.below(8) < eighths)).collect();
        if self.once_in(15) {
            let v = if self.once_in(3) { 0 } else { self.below(n) };
            held[v] = self.one_of(&[1, 2, 3, u32::MAX]);
        }
        held
    }

    /// A sheet of an accepted table with random times, which may break the limit, or else any lists.
    pub fn sheet(&mut self, balanced: bool, parent: &[u32], rank: &[u32]) -> Sheet {
        let n = parent.len();
        let any = Sheet::made(|| self.list(n));
        if n == 0 || rank.len() != n || self.once_in(12) {
            return any;
        }
        let Ok(tree) = accept_lists(parent, rank) else { return any };
        let most = self.one_of(&[1, 2, 5, 1000, 50_000, 100_000_000]);
        let mut times: Vec<u32> = (0..n).map(|_| 1 + self.below(most) as u32).collect();
        times[0] = 1;
        if self.once_in(20) {
            self.damage(&mut times, 2);
        }
        let places = places(&tree, &tree.slopes(balanced), &times);
        let x = places.iter().map(|p| p.0 as u32).collect();
        let y = places.iter().map(|p| p.1 as u32).collect();
        let mut sheet = Sheet { times, x, y, held: self.held(n) };
        match self.below(12) {
            0 => self.damage(&mut sheet.times, 3),
            1 => self.damage(&mut sheet.x, 9),
            2 => self.damage(&mut sheet.y, 9),
            _ => {}
        }
        sheet
    }

    /// A coordinate of a drawing of n lots: near together, so that lots coincide and edges are opposite or on one line,
    /// far apart, or beyond the limit.
    pub fn coordinate(&mut self, n: usize) -> Vec<u32> {
        let kind = self.below(8);
        let mut list: Vec<u32> = (0..n)
            .map(|v| match kind {
                0 => self.below(2) as u32,
                1 => self.below(4) as u32,
                2 => self.below(20) as u32,
                3 => 2 * v as u32,
                4 => self.one_of(&[0, 1, 0x7fff_fffe, 0x7fff_ffff]),
                5 => self.bits() as u32 >> 1,
                6 => 0x7fff_ffff - v as u32,
                _ => 5,
            })
            .collect();
        if self.once_in(16) {
            self.damage(&mut list, 4);
        }
        list
    }

    /// A count for a lengthen or a shorten.
    pub fn count(&mut self, limits: Limits, s: &Sheet, slope: (i128, i128)) -> u32 {
        let room = |list: &[u32], step: i128| {
            let most = list.iter().max().copied().unwrap_or(0) as i128;
            (limits.place - most) / step.max(1)
        };
        match self.below(5) {
            0 => self.number(),
            1 => {
                let fits = room(&s.x, slope.0).min(room(&s.y, slope.1));
                (fits + self.below(3) as i128 - 1).clamp(0, u32::MAX as i128) as u32
            }
            _ => self.below(5) as u32,
        }
    }
}
