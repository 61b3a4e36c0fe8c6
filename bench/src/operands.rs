//! Operands of any size. A table of a feed holds at most 4,096 pairs, so a larger one is loaded in parts and united.

use crate::random::Random;
use std::collections::BTreeSet;

pub type Pairs = Vec<(u32, u32)>;

/// A feed and an instruction list as they are built up.
#[derive(Default)]
pub struct Program {
    classes: Vec<Pairs>,
    labels: Vec<Pairs>,
    /// the labels that are two-way
    two_way: BTreeSet<usize>,
    pub list: Vec<u32>,
}

/// What a label's count word is raised by where the label is two-way.
const MARK: u32 = 32_768;

impl Program {
    /// One instruction more; gives its register.
    pub fn then(&mut self, kind: u32, a: u32, b: u32) -> u32 {
        self.list.extend([kind, a, b]);
        self.list.len() as u32 / 3 - 1
    }

    /// A class of the feed, not loaded.
    pub fn class(&mut self, objects: impl Iterator<Item = u32>) -> u32 {
        self.classes.push(objects.map(|u| (u, u)).collect());
        self.classes.len() as u32 - 1
    }

    /// A label of the feed, not loaded.
    pub fn label(&mut self, pairs: Pairs) -> u32 {
        self.labels.push(pairs);
        self.labels.len() as u32 - 1
    }

    /// A two-way label of the feed, not loaded.
    pub fn two_way(&mut self, pairs: Pairs) -> u32 {
        self.two_way.insert(self.labels.len());
        self.label(pairs)
    }

    /// A register that holds these pairs, which ascend.
    pub fn table(&mut self, pairs: &[(u32, u32)]) -> u32 {
        if pairs.len() <= 4096 {
            let label = self.label(pairs.to_vec());
            return self.then(1, label, 0);
        }
        let parts = pairs.len().div_ceil(4096);
        let (low, high) = pairs.split_at(parts / 2 * 4096);
        let (a, b) = (self.table(low), self.table(high));
        self.then(5, a, b)
    }

    pub fn feed(&self) -> Vec<u32> {
        let mark = |k: usize| if self.two_way.contains(&k) { MARK } else { 0 };
        let mut feed = vec![self.classes.len() as u32, self.labels.len() as u32];
        feed.extend(self.classes.iter().map(|t| t.len() as u32));
        feed.extend(self.labels.iter().enumerate().map(|(k, t)| t.len() as u32 + mark(k)));
        feed.extend(self.classes.iter().chain(&self.labels).flatten().flat_map(|&(u, v)| [u, v]));
        feed
    }
}

/// So many different pairs, ascending.
pub fn pairs(n: usize, mut draw: impl FnMut() -> (u32, u32)) -> Pairs {
    let mut set = BTreeSet::new();
    while set.len() < n {
        set.insert(draw());
    }
    set.into_iter().collect()
}

/// The objects of an ordinary table of n pairs.
pub fn objects(n: usize) -> usize {
    (n / 4).max(40)
}

/// n pairs over about n / 4 objects, at random: some four pairs for each left value and each right value.
pub fn ordinary(r: &mut Random, n: usize) -> Pairs {
    over(r, n, objects(n))
}

/// n pairs over so many objects, at random.
pub fn over(r: &mut Random, n: usize, objects: usize) -> Pairs {
    pairs(n, || (r.below(objects) as u32, r.below(objects) as u32))
}

/// The numbers below n in random order.
pub fn shuffled(r: &mut Random, n: usize) -> Vec<u32> {
    let mut all: Vec<u32> = (0..n as u32).collect();
    for i in (1..n).rev() {
        all.swap(i, r.below(i + 1));
    }
    all
}

/// n different numbers up to 65,535, ascending, with gaps between them.
pub fn spread(r: &mut Random, n: usize) -> Vec<u32> {
    let mut set = BTreeSet::new();
    while set.len() < n {
        set.insert(r.below(65_536) as u32);
    }
    set.into_iter().collect()
}

/// The same pairs with other numbers, which ascend.
pub fn renumbered(pairs: &[(u32, u32)], to: &[u32]) -> Pairs {
    pairs.iter().map(|&(u, v)| (to[u as usize], to[v as usize])).collect()
}
