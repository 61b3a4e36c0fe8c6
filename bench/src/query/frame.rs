//! Frames: regions on a grid, their classes and labelled pairs. The same number of regions always gives the same frame.

use crate::random::Random;
use std::collections::BTreeSet;

pub const CLASSES: [&str; 6] = ["region", "cap", "neck", "body", "rim", "floor"];
pub const REGION: usize = 0;
pub const CAP: usize = 1;
pub const NECK: usize = 2;
pub const BODY: usize = 3;
pub const RIM: usize = 4;
pub const FLOOR: usize = 5;

pub const LABELS: [&str; 3] = ["touch", "above", "covers"];
pub const TOUCH: usize = 0;
pub const ABOVE: usize = 1;
pub const COVERS: usize = 2;

/// The frames of the bench, by their regions.
pub const SIZES: [usize; 4] = [50, 500, 1_300, 4_000];

/// A table of a feed holds so many pairs.
const CEILING: usize = 4096;

type Pairs = BTreeSet<(u32, u32)>;

pub struct Frame {
    pub regions: usize,
    pub classes: Vec<Vec<u32>>,
    pub labels: Vec<Vec<(u32, u32)>>,
    /// touching pairs stand in both directions
    pub both: bool,
    /// neighbours of a region, on average
    pub neighbours: f64,
    /// the cap of the bottle that was placed first; 0 where there is none
    pub known_cap: u32,
    pub feed: Vec<u32>,
}

/// Numbers for the regions of a frame, other than from 0 on, row by row; the same in every run.
#[derive(Clone, Copy)]
pub enum Numbers {
    /// the same numbers in chance order
    Shuffled,
    /// chance numbers up to 65,535, in the same order
    Spread,
}

impl Numbers {
    /// The number of each of so many regions.
    fn of(self, regions: usize) -> Vec<u32> {
        let mut r = Random::new(regions as u64);
        match self {
            Numbers::Shuffled => {
                let mut numbers: Vec<u32> = (0..regions as u32).collect();
                (1..regions).rev().for_each(|i| numbers.swap(i, r.below(i + 1)));
                numbers
            }
            Numbers::Spread => {
                let mut numbers = BTreeSet::new();
                while numbers.len() < regions {
                    numbers.insert(r.below(65_536) as u32);
                }
                numbers.into_iter().collect()
            }
        }
    }
}

fn sorted<T: Ord>(items: impl Iterator<Item = T>) -> Vec<T> {
    let mut items: Vec<T> = items.collect();
    items.sort_unstable();
    items
}

/// A frame as it is laid out: region k stands in column k mod width, row k / width.
struct Layout {
    regions: usize,
    width: usize,
    classes: Vec<BTreeSet<u32>>,
    /// each touching pair once, the lower number first: the one that is further left or further up
    touching: Pairs,
    covers: Pairs,
    planted: Vec<bool>,
    /// the cap of the first bottle
    known_cap: Option<usize>,
}

impl Layout {
    fn new(regions: usize) -> Self {
        let mut classes = vec![BTreeSet::new(); CLASSES.len()];
        classes[REGION] = (0..regions as u32).collect();
        let width = (1..).find(|w| w * w >= regions).unwrap_or(1);
        Layout { regions, width, classes, touching: Pairs::new(), covers: Pairs::new(), planted: vec![false; regions], known_cap: None }
    }

    /// The region so many columns to the right and rows below, if there is one.
    fn from(&self, k: usize, right: usize, below: usize) -> Option<usize> {
        let other = k + right + below * self.width;
        (k % self.width + right < self.width && other < self.regions).then_some(other)
    }

    /// Gives these regions their classes, if all are there and none is part of anything yet.
    fn plant(&mut self, parts: &[(Option<usize>, usize)]) -> bool {
        if parts.iter().any(|part| part.0.is_none_or(|k| self.planted[k])) {
            return false;
        }
        for &(k, class) in parts {
            let k = k.unwrap_or_default();
            self.planted[k] = true;
            self.classes[class].insert(k as u32);
        }
        true
    }

    fn covered(&mut self, outer: usize, inner: usize) {
        self.touching.insert((outer.min(inner) as u32, outer.max(inner) as u32));
        self.covers.insert((outer as u32, inner as u32));
    }

    /// A cap over a neck over a body; the cap covers the neck.
    fn bottle(&mut self, k: usize) -> bool {
        let (neck, body) = (self.from(k, 0, 1), self.from(k, 0, 2));
        let done = self.plant(&[(Some(k), CAP), (neck, NECK), (body, BODY)]);
        if let (true, Some(neck), Some(body)) = (done, neck, body) {
            self.covered(k, neck);
            self.touching.insert((neck as u32, body as u32));
            self.known_cap.get_or_insert(k);
        }
        done
    }

    /// Three rims that cover a floor.
    fn tray(&mut self, k: usize) -> bool {
        let (right, below, floor) = (self.from(k, 1, 0), self.from(k, 0, 1), self.from(k, 1, 1));
        let done = self.plant(&[(Some(k), RIM), (right, RIM), (below, RIM), (floor, FLOOR)]);
        if let (true, Some(right), Some(below), Some(floor)) = (done, right, below, floor) {
            [k, right, below].into_iter().for_each(|rim| self.covered(rim, floor));
        }
        done
    }

    /// Bottles, trays, and single regions of the same classes.
    fn fill(&mut self, r: &mut Random) {
        for (count, plant) in
            [(self.regions / 40 + 1, Layout::bottle as fn(&mut Layout, usize) -> bool), (self.regions / 80 + 1, Layout::tray)]
        {
            let mut left = count;
            while left > 0 {
                let k = r.below(self.regions);
                left -= plant(self, k) as usize;
            }
        }
        for k in (0..self.regions).filter(|&k| !self.planted[k]) {
            for (class, often) in [(CAP, 40), (NECK, 40), (BODY, 16), (RIM, 60), (FLOOR, 40)] {
                if r.one_in(often) {
                    self.classes[class].insert(k as u32);
                }
            }
        }
    }

    /// Touching pairs at random, up to so many: with the region on the right, below, or below on the right.
    fn touch(&mut self, r: &mut Random, most: usize) {
        while self.touching.len() < most {
            let k = r.below(self.regions);
            let (right, below) = [(1, 0), (0, 1), (1, 0), (0, 1), (1, 1)][r.below(5)];
            if let Some(other) = self.from(k, right, below) {
                self.touching.insert((k as u32, other as u32));
            }
        }
    }

    /// One of eight touching pairs: one region covers the other.
    fn cover(&mut self, r: &mut Random) {
        for &(k, other) in &self.touching {
            if r.one_in(8) {
                self.covers.insert(if r.one_in(2) { (k, other) } else { (other, k) });
            }
        }
    }
}

impl Frame {
    /// No regions: every table is empty.
    pub fn empty() -> Self {
        Frame::of(Layout::new(0), true)
    }

    pub fn new(regions: usize) -> Self {
        let mut r = Random::new(regions as u64);
        let mut layout = Layout::new(regions);
        let (pairs, both) = (regions * 3 / 2, regions * 3 <= CEILING);
        layout.fill(&mut r);
        layout.touch(&mut r, pairs.min(CEILING));
        layout.cover(&mut r);
        Frame::of(layout, both)
    }

    fn of(layout: Layout, both: bool) -> Self {
        let above = layout.touching.iter().filter(|p| (p.1 - p.0) as usize == layout.width).copied().collect();
        let neighbours = 2.0 * layout.touching.len() as f64 / layout.regions as f64;
        let known_cap = layout.known_cap.unwrap_or(0) as u32;
        let mut touch = layout.touching;
        if both {
            touch.extend(touch.clone().into_iter().map(|(u, v)| (v, u)));
        }
        let labels: Vec<Vec<_>> = [touch, above, layout.covers].into_iter().map(|t: Pairs| t.into_iter().collect()).collect();
        let classes: Vec<Vec<u32>> = layout.classes.into_iter().map(|c| c.into_iter().collect()).collect();
        assert!(classes.iter().map(Vec::len).chain(labels.iter().map(Vec::len)).all(|n| n <= CEILING), "a table is over its ceiling");
        let feed = words(&classes, &labels, None);
        Frame { regions: layout.regions, classes, labels, both, neighbours, known_cap, feed }
    }

    /// The same frame with its objects numbered anew.
    pub fn numbered(&self, numbers: Numbers) -> Self {
        let to = numbers.of(self.regions);
        let classes: Vec<Vec<u32>> = self.classes.iter().map(|c| sorted(c.iter().map(|&u| to[u as usize]))).collect();
        let labels: Vec<Vec<_>> = self.labels.iter().map(|t| sorted(t.iter().map(|&(u, v)| (to[u as usize], to[v as usize])))).collect();
        let known_cap = to[self.known_cap as usize];
        let feed = words(&classes, &labels, None);
        Frame { classes, labels, known_cap, feed, ..*self }
    }

    /// The feed of the same frame in which `touch` is two-way, and has each touching pair once, in chance order.
    pub fn stored_once(&self) -> Vec<u32> {
        let mut r = Random::new(self.regions as u64);
        let pairs = self.labels[TOUCH].iter().filter(|(u, v)| u < v);
        let touch: Pairs = pairs.map(|&(u, v)| if r.one_in(2) { (u, v) } else { (v, u) }).collect();
        let mut labels = self.labels.clone();
        labels[TOUCH] = touch.into_iter().collect();
        words(&self.classes, &labels, Some(TOUCH))
    }
}

/// The words of a feed; the count word of a two-way label is raised by 32,768.
fn words(classes: &[Vec<u32>], labels: &[Vec<(u32, u32)>], two_way: Option<usize>) -> Vec<u32> {
    let mark = |label: usize| if two_way == Some(label) { 32_768 } else { 0 };
    let mut feed = vec![classes.len() as u32, labels.len() as u32];
    feed.extend(classes.iter().map(|c| c.len() as u32));
    feed.extend(labels.iter().enumerate().map(|(k, t)| t.len() as u32 + mark(k)));
    feed.extend(classes.iter().flatten().flat_map(|&u| [u, u]));
    feed.extend(labels.iter().flatten().flat_map(|&(u, v)| [u, v]));
    feed
}
