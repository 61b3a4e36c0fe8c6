//! Wrong readings of document 02's E5. Each gives its own answers beside the right ones; a test over many cases must tell each from the right one by
//! some verdict or slice.

use crate::living::{operands, padded, Trace};
use crate::model::{Table, Verdict, ACCEPTED};
use crate::Tally;

const MISREADINGS: [&str; 11] = [
    "an unused word is a use",
    "a class or label number is a use",
    "a value is a use",
    "an operand is gone at its last use",
    "an operand named twice counts twice",
    "an unused register stays",
    "every register stays",
    "the result does not count",
    "after a stop, what would die there is gone",
    "only the last register stays",
    "a replaced path stays",
];

/// Those that bare lists can tell.
pub const OF_LISTS: [usize; 9] = [0, 1, 2, 3, 4, 5, 6, 7, 8];
/// Those that queries can tell: no translation names an operand twice.
pub const OF_QUERIES: [usize; 10] = [0, 1, 2, 3, 5, 6, 7, 8, 9, 10];

/// The instruction works on register r.
fn uses(misreading: usize, w: &[u32], r: usize) -> bool {
    let word = match (misreading, w[0]) {
        (0, 0..=2 | 7..=9 | 11..=13) | (2, 14 | 15) => Some(w[2]),
        (1, 0 | 1) => Some(w[1]),
        _ => None,
    };
    operands(w).iter().copied().chain(word).any(|used| used as usize == r)
}

/// A list, and what is to stay to its end.
struct Misread<'a> {
    misreading: usize,
    trace: &'a Trace,
    roots: Vec<u32>,
}

impl Misread<'_> {
    fn is_used(&self, r: usize, from: usize) -> bool {
        self.trace.list[3 * from..].chunks(3).any(|w| uses(self.misreading, w, r))
    }

    fn is_root(&self, r: usize) -> bool {
        self.roots.contains(&(r as u32))
    }

    /// The registers that live before instruction i, or after the last.
    fn living(&self, i: usize) -> Vec<usize> {
        let ends = self.trace.list.len() / 3;
        let lives = |r: usize| match self.misreading {
            3 => self.is_used(r, (i + 1).min(ends)),
            5 => self.is_used(r, i) || !self.is_used(r, 0),
            6 => true,
            _ => self.is_used(r, i),
        };
        (0..i).filter(|&r| self.is_root(r) || lives(r)).collect()
    }

    fn size(&self, r: usize) -> usize {
        self.trace.tables[r].len()
    }

    /// What 10 is judged by at instruction i.
    fn pairs(&self, i: usize) -> usize {
        let twice = match operands(&self.trace.list[3 * i..3 * i + 3]) {
            [a, b] if self.misreading == 4 && a == b => self.size(*a as usize),
            _ => 0,
        };
        let own = if self.misreading == 7 { 0 } else { self.size(i) };
        self.living(i).iter().map(|&r| self.size(r)).sum::<usize>() + twice + own
    }

    /// Verdict and slice with so many words.
    fn end(&self, words: usize) -> (Verdict, Vec<u32>) {
        let stop = (0..self.trace.tables.len()).find(|&i| self.size(i) > 65_536 || self.pairs(i) > words / 2);
        let end = stop.unwrap_or(self.trace.tables.len());
        let dies = |r: usize| self.misreading == 8 && stop.is_some() && !self.is_root(r) && !self.is_used(r, end + 1);
        let standing: Vec<&Table> = self.living(end).into_iter().filter(|&r| !dies(r)).map(|r| &self.trace.tables[r]).collect();
        let verdict = stop.map_or(ACCEPTED, |i| (if self.size(i) > 65_536 { 11 } else { 10 }, i as u32));
        (verdict, padded(&standing, words))
    }
}

/// How often each was told from the right reading.
#[derive(Default)]
pub struct Told([usize; MISREADINGS.len()]);

impl Told {
    /// A run with so many words; these paths were replaced.
    pub fn note(&mut self, trace: &Trace, replaced: &[u32], words: usize) {
        let right = trace.end(words);
        for (misreading, told) in self.0.iter_mut().enumerate() {
            let roots = match misreading {
                9 => vec![trace.list.len() as u32 / 3 - 1],
                10 => [&trace.roots, replaced].concat(),
                _ => trace.roots.clone(),
            };
            *told += (Misread { misreading, trace, roots }.end(words) != right) as usize;
        }
    }

    /// Each of these was told at least once.
    pub fn show(&self, tally: &mut Tally, what: &str, misreadings: &[usize]) {
        let (names, counts): (Vec<String>, Vec<usize>) = misreadings.iter().map(|&k| (MISREADINGS[k].to_string(), self.0[k])).unzip();
        tally.met_by_name(&format!("{what}, misreadings told"), &names, &counts);
    }
}
