//! The checks of the unproved run: a feed and an instruction list.

use super::load::packed;
use super::words::key;

/// What a label's count word is raised by where the label is two-way.
const MARK: u32 = 32_768;

/// Whether a table of the feed is a two-way label.
pub fn two_way(feed: &[u32], table: usize) -> bool {
    table >= feed[0] as usize && feed[2 + table] >= MARK
}

/// How many pairs a table of the feed has.
pub fn size(feed: &[u32], table: usize) -> usize {
    (feed[2 + table] - if two_way(feed, table) { MARK } else { 0 }) as usize
}

/// Refusals 1 to 4.
pub fn check_feed(feed: &[u32]) -> (u32, u32) {
    if feed.len() < 2 {
        return (1, 0);
    }
    if feed[0] > 32 {
        return (2, 0);
    }
    if feed[1] > 64 {
        return (2, 1);
    }
    let (classes, head) = (feed[0] as usize, 2 + (feed[0] + feed[1]) as usize);
    if feed.len() < head {
        return (1, 0);
    }
    let tables = head - 2;
    if let Some(k) = (0..tables).find(|&k| size(feed, k) > 4096) {
        return (2, 2 + k as u32);
    }
    let pairs: usize = (0..tables).map(|k| size(feed, k)).sum();
    if feed.len() != head + 2 * pairs {
        return (1, 0);
    }
    let mut at = head;
    for k in 0..tables {
        let words = 2 * size(feed, k);
        let table = &feed[at..at + words];
        if !(if k < classes { is_class(table) } else { is_label(table) }) {
            return first_wrong(table, at, k < classes);
        }
        at += words;
    }
    (0, 0)
}

/// Whether every pair of a table is one of objects, is as it should be, and is below the next: passes that never stop, so that several pairs are
/// looked at at once.
#[inline(always)]
fn is_table(table: &[u32], is_right: impl Fn(&[u32]) -> bool) -> bool {
    let pairs = table.chunks_exact(2);
    let each = pairs.clone().fold(true, |all, p| all & (p[0] | p[1] <= 65_535) & is_right(p));
    // of objects packed pairs ascend as pairs do
    let ascending = |p: &[u32], q: &[u32]| packed((p[0], p[1])) < packed((q[0], q[1]));
    each & pairs.clone().zip(pairs.skip(1)).fold(true, |all, (p, q)| all & ascending(p, q))
}

fn is_label(table: &[u32]) -> bool {
    is_table(table, |_| true)
}

fn is_class(table: &[u32]) -> bool {
    is_table(table, |p| p[0] == p[1])
}

/// The refusal of a table that stands at a word of the feed and is not as it must be: 3 or 4.
#[cold]
fn first_wrong(table: &[u32], start: usize, class: bool) -> (u32, u32) {
    let mut least = 0;
    for (p, place) in table.chunks_exact(2).zip((start as u32..).step_by(2)) {
        let x = key((p[0], p[1]));
        if p[0] > 65_535 || p[1] > 65_535 || x < least {
            return (3, place);
        }
        if class && p[0] != p[1] {
            return (4, place);
        }
        least = x + 1;
    }
    unreachable!("a pair of the table is wrong")
}

/// Refusals 8, 9, 16 and 17.
pub fn check_list(feed: &[u32], list: &[u32]) -> (u32, u32) {
    if list.is_empty() || list.len() > 3 * 1024 || list.len() % 3 != 0 {
        return (8, 0);
    }
    for (i, w) in list.chunks_exact(3).enumerate() {
        let i = i as u32;
        let valid = match w[0] {
            0 => w[1] < feed[0] && w[2] == 0,
            1 => w[1] < feed[1] && w[2] == 0,
            2 | 7 | 8 | 9 | 11 | 12 | 13 => w[1] < i && w[2] == 0,
            3 | 4 | 5 | 6 | 10 => w[1] < i && w[2] < i,
            14 | 15 => w[1] < i,
            _ => false,
        };
        if !valid {
            return refusal(feed, i, w);
        }
    }
    (0, 0)
}

/// What is wrong in instruction i, which is not valid, and at which word of the list.
#[cold]
fn refusal(feed: &[u32], i: u32, w: &[u32]) -> (u32, u32) {
    let ceiling = match w[0] {
        0 => feed[0],
        1 => feed[1],
        2..=15 => i,
        _ => return (9, 3 * i),
    };
    if w[1] >= ceiling {
        return (16, 3 * i + 1);
    }
    // so it is b: an operand of these kinds, unused in the others
    match w[0] {
        3 | 4 | 5 | 6 | 10 => (16, 3 * i + 2),
        _ => (17, 3 * i + 2),
    }
}
