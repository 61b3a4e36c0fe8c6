//! The run of instruction lists against the model: number, place and every word of the work slice.

use crate::cases;
use crate::checks::{twice_damaged, Causes};
use crate::examples;
use crate::living::{operands, padded, Trace};
use crate::model;
use crate::random::Random;
use crate::reuse::all_registers;
use crate::{said, Tally};
use std::collections::BTreeSet;

/// Words on both sides of the lent slice, which must stay as they are.
const GUARD: usize = 3;

/// What stands in the slice before a call.
fn pattern(i: usize) -> u32 {
    0x5eed_0001_u32.wrapping_add((i as u32).wrapping_mul(0x9e37_79b1))
}

/// One call with a slice of so many words. `expected` gives the verdict and the words afterwards from the words before. Gives the verdict that it found.
pub fn compare(
    tally: &mut Tally,
    what: &str,
    feed: &[u32],
    list: &[u32],
    words: usize,
    expected: impl FnOnce(&[u32]) -> (model::Verdict, Vec<u32>),
) -> model::Verdict {
    let mut wanted: Vec<u32> = (0..words + 2 * GUARD).map(pattern).collect();
    let mut lent = wanted.clone();
    let (verdict, after) = expected(&wanted[GUARD..GUARD + words]);
    wanted[GUARD..GUARD + words].copy_from_slice(&after);
    let found = said(&matcher::run(feed, list, &mut lent[GUARD..GUARD + words]));
    tally.same(what, &found, &verdict, list);
    let other = lent.iter().zip(&wanted).position(|(x, y)| x != y).map(|at| (at as isize - GUARD as isize, lent[at], wanted[at]));
    tally.same(&format!("{what}, {words} words: place, found, expected"), &other, &None, list);
    found
}

/// "the run of the bare list cut after it, on the same feed and slice, is accepted and leaves just that register in the slice" (document 02, E5).
pub fn cut(tally: &mut Tally, what: &str, feed: &[u32], trace: &Trace, i: usize, words: usize) {
    let register = || padded(&[&trace.tables[i]], words);
    let verdict = compare(tally, &format!("{what}, cut"), feed, &trace.list[..3 * (i + 1)], words, |_| (model::ACCEPTED, register()));
    tally.same(&format!("{what}, cut behind {i}"), &verdict, &model::ACCEPTED, &trace.list);
}

/// A call whose verdict and registers are known: the slice then holds these pairs, then zeros.
pub fn check(tally: &mut Tally, what: &str, feed: &[u32], list: &[u32], words: usize, verdict: model::Verdict, pairs: &[(u32, u32)]) {
    compare(tally, what, feed, list, words, |_| {
        let mut after: Vec<u32> = pairs.iter().flat_map(|&(u, v)| [u, v]).collect();
        after.resize(words, 0);
        (verdict, after)
    });
}

/// The registers of a list that passes its check; none where it does not.
fn trace(feed: &[u32], list: &[u32]) -> Trace {
    match model::check_list(feed, list) {
        model::ACCEPTED => Trace::bare(&model::read_feed(feed), list),
        _ => Trace::default(),
    }
}

const LENGTHS: [&str; 9] =
    ["exact", "exact less one", "exact less two", "exact and one", "at an instruction", "short", "none", "long", "for all registers"];

/// A length of the work slice, of one of nine sorts: about what the run needs, and what all registers together take.
fn length(r: &mut Random, trace: &Trace, sort: usize) -> usize {
    let exact = trace.peak(usize::MAX);
    match sort {
        0 => exact,
        1 => exact.saturating_sub(1),
        2 => exact.saturating_sub(2),
        3 => exact + 1,
        // what some instruction needs, or a word less or more
        4 => (2 * trace.pairs.get(r.below(trace.pairs.len())).copied().unwrap_or(0) + r.below(3)).saturating_sub(1),
        5 => r.below(exact + 1),
        6 => 0,
        7 => exact + 2 + r.below(60),
        _ => all_registers(trace),
    }
}

/// Why a list is refused with 9 (the first), with 16, and with 17 (the last).
pub const REASONS: [&str; 6] = ["unknown kind", "class absent", "label absent", "a not earlier", "b not earlier", "unused word not 0"];

/// What the runs of a test met.
#[derive(Default)]
struct Met {
    numbers: [usize; 18],
    lengths: [usize; LENGTHS.len()],
    reasons: [usize; 6],
    /// by kind: registers with some pairs that were seen in a slice, runs stopped there by 10 and by 11
    seen: [usize; 16],
    full: [usize; 16],
    large: [usize; 16],
    /// 11 where there was no room for 65,537 pairs; 10 before an instruction that would be 11
    large_and_full: usize,
    full_then_large: usize,
}

impl Met {
    /// A register that was compared.
    fn see(&mut self, trace: &Trace, r: usize) {
        self.seen[trace.list[3 * r] as usize] += !trace.tables[r].is_empty() as usize;
    }

    /// The same list cut behind some of the instructions that it gets past.
    fn cuts(&mut self, tally: &mut Tally, r: &mut Random, what: &str, feed: &[u32], trace: &Trace, words: usize, times: usize) {
        let finished = trace.finished(words);
        for _ in 0..times.min(finished) {
            let i = r.below(finished);
            cut(tally, what, feed, trace, i, words);
            self.see(trace, i);
        }
    }

    /// A run of a list that passed its check.
    fn note(&mut self, list: &[u32], trace: &Trace, words: usize) {
        let (verdict, finished) = (trace.verdict(words), trace.finished(words));
        trace.living(finished).into_iter().for_each(|r| self.see(trace, r));
        let kind = list.get(3 * finished).map_or(0, |&kind| kind as usize);
        match verdict.0 {
            10 => self.full[kind] += 1,
            11 => self.large[kind] += 1,
            _ => {}
        }
        let over = trace.tables.last().map_or(false, |t| t.len() > 65_536);
        self.large_and_full += (verdict.0 == 11 && words / 2 < trace.pairs[finished]) as usize;
        self.full_then_large += (verdict.0 == 10 && over) as usize;
    }

    fn show(&self, tally: &mut Tally, what: &str, numbers: &[usize], large: &[usize]) {
        tally.met_of(&format!("{what} by number"), &self.numbers, numbers);
        tally.met(&format!("{what}: registers with pairs, by kind"), &self.seen);
        tally.met(&format!("{what}: stopped by 10, by kind"), &self.full);
        tally.met_of(&format!("{what}: stopped by 11, by kind"), &self.large, large);
        println!("{what}: 11 without room {}, 10 before an 11 {}", self.large_and_full, self.full_then_large);
        tally.covers(what, self.large_and_full > 0 && self.full_then_large > 0);
    }

    /// Every 9, 16 and 17 has its reason, and every reason was met.
    fn show_reasons(&self, tally: &mut Tally, what: &str) {
        let refused: usize = [9, 16, 17].iter().map(|&number| self.numbers[number]).sum();
        tally.same(&format!("{what}: 9, 16 and 17 with a reason"), &self.reasons.iter().sum(), &refused, &[]);
        tally.met_by_name(&format!("{what}: reasons for 9, 16 and 17"), &REASONS.map(String::from), &self.reasons);
    }
}

/// A list that passes its check over this feed where the feed has tables: made blindly, made to live, made to grow, or translated.
fn some_list(r: &mut Random, feed: &[u32]) -> Vec<u32> {
    if feed[0] == 0 || feed[1] == 0 {
        return cases::list(r, feed, 14);
    }
    match r.below(60) {
        0 | 1 => cases::growing_list(r, feed),
        2..=30 => cases::lively_list(r, feed, 16, 400),
        31..=39 => {
            let drawing = cases::drawing(r, feed, 5, 6);
            model::translate(&model::read_drawing(&drawing)).list
        }
        _ => cases::list(r, feed, 16),
    }
}

/// Which of `REASONS` a 9, 16 or 17 is, by the word at its place; none where such a word cannot give that number, and for other numbers.
fn reason(list: &[u32], (number, place): model::Verdict) -> Option<usize> {
    let kind = list.get(place as usize / 3 * 3)?;
    match (number, place % 3, kind) {
        (9, 0, 16..) => Some(0),
        (16, 1, 0) => Some(1),
        (16, 1, 1) => Some(2),
        (16, 1, 2..=15) => Some(3),
        (16, 2, 3..=6 | 10) => Some(4),
        (17, 2, 0..=2 | 7..=9 | 11..=13) => Some(5),
        _ => None,
    }
}

/// The list of case i: as it is, damaged, or damaged twice.
fn perhaps_damaged(r: &mut Random, i: usize, feed: &[u32], valid: &[u32], causes: &mut Causes) -> Vec<u32> {
    match i % 4 {
        0 | 1 => valid.to_vec(),
        2 => {
            let mut list = valid.to_vec();
            cases::damage(r, &mut list);
            list
        }
        _ => {
            let (a, b, both) = twice_damaged(r, valid, |l| model::check_list(feed, l));
            causes.note(a, b);
            both
        }
    }
}

/// Random lists over random feeds: valid ones, and feed, list and slice each with a breach or without.
pub fn random(tally: &mut Tally, cases: usize) {
    let mut r = Random::new(3);
    let mut met = Met::default();
    let (mut list_causes, mut causes) = (Causes::default(), Causes::default());
    for i in 0..cases {
        let valid_feed = if r.one_in(10) { cases::feed(&mut r) } else { cases::full_feed(&mut r) };
        let valid_list = some_list(&mut r, &valid_feed);
        let mut feed = valid_feed.clone();
        if r.one_in(8) {
            cases::damage(&mut r, &mut feed);
        }
        let list = perhaps_damaged(&mut r, i, &valid_feed, &valid_list, &mut list_causes);
        // the length follows what the list without its breach needs; a slice that is too short is the third cause
        let trace = trace(&valid_feed, &valid_list);
        let sort = r.below(LENGTHS.len());
        let words = length(&mut r, &trace, sort);
        let of_feed = model::check_feed(&feed).0;
        let of_list = model::check_list(&valid_feed, &list).0;
        let of_size = trace.verdict(words).0;
        causes.note(of_feed, of_list);
        causes.note(of_feed, of_size);
        causes.note(of_list, of_size);
        let untouched = feed == valid_feed && list == valid_list && of_list == 0;
        let verdict = compare(tally, "run", &feed, &list, words, |work| if untouched { trace.end(words) } else { model::run(&feed, &list, work) });
        met.numbers[verdict.0 as usize] += 1;
        met.lengths[sort] += 1;
        reason(&list, verdict).into_iter().for_each(|k| met.reasons[k] += 1);
        if untouched {
            met.note(&list, &trace, words);
            met.cuts(tally, &mut r, "run", &feed, &trace, words, (i % 8 == 0) as usize);
        }
    }
    met.show(tally, "random runs", &[0, 1, 2, 3, 4, 8, 9, 10, 11, 16, 17], &[10]);
    met.show_reasons(tally, "random runs");
    let shown: Vec<String> = LENGTHS.iter().zip(met.lengths).map(|(name, n)| format!("{name}: {n}")).collect();
    println!("random runs by length of the slice: {}", shown.join(", "));
    list_causes.show_pairs(tally, "list, list", &[8, 9, 16, 17], &[8, 9, 16, 17]);
    causes.show_pairs(tally, "feed, list or size", &[1, 2, 3, 4], &[8, 9, 16, 17, 10, 11]);
    causes.show_pairs(tally, "list, size", &[8, 9, 16, 17], &[10, 11]);
}

/// Lists of up to 1,024 instructions, and past them.
pub fn long(tally: &mut Tally, cases: usize) {
    let mut r = Random::new(4);
    let mut met = Met::default();
    for _ in 0..cases {
        let feed = cases::full_feed(&mut r);
        let mut list = cases::lively_list(&mut r, &feed, 1_100, 40);
        if r.one_in(4) {
            cases::damage(&mut r, &mut list);
        }
        let sort = r.below(LENGTHS.len());
        let trace = trace(&feed, &list);
        let words = length(&mut r, &trace, sort);
        let verdict = compare(tally, "long run", &feed, &list, words, |work| model::run(&feed, &list, work));
        met.numbers[verdict.0 as usize] += 1;
        met.cuts(tally, &mut r, "long run", &feed, &trace, words, 4);
    }
    tally.met_of("long runs by number", &met.numbers, &[0, 8, 9, 10, 16, 17]);
    tally.met("long runs cut: registers with pairs, by kind", &met.seen);
}

/// Operands of up to 65,536 pairs.
pub fn large(tally: &mut Tally, cases: usize) {
    let mut r = Random::new(5);
    let mut met = Met::default();
    let mut largest = 0;
    for _ in 0..cases {
        let feed = cases::large_feed(&mut r);
        let list = cases::large_list(&mut r, &feed);
        let trace = trace(&feed, &list);
        largest = trace.tables.iter().map(|t| t.len()).filter(|&n| n <= 65_536).fold(largest, usize::max);
        for sort in [0, 1 + r.below(LENGTHS.len() - 1)] {
            let words = length(&mut r, &trace, sort);
            let verdict = compare(tally, "large run", &feed, &list, words, |_| trace.end(words));
            met.numbers[verdict.0 as usize] += 1;
            met.note(&list, &trace, words);
            met.cuts(tally, &mut r, "large run", &feed, &trace, words, 3);
        }
    }
    // only these three give more pairs than either operand has
    met.show(tally, "large runs", &[0, 10, 11], &[3, 5, 10]);
    tally.same("large runs: the largest register", &largest, &65_536, &[]);
}

// ---- cases with names

/// The belt cases of document 01 that concern the algebra.
pub fn belt(tally: &mut Tally) {
    let table = |pairs: &[(u32, u32)]| pairs.iter().copied().collect::<model::Table>();
    let two = table(&[(1, 2), (1, 3)]);

    let feed = cases::feed_of(&[], &[two.clone()]);
    let loaded = [(1, 2), (1, 3)];
    for (kind, tags) in [(7, [(65_536, 1), (65_537, 1)]), (8, [(65_536, 2), (65_537, 3)]), (9, [(65_536, 65_536), (65_537, 65_537)])] {
        check(tally, "tags of register 0", &feed, &[1, 0, 0, kind, 0, 0], 8, (0, 0), &tags);
        check(tally, "tags of register 0, a word short", &feed, &[1, 0, 0, kind, 0, 0], 7, (10, 1), &loaded);
    }

    let feed = cases::feed_of(&[], &[two, table(&[(2, 9), (3, 9)])]);
    let list = [1, 0, 0, 1, 1, 0, 3, 0, 1];
    check(tally, "(1,9) once", &feed, &list, 10, (0, 0), &[(1, 9)]);
    check(tally, "(1,9) once, a word short", &feed, &list, 9, (10, 2), &[(1, 2), (1, 3), (2, 9), (3, 9)]);

    for (count, verdict) in [(256, (0, 0)), (257, (11, 2))] {
        let feed = cases::feed_of(&[cases::class(0, 256), cases::class(1_000, count)], &[]);
        let list = [0, 0, 0, 0, 1, 0, 10, 0, 1];
        let classes = (0..256).map(|u| (u, u)).chain((1_000..1_000 + count).map(|v| (v, v)));
        let cross = (0..256).flat_map(|u| (1_000..1_256).map(move |v| (u, v)));
        let pairs: Vec<(u32, u32)> = if count == 256 { cross.collect() } else { classes.collect() };
        check(tally, &format!("256 objects crossed with {count}"), &feed, &list, 140_000, verdict, &pairs);
    }
    sheet(tally);

    for (object, verdict) in [(65_535, (0, 0)), (65_536, (3, 3))] {
        let feed = [1, 0, 1, object, object];
        let found = compare(tally, "object ceiling", &feed, &[0, 0, 0], 3, |work| model::run(&feed, &[0, 0, 0], work));
        tally.same("object ceiling of a run", &found, &verdict, &feed);
    }
}

/// The list of document 01's sheet: "12 instructions, 33 pairs; 66 work words suffice"; it "passes with 42 words and stops at instruction 5 with 41".
/// There the loads stand, 18 pairs.
fn sheet(tally: &mut Tally) {
    let feed = [1, 1, 4, 3, 1, 1, 2, 2, 3, 3, 4, 4, 1, 2, 2, 3, 3, 4];
    let drawing = examples::drawing(&[(0, 1), (0, 0), (0, 1)], &[(0, 0, 1), (0, 1, 2)]);
    let list = model::translate(&model::read_drawing(&drawing)).list;
    tally.same("the sheet has 12 instructions", &(list.len() / 3), &12, &list);
    let pairs: usize = model::tables(&model::read_feed(&feed), &list).iter().map(|table| table.len()).sum();
    tally.same("the sheet has 33 pairs", &pairs, &33, &list);
    for words in [42, 43, 65, 66, 67] {
        check(tally, "the sheet", &feed, &list, words, (0, 0), &[(589_824, 589_824), (589_825, 589_825)]);
    }
    let (class, label) = ([(1, 1), (2, 2), (3, 3), (4, 4)], [(1, 2), (2, 3), (3, 4)]);
    let loads = [&class[..], &class, &class, &label, &label].concat();
    tally.same("the sheet's loads", &loads.len(), &18, &list);
    for (words, place, pairs) in [(41, 5, 18), (40, 5, 18), (36, 5, 18), (35, 4, 15), (30, 4, 15), (29, 3, 12), (23, 2, 8), (1, 0, 0), (0, 0, 0)] {
        check(tally, "the sheet, stopped", &feed, &list, words, (10, place), &loads[..pairs]);
    }
}

/// A list over a feed with slices about the room that it needs at its last instruction, and about the room that it needs before. At the last
/// instruction of a bare list no register lives but its operands.
fn about(tally: &mut Tally, what: &str, feed: &[u32], list: &[u32], last: usize) {
    let place = list.len() / 3 - 1;
    let trace = trace(feed, list);
    let before = 2 * trace.pairs[..place].iter().max().unwrap();
    let operands: BTreeSet<u32> = operands(&list[3 * place..]).iter().copied().collect();
    let whole = 2 * (last + operands.iter().map(|&r| trace.tables[r as usize].len()).sum::<usize>());
    let lent = if last > 65_536 { [before + 1, before + 2 * 65_536, whole] } else { [whole - 2, whole - 1, whole] };
    for words in lent.into_iter().chain([before, whole + 9]).filter(|&words| words >= before) {
        let found = compare(tally, what, feed, list, words, |_| trace.end(words));
        // 11 whatever is lent, as long as the registers before have room
        let number = if last > 65_536 { 11 } else { 10 * (words < whole) as u32 };
        let expected = if number == 0 { model::ACCEPTED } else { (number, place as u32) };
        tally.same(&format!("{what}, {words} words lent"), &found, &expected, list);
    }
    let short = compare(tally, what, feed, list, before - 1, |_| trace.end(before - 1));
    tally.same(&format!("{what}, a word less than what is needed before"), &(short.0, (short.1 as usize) < place), &(10, true), list);
}

/// Appends the unions of the registers from `low` to `high`, halves first, and gives the register of the last.
fn unions(list: &mut Vec<u32>, low: u32, high: u32) -> u32 {
    if high - low == 1 {
        return low;
    }
    let mid = (low + high) / 2;
    let (a, b) = (unions(list, low, mid), unions(list, mid, high));
    list.extend([5, a, b]);
    list.len() as u32 / 3 - 1
}

/// Registers of exactly 65,536 pairs and of one more, by each kind that can give them; tags of a late register; many equal results.
pub fn edges(tally: &mut Tally) {
    let loads = |n: u32| (0..n).flat_map(|k| [1, k, 0]).collect::<Vec<u32>>();
    let hub = |count: u32| (0..count).map(|i| (i, 7)).collect::<model::Table>();
    let spokes = |h: u32, count: u32| (0..count).map(move |j| (h, j));

    // 16 tables of 4,096 pairs, then one pair more
    let mut labels: Vec<model::Table> = (0..16).map(|k| (0..4096).map(|i| (i, (i * 5 + k) % 65_536)).collect()).collect();
    labels.push([(70, 0)].into_iter().collect());
    let feed = cases::feed_of(&[], &labels);
    let mut list = loads(17);
    let union = unions(&mut list, 0, 16);
    about(tally, "a union of 65,536 pairs", &feed, &list, 65_536);
    list.extend([5, union, 16]);
    about(tally, "a union of 65,537 pairs", &feed, &list, 65_537);
    list.truncate(list.len() - 3);
    list.extend([5, 16, union]);
    about(tally, "a union of 65,537 pairs, the other way", &feed, &list, 65_537);
    list.truncate(list.len() - 3);
    list.extend([5, union, union]);
    about(tally, "a union of 65,536 pairs with itself", &feed, &list, 65_536);
    list.truncate(list.len() - 3);
    list.extend([2, union, 0]);
    about(tally, "the inverse of 65,536 pairs", &feed, &list, 65_536);

    let feed = cases::feed_of(&[], &[hub(4096), spokes(7, 16).collect()]);
    about(tally, "a composition of 65,536 pairs", &feed, &[1, 0, 0, 1, 1, 0, 3, 0, 1], 65_536);
    let mut ends = hub(4095);
    ends.insert((4095, 8));
    let feed = cases::feed_of(&[], &[ends, spokes(7, 16).chain(spokes(8, 17)).collect()]);
    about(tally, "a composition of 65,537 pairs", &feed, &[1, 0, 0, 1, 1, 0, 3, 0, 1], 65_537);
    let feed = cases::feed_of(&[], &[hub(4096), spokes(7, 4096).collect()]);
    about(tally, "a composition of 4,096 × 4,096 pairs", &feed, &[1, 0, 0, 1, 1, 0, 3, 0, 1], 4096 * 4096);
    about(tally, "a composition at one object", &feed, &[1, 0, 0, 1, 1, 0, 3, 1, 0], 1);

    let feed = cases::feed_of(&[cases::class(0, 256), cases::class(9, 257), cases::class(5, 1)], &[hub(4096)]);
    let classes = [0, 0, 0, 0, 1, 0, 0, 2, 0, 1, 0, 0];
    let then = |more: &[u32]| [&classes[..], more].concat();
    about(tally, "256 × 256", &feed, &then(&[10, 0, 0]), 65_536);
    about(tally, "256 × 257", &feed, &then(&[10, 0, 1]), 65_792);
    about(tally, "257 × 256", &feed, &then(&[10, 1, 0]), 65_792);
    about(tally, "4,096 × 256", &feed, &then(&[10, 3, 0]), 4096 * 256);
    about(tally, "1 × 257", &feed, &then(&[10, 2, 1]), 257);
    about(tally, "a cross tagged and crossed with one object", &feed, &then(&[10, 0, 0, 7, 4, 0, 10, 5, 2]), 65_536);
    about(tally, "a cross tagged, crossed with two", &feed, &then(&[10, 0, 0, 8, 4, 0, 14, 1, 9, 14, 1, 10, 5, 6, 7, 10, 5, 8]), 131_072);
    about(tally, "right values of 65,536 pairs, two hundred and fifty-six times each", &feed, &then(&[10, 0, 0, 13, 4, 0]), 256);

    // every middle value leads to every right value: 16,777,216 ways to 65,536 pairs
    let cross: Vec<(u32, u32)> = (0..256).flat_map(|u| (0..256).map(move |v| (u, v))).collect();
    let feed = cases::feed_of(&[cases::class(0, 256)], &[]);
    for (words, verdict) in [(4 * cross.len(), (0, 0)), (4 * cross.len() - 1, (10, 2))] {
        check(tally, "256 × 256 composed with itself", &feed, &[0, 0, 0, 10, 0, 0, 3, 1, 1], words, verdict, &cross);
    }

    // the last registers of a full list: the largest tags that there are
    let feed = cases::feed_of(&[cases::class(3, 256)], &[]);
    let mut list = vec![0, 0, 0, 10, 0, 0];
    while list.len() < 3 * 1022 {
        list.extend([14, 0, 2]);
    }
    list.extend([2, 1, 0]);
    for kind in [7, 8, 9] {
        let mut list = list.clone();
        list.extend([kind, 1022, 0]);
        about(tally, "tags of register 1,022", &feed, &list, 65_536);
    }
    let list = [0, 0, 0].repeat(1025);
    for words in [0, 1, 2, 4, 5, 3071, 3073, 3074, 3075] {
        check_refused(tally, "length of the list", &feed, &list[..words], (8, 0));
    }
    // nothing is used, so each gives up its pairs after its making
    let pairs: Vec<(u32, u32)> = (3..259).map(|u| (u, u)).collect();
    check(tally, "1,024 instructions", &feed, &list[..3072], 2 * pairs.len(), (0, 0), &pairs);
    check(tally, "1,024 instructions, a word short", &feed, &list[..3072], 2 * pairs.len() - 1, (10, 0), &[]);
}

/// A list that is refused before it is run, so that no word is written.
fn check_refused(tally: &mut Tally, what: &str, feed: &[u32], list: &[u32], verdict: model::Verdict) {
    compare(tally, what, feed, list, 50, |work| (verdict, work.to_vec()));
}
