//! What is bad in an instruction: 9, 16 and 17, each at its word of the list. A table of its own says what the words behind each kind are. From it
//! follow the values that a word may not have, and the answer that they must get from the library and from the model; the work slice then stays as
//! it was. In order: the changes of an instruction and their answer; each kind with each of its words changed; two words changed at once; changed
//! lists whose run would be stopped by 10 or 11.

use crate::cases;
use crate::model::{self, Verdict, ACCEPTED};
use crate::runs::{self, REASONS};
use crate::Tally;
use std::collections::BTreeSet;

// ---- the changes of an instruction

/// What a word behind a kind is.
#[derive(Clone, Copy)]
enum Sort {
    Class,
    Label,
    Register,
    Number,
    Unused,
}
use Sort::{Class, Label, Number, Register, Unused};

/// By kind: what a is, what b is.
const KINDS: [[Sort; 2]; 16] = [
    [Class, Unused],      // class
    [Label, Unused],      // label
    [Register, Unused],   // inverse
    [Register, Register], // composition
    [Register, Register], // intersection
    [Register, Register], // union
    [Register, Register], // difference
    [Register, Unused],   // left tag
    [Register, Unused],   // right tag
    [Register, Unused],   // tau
    [Register, Register], // cross
    [Register, Unused],   // equal sides
    [Register, Unused],   // left values
    [Register, Unused],   // right values
    [Register, Number],   // with left
    [Register, Number],   // with right
];

/// The number of each of `REASONS`; behind them stands 0 for a word that may have every value.
const NUMBERS: [u32; 7] = [9, 16, 16, 16, 16, 17, 0];

/// A word of a list changed to this value. The reason is one of `REASONS`, or the one behind them.
#[derive(Clone, Copy)]
struct Change {
    place: usize,
    value: u32,
    reason: usize,
}

impl Change {
    fn number(&self) -> u32 {
        NUMBERS[self.reason]
    }
}

/// The changes of instruction i. The kind gets three that are unknown; an operand and an unused word the two lowest values that they may not have,
/// and the highest; the number of kinds 14 and 15 three values, all of them right.
fn changes(feed: &[u32], list: &[u32], i: usize) -> Vec<Change> {
    let own = i as u32;
    let mut all = [16, 17, u32::MAX].map(|value| Change { place: 3 * i, value, reason: 0 }).to_vec();
    for (word, sort) in KINDS[list[3 * i] as usize].into_iter().enumerate() {
        let (values, reason) = match sort {
            Class => ([feed[0], feed[0] + 1, u32::MAX], 1),
            Label => ([feed[1], feed[1] + 1, u32::MAX], 2),
            Register => ([own, own + 1, u32::MAX], 3 + word),
            Unused => ([1, 2, u32::MAX], 5),
            Number => ([0, own, u32::MAX], 6),
        };
        all.extend(values.map(|value| Change { place: 3 * i + 1 + word, value, reason }));
    }
    all
}

/// The answer to a valid list with these changes: that of the lowest instruction; in it of the kind (9), then of the operands, a first (16), then of
/// the unused word (17), which is the lowest number and then the lowest place.
fn answer(changes: &[Change]) -> Verdict {
    let wrong = changes.iter().filter(|change| change.number() > 0);
    let first = wrong.min_by_key(|change| (change.place / 3, change.number(), change.place));
    first.map_or(ACCEPTED, |change| (change.number(), change.place as u32))
}

fn changed(list: &[u32], changes: &[Change]) -> Vec<u32> {
    let mut list = list.to_vec();
    changes.iter().for_each(|change| list[change.place] = change.value);
    list
}

/// The library and the model give this answer. Where the list is refused, the work slice stays as it was.
fn gives(tally: &mut Tally, what: &str, feed: &[u32], list: &[u32], words: usize, verdict: Verdict) {
    let runs = matches!(verdict.0, 0 | 10 | 11);
    runs::compare(tally, what, feed, list, words, |work| (verdict, if runs { model::run(feed, list, work).1 } else { work.to_vec() }));
    tally.same(&format!("{what}, the model"), &model::run(feed, list, &vec![7; words]).0, &verdict, list);
}

// ---- lists to be changed

/// So many classes and labels, of one pair each.
fn small_feed(classes: u32, labels: u32) -> Vec<u32> {
    let tables = |n: u32| (0..n).map(|k| cases::class(k, 1)).collect::<Vec<_>>();
    cases::feed_of(&tables(classes), &tables(labels))
}

/// Three pairs an instruction, more than the lists over small feeds need.
fn ample(list: &[u32]) -> usize {
    2 * list.len()
}

/// Instruction i of this kind, its operands the highest that it may have, 0 where there is none.
fn instruction(feed: &[u32], kind: usize, i: usize) -> [u32; 3] {
    let [a, b] = KINDS[kind].map(|sort| match sort {
        Class => feed[0].saturating_sub(1),
        Label => feed[1].saturating_sub(1),
        Register => (i as u32).saturating_sub(1),
        Number | Unused => 0,
    });
    [kind as u32, a, b]
}

/// A list in which instruction i has this kind, behind loads and before an inverse.
fn around(feed: &[u32], kind: usize, i: usize) -> Vec<u32> {
    let load = if feed[0] > 0 { [0, 0, 0] } else { [1, 0, 0] };
    let mut list = load.repeat(i);
    list.extend(instruction(feed, kind, i));
    if i < 1_023 {
        list.extend([2, i as u32, 0]);
    }
    list
}

// ---- one word

/// How many changes of each reason gave the answer, and by kind how many lists were accepted and refused.
#[derive(Default)]
struct Met {
    reasons: [usize; 7],
    accepted: [usize; 16],
    refused: [usize; 16],
}

/// Each word of instruction i changed, one at a time. Where no operand can be right (a register of instruction 0, a class of a feed without any),
/// the list is wrong as it is, and stays so.
fn one_instruction(tally: &mut Tally, met: &mut Met, feed: &[u32], kind: usize, i: usize) {
    let list = around(feed, kind, i);
    let all = changes(feed, &list, i);
    let own: Vec<Change> = all.iter().filter(|change| list[change.place] == change.value).copied().collect();
    gives(tally, &format!("kind {kind} at instruction {i}"), feed, &list, ample(&list), answer(&own));
    for change in all {
        let what = format!("kind {kind} at instruction {i}, word {} changed", change.place);
        let expected = answer(&[&own[..], &[change]].concat());
        gives(tally, &what, feed, &changed(&list, &[change]), ample(&list), expected);
        met.reasons[change.reason] += (expected == answer(&[change])) as usize;
        let counted = if expected == ACCEPTED { &mut met.accepted } else { &mut met.refused };
        counted[kind] += 1;
    }
    met.accepted[kind] += (answer(&own) == ACCEPTED) as usize;
}

/// Every kind at the first instructions, where it can stand or not yet, at later ones and at the last.
fn one_word(tally: &mut Tally) {
    let mut met = Met::default();
    for (classes, labels) in [(2, 3), (32, 64), (1, 0), (0, 1)] {
        let feed = small_feed(classes, labels);
        for kind in 0..16 {
            for i in [0, 1, 2, 3, 7, 1_023] {
                one_instruction(tally, &mut met, &feed, kind, i);
            }
        }
    }
    tally.met("lists with a word changed, accepted by kind", &met.accepted);
    tally.met("lists with a word changed, refused by kind", &met.refused);
    let reasons: Vec<String> = REASONS.iter().chain(&["any number"]).map(|reason| reason.to_string()).collect();
    tally.met_by_name("lists with a word changed, by reason", &reasons, &met.reasons);
}

// ---- two words

/// The reasons that two words of one instruction can have.
const TOGETHER: [(usize, usize); 11] = [(0, 1), (0, 2), (0, 3), (0, 4), (0, 5), (0, 6), (1, 5), (2, 5), (3, 4), (3, 5), (3, 6)];

/// Every two words of a list in which each kind stands twice, the second time in the other order, so that every reason stands before every other.
fn two_words(tally: &mut Tally) {
    let feed = small_feed(2, 3);
    let kinds = (0..16).chain((0..16).rev());
    let list: Vec<u32> = kinds.enumerate().flat_map(|(i, kind)| instruction(&feed, kind, i)).collect();
    gives(tally, "each kind twice", &feed, &list, ample(&list), ACCEPTED);
    let all: Vec<Change> = (0..list.len() / 3).flat_map(|i| changes(&feed, &list, i)).collect();
    let (mut apart, mut together) = (BTreeSet::new(), BTreeSet::new());
    for (k, &first) in all.iter().enumerate() {
        for &second in all[k + 1..].iter().filter(|second| second.place != first.place) {
            let both = [first, second];
            gives(tally, "two words changed", &feed, &changed(&list, &both), ample(&list), answer(&both));
            let met = if first.place / 3 == second.place / 3 { &mut together } else { &mut apart };
            met.insert((first.reason, second.reason));
        }
    }
    println!("two words changed: {} orders of two reasons, {} pairs in one instruction", apart.len(), together.len());
    tally.same("two words changed, over two instructions", &apart.len(), &(7 * 7), &[]);
    tally.same("two words changed, in one instruction", &together, &TOGETHER.into(), &[]);
}

// ---- the list and the run

/// A list that passes its check, and whose run is stopped: 10 and 11 give the instruction. With a word changed the answer is the list's, whatever is
/// lent, and with a word more it is 8.
fn stopped(tally: &mut Tally) {
    // 256 objects, 257 objects and one pair; the two classes crossed have more than 65,536 pairs
    let feed = cases::feed_of(&[cases::class(0, 256), cases::class(9, 257)], &[cases::class(5, 1)]);
    let list = [0, 0, 0, 0, 1, 0, 1, 0, 0, 10, 0, 1, 2, 3, 0];
    let lent = [(0, (10, 0)), (511, (10, 0)), (512, (10, 1)), (1_025, (10, 1)), (1_026, (10, 2)), (1_028, (11, 3)), (2_000, (11, 3))];
    let (mut reasons, mut numbers) = (BTreeSet::new(), BTreeSet::new());
    for (words, verdict) in lent {
        gives(tally, "a run that is stopped", &feed, &list, words, verdict);
        for change in (0..list.len() / 3).flat_map(|i| changes(&feed, &list, i)) {
            let list = changed(&list, &[change]);
            gives(tally, "a run that would be stopped", &feed, &list, words, answer(&[change]));
            gives(tally, "a run that would be stopped, a word more", &feed, &[&list[..], &[0]].concat(), words, (8, 0));
            reasons.insert(change.reason);
            numbers.insert((change.number(), verdict.0));
        }
    }
    tally.same("runs that would be stopped, by reason", &reasons, &(0..6).collect(), &[]);
    tally.same("runs that would be stopped, by number", &numbers, &[9, 16, 17].iter().flat_map(|&n| [(n, 10), (n, 11)]).collect(), &[]);
}

/// All but the pairs of words, of which there are some 41,000.
pub fn few(tally: &mut Tally) {
    one_word(tally);
    stopped(tally);
}

pub fn all(tally: &mut Tally) {
    few(tally);
    two_words(tally);
}
