//! Two-way labels (document 02, E1) by name: count words with their mark, what kind 1 gives, slices that just take it, edges that are met
//! backwards, and translations, which do not change. The stars of sheets are in `stars.rs`.

use crate::cases;
use crate::examples::{drawing, feed, rows, verdict};
use crate::model::{self, Table, Verdict, ACCEPTED, MARK};
use crate::random::Random;
use crate::runs;
use crate::{said, Tally};

/// Puts the mark on these labels of a feed.
fn marked(mut feed: Vec<u32>, labels: &[usize]) -> Vec<u32> {
    let first = 2 + feed[0] as usize;
    labels.iter().for_each(|label| feed[first + label] += MARK);
    feed
}

// ---- count words

fn checked(tally: &mut Tally, name: &str, feed: &[u32], expected: Verdict) {
    tally.same(name, &said(&matcher::check_feed(feed)), &expected, &feed[..feed.len().min(20)]);
}

/// A feed of one label with this count word, and so many pairs.
fn label_of(word: u32, pairs: u32) -> Vec<u32> {
    [vec![0, 1, word], (0..pairs).flat_map(|i| [i, 4_096]).collect()].concat()
}

/// "The ceiling of 4,096 is on the count without the mark; a marked class count is 2." Every count word about the ceilings and past them,
/// behind which no pair stands.
fn count_words(tally: &mut Tally) {
    let step = if tally.few { 1_117 } else { 1 };
    let turns = [4_096, 4_097, 32_767, 32_768, 36_864, 36_865, 98_304, 98_305, 131_072, u32::MAX - MARK, u32::MAX];
    for word in (0..=70_000).step_by(step).chain(turns) {
        let expected = match word {
            0 | 32_768 => ACCEPTED,
            1..=4_096 | 32_769..=36_864 => (1, 0),
            _ => (2, 2),
        };
        checked(tally, "a label's count word", &label_of(word, 0), expected);
        let expected = match word {
            0 => ACCEPTED,
            1..=4_096 => (1, 0),
            _ => (2, 2),
        };
        checked(tally, "a class's count word", &[1, 0, word], expected);
    }
}

/// Counts with their pairs.
fn counts(tally: &mut Tally) {
    for (word, pairs, expected) in [
        (4_096, 4_096, ACCEPTED),
        (4_097, 4_097, (2, 2)),
        (32_767, 4_096, (2, 2)),
        (32_767, 32_767, (2, 2)),
        (32_768, 0, ACCEPTED),
        (32_768, 1, (1, 0)),
        (36_864, 4_095, (1, 0)),
        (36_864, 4_096, ACCEPTED),
        (36_864, 4_097, (1, 0)),
        (36_865, 4_096, (2, 2)),
        (36_865, 4_097, (2, 2)),
    ] {
        checked(tally, &format!("a label of {pairs} pairs, count word {word}"), &label_of(word, pairs), expected);
    }
    checked(tally, "a marked class with its object", &[1, 0, MARK + 1, 5, 5], (2, 2));
    checked(tally, "a marked class and a marked label", &[1, 1, MARK, MARK], (2, 2));
    checked(tally, "a class, and a label over its ceiling", &[1, 2, 1, MARK + 1, MARK + 4_097, 5, 5, 6, 7], (2, 4));
    checked(tally, "over the ceiling before a wrong length", &[0, 2, MARK + 1, 4_097], (2, 3));
}

/// "Exact length and places use the sizes."
fn lengths_and_places(tally: &mut Tally) {
    checked(tally, "one pair, marked", &[0, 1, MARK + 1, 5, 6], ACCEPTED);
    checked(tally, "one pair, marked, a word short", &[0, 1, MARK + 1, 5], (1, 0));
    checked(tally, "one pair, marked, a word more", &[0, 1, MARK + 1, 5, 6, 7], (1, 0));
    checked(tally, "as many pairs as the word with its mark says", &label_of(MARK + 1, MARK + 1), (1, 0));
    // a class (5), the labels (7,8) and (9,1), both marked, then one without a mark
    let good = [1, 3, 1, MARK + 1, MARK + 2, 1, 5, 5, 7, 8, 9, 1, 9, 2, 0, 0];
    checked(tally, "tables behind marked ones", &good, ACCEPTED);
    for (name, at, word, expected) in [
        ("a class pair with unequal sides before marked labels", 7, 6, (4, 6)),
        ("a high value in the first marked label", 9, 65_536, (3, 8)),
        ("a pair twice in the second marked label", 13, 1, (3, 12)),
        ("a pair below the one before it in a marked label", 12, 8, (3, 12)),
        ("a high value behind marked labels", 14, 65_536, (3, 14)),
    ] {
        let mut feed = good;
        feed[at] = word;
        checked(tally, name, &feed, expected);
    }
    checked(tally, "(1,2) and (2,1) ascend", &[0, 1, MARK + 2, 1, 2, 2, 1], ACCEPTED);
    checked(tally, "(2,1) and (1,2) do not", &[0, 1, MARK + 2, 2, 1, 1, 2], (3, 5));
}

// ---- what kind 1 gives

/// A list that loads label 0 of a feed, and the pairs that it must give: with slices of every length, one word of which is short.
fn loads(tally: &mut Tally, name: &str, stored: &[(u32, u32)], given: &[(u32, u32)]) {
    let feed = marked(feed(&[], &[stored]), &[0]);
    for words in 0..2 * given.len() + 4 {
        let fits = words / 2 >= given.len();
        let (expected, pairs) = if fits { (ACCEPTED, given) } else { ((10, 0), &given[..0]) };
        runs::check(tally, &format!("kind 1, {name}"), &feed, &[1, 0, 0], words, expected, pairs);
    }
}

/// "kind 1 gives the table united with its inverse": each pair once, ascending.
fn kind_one(tally: &mut Tally) {
    loads(tally, "a pair", &[(1, 2)], &[(1, 2), (2, 1)]);
    loads(tally, "a pair the other way round", &[(2, 1)], &[(1, 2), (2, 1)]);
    loads(tally, "both directions stored", &[(1, 2), (2, 1)], &[(1, 2), (2, 1)]);
    loads(tally, "one pair of three in both directions", &[(1, 2), (2, 1), (2, 3)], &[(1, 2), (2, 1), (2, 3), (3, 2)]);
    loads(tally, "a pair (u,u)", &[(5, 5)], &[(5, 5)]);
    loads(tally, "no pair", &[], &[]);
    loads(tally, "pairs of every sort", &[(1, 1), (1, 2), (2, 1), (3, 1)], &[(1, 1), (1, 2), (1, 3), (2, 1), (3, 1)]);
    loads(tally, "all turned pairs before the stored ones", &[(7, 1), (8, 2), (9, 0)], &[(0, 9), (1, 7), (2, 8), (7, 1), (8, 2), (9, 0)]);
    loads(tally, "all turned pairs behind the stored ones", &[(0, 9), (1, 7), (2, 8)], &[(0, 9), (1, 7), (2, 8), (7, 1), (8, 2), (9, 0)]);
    let ends = [(0, 0), (0, 65_535), (255, 256), (256, 65_535), (65_535, 0), (65_535, 65_535)];
    let given = [(0, 0), (0, 65_535), (255, 256), (256, 255), (256, 65_535), (65_535, 0), (65_535, 256), (65_535, 65_535)];
    loads(tally, "the least and the greatest objects", &ends, &given);
}

/// A full table: so many pairs are given, with slices about what the stored table takes, and about what the result does.
fn full(tally: &mut Tally, name: &str, stored: impl Iterator<Item = (u32, u32)>, given: usize) {
    let stored: Table = stored.collect();
    tally.same(&format!("{name}: stored"), &stored.len(), &4_096, &[]);
    let all: Vec<(u32, u32)> = stored.iter().copied().chain(stored.iter().map(|&(u, v)| (v, u))).collect::<Table>().into_iter().collect();
    tally.same(&format!("{name}: given"), &all.len(), &given, &[]);
    let feed = marked(cases::feed_of(&[cases::class(3, 2)], &[stored]), &[0]);
    // alone; and behind a class of two pairs, which the next instruction crosses with it, for which there is no room
    for (list, first, then) in [(&[1, 0, 0][..], &[][..], ACCEPTED), (&[0, 0, 0, 1, 0, 0, 10, 0, 1], &[(3, 3), (4, 4)], (10, 2))] {
        let place = first.len().min(1) as u32;
        for room in [0, 1, 4_095, 4_096, 4_097, given - 1, given, given + 1] {
            for words in [2 * (first.len() + room), 2 * (first.len() + room) + 1] {
                let pairs = [first, if room < given { &[] } else { &all[..] }].concat();
                let expected = if room < given { (10, place) } else { then };
                runs::check(tally, name, &feed, list, words, expected, &pairs);
            }
        }
    }
}

fn full_tables(tally: &mut Tally) {
    full(tally, "8,192 pairs of a full table", (0..4_096).map(|i| (i, 10_000 + i)), 8_192);
    full(tally, "8,192 pairs of a full table, turned", (0..4_096).map(|i| (60_000 + i, 4_095 - i)), 8_192);
    full(tally, "a full table at one object", (0..4_096).map(|i| (7, 100 + i)), 8_192);
    full(tally, "a full table that holds both directions", (0..2_048).flat_map(|i| [(i, 5_000 + i), (5_000 + i, i)]), 4_096);
    full(tally, "a full table of pairs (u,u)", (0..4_096).map(|i| (16 * i, 16 * i)), 4_096);
    full(tally, "64 × 64", (0..4_096).map(|i| (i / 64, i % 64)), 4_096);
}

/// A class, a two-way label, the same pairs one-way, and the two-way label again, with slices of every length: 10 comes at the register that
/// has no room, and what lives before it stays. The first label is used by the last instruction, the third by the one behind it.
fn registers(tally: &mut Tally) {
    let pairs = [(1, 2), (3, 1), (3, 3)];
    let feed = marked(feed(&[&[1, 3]], &[&pairs, &pairs]), &[0]);
    let both = [(1, 2), (1, 3), (2, 1), (3, 1), (3, 3)];
    let registers: [&[(u32, u32)]; 6] = [&[(1, 1), (3, 3)], &both, &pairs, &both, &both, &[(1, 1), (2, 2), (3, 3)]];
    let list = [0, 0, 0, 1, 0, 0, 1, 1, 0, 1, 0, 0, 2, 3, 0, 13, 1, 0];
    let living: [&[usize]; 7] = [&[], &[], &[1], &[1], &[1, 3], &[1], &[5]];
    for words in 0..34 {
        let standing = |i: usize| living[i].iter().flat_map(|&r| registers[r]).copied().collect::<Vec<_>>();
        let stop = (0..6).find(|&i| standing(i).len() + registers[i].len() > words / 2);
        let expected = stop.map_or(ACCEPTED, |i| (10, i as u32));
        runs::check(tally, "two-way and one-way loads in turn", &feed, &list, words, expected, &standing(stop.unwrap_or(6)));
    }
}

// ---- rows

/// "An edge of a two-way label is met by its pair in either direction".
fn edges(tally: &mut Tally) {
    let pair = drawing(&[(0, 1), (1, 1)], &[(0, 0, 1)]);
    let turned = feed(&[&[1], &[2]], &[&[(2, 1)]]);
    rows(tally, "a pair against the edge, one-way", &turned, &pair, &[]);
    rows(tally, "a pair against the edge, two-way", &marked(turned, &[0]), &pair, &[&[1, 2]]);
    rows(tally, "a pair along the edge, two-way", &marked(feed(&[&[1], &[2]], &[&[(1, 2)]]), &[0]), &pair, &[&[1, 2]]);
    rows(tally, "both directions stored", &marked(feed(&[&[1], &[2]], &[&[(1, 2), (2, 1)]]), &[0]), &pair, &[&[1, 2]]);
    rows(tally, "a two-way label without pairs", &marked(feed(&[&[1], &[2]], &[&[]]), &[0]), &pair, &[]);

    let chain = drawing(&[(0, 1), (0, 0), (0, 1)], &[(0, 0, 1), (0, 1, 2)]);
    let sheet = marked(feed(&[&[1, 2, 3, 4]], &[&[(2, 1), (2, 3), (4, 3)]]), &[0]);
    let ends: [&[u32]; 8] = [&[1, 1], &[1, 3], &[2, 2], &[2, 4], &[3, 1], &[3, 3], &[4, 2], &[4, 4]];
    rows(tally, "a chain met backwards", &sheet, &chain, &ends);
    let doubled = feed(&[&[1, 2, 3, 4]], &[&[(1, 2), (2, 1), (2, 3), (3, 2), (3, 4), (4, 3)]]);
    rows(tally, "a chain, both directions stored", &marked(doubled.clone(), &[0]), &chain, &ends);
    rows(tally, "a chain, both directions stored, one-way", &doubled, &chain, &ends);
}

/// Edges from a node to itself, and edges that share their ends.
fn shared_ends(tally: &mut Tally) {
    let looped = marked(feed(&[&[5, 9]], &[&[(5, 5), (5, 9), (9, 5)]]), &[0]);
    rows(tally, "a loop edge of a two-way label", &looped, &drawing(&[(0, 1)], &[(0, 0, 0)]), &[&[5]]);
    let opposite = drawing(&[(0, 1), (0, 1)], &[(0, 0, 1), (0, 1, 0)]);
    rows(tally, "opposite edges met by one pair", &marked(feed(&[&[1, 2]], &[&[(1, 2)]]), &[0]), &opposite, &[&[1, 2], &[2, 1]]);
    // label 0 two-way, label 1 one-way, over the same pairs
    let mixed = marked(feed(&[&[1, 2, 3]], &[&[(1, 2), (3, 2)], &[(1, 2), (3, 2)]]), &[0]);
    let beside = |label| drawing(&[(0, 1), (0, 1)], &[(0, 0, 1), (label, 0, 1)]);
    rows(tally, "two edges of a two-way label", &mixed, &beside(0), &[&[1, 2], &[2, 1], &[2, 3], &[3, 2]]);
    rows(tally, "a two-way edge beside a one-way edge", &mixed, &beside(1), &[&[1, 2], &[3, 2]]);
}

/// A query over a two-way label with slices that are too short: five pairs where the label is composed, its own two behind one of each class.
fn slices(tally: &mut Tally) {
    let pair = drawing(&[(0, 1), (1, 1)], &[(0, 0, 1)]);
    let feed = marked(feed(&[&[1], &[2]], &[&[(2, 1)]]), &[0]);
    let stops = [(0, 0), (1, 0), (2, 1), (3, 1), (4, 2), (5, 2), (6, 2), (7, 2), (8, 3), (9, 3)];
    for (words, place) in stops {
        verdict(tally, &format!("a two-way query with {words} work words"), &feed, &pair, [24, words, 2], (10, place));
    }
    verdict(tally, "a two-way query with 10 work words", &feed, &pair, [24, 10, 2], ACCEPTED);
    verdict(tally, "a two-way query with 1 row word", &feed, &pair, [24, 10, 1], (12, 0));
    verdict(tally, "a two-way query with 23 list words", &feed, &pair, [23, 10, 2], (13, 8));
}

// ---- translations

fn translation(feed: &[u32], drawing: &[u32]) -> (Verdict, Vec<u32>) {
    let mut list = vec![7; matcher::LIST_WORDS];
    let answer = matcher::translate(feed, drawing, &mut list);
    list.truncate(3 * answer.unwrap_or(0));
    (said(&answer), list)
}

/// Inverses are written by the drawn direction, also where a two-way register is its own inverse: every word is as without the mark.
fn translations(tally: &mut Tally, cases: usize) {
    let plain = feed(&[&[1, 2, 3]], &[&[(1, 2), (3, 2)]]);
    let into_m = drawing(&[(0, 1), (0, 0), (0, 1)], &[(0, 0, 1), (0, 2, 1)]);
    let loads = [0, 0, 0, 0, 0, 0, 0, 0, 0, 1, 0, 0, 1, 0, 0];
    let steps = [3, 3, 1, 2, 4, 0, 3, 5, 6, 3, 0, 7, 3, 8, 2, 7, 9, 0, 8, 9, 0, 9, 9, 0];
    let (verdict, list) = translation(&marked(plain.clone(), &[0]), &into_m);
    tally.same("a to m and b to m, two-way", &(verdict, &list), &(ACCEPTED, &[&loads[..], &steps].concat()), &into_m);
    tally.same("a to m and b to m: inverses", &list.chunks(3).filter(|instruction| instruction[0] == 2).count(), &1, &list);
    tally.same("a to m and b to m, one-way", &translation(&plain, &into_m), &(ACCEPTED, list), &into_m);

    let mut r = Random::new(40);
    let mut inverses = 0;
    for _ in 0..cases {
        let (feed, drawing) = cases::found(&mut r, 6, 8);
        let tables = model::read_feed(&feed);
        let labels: Vec<Table> = tables.labels.into_iter().map(|label| label.stored).collect();
        let [none, all] = [false, true].map(|mark| cases::feed_with(&tables.classes, &labels, &vec![mark; labels.len()]));
        let (verdict, list) = translation(&none, &drawing);
        inverses += list.chunks(3).filter(|instruction| instruction[0] == 2).count();
        tally.same("a translation with every label two-way", &translation(&all, &drawing), &(verdict, list), &drawing);
    }
    tally.covers("translations with inverses", inverses > cases / 2);
}

pub fn all(tally: &mut Tally, cases: usize) {
    count_words(tally);
    counts(tally);
    lengths_and_places(tally);
    kind_one(tally);
    full_tables(tally);
    registers(tally);
    edges(tally);
    shared_ends(tally);
    slices(tally);
    translations(tally, cases);
}
