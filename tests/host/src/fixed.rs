//! Nodes that are fixed to one object (document 02, E4): the rows beside those of the drawing without it, the translation word by word, objects
//! outside the class, drawings that are fixed at every node, cases by name, the third word at its ceiling, and the longest translations. The
//! fourth field of a sheet's node lines is in `dashes.rs`.

use crate::cases;
use crate::examples::{self, feed, fixed_drawing, verdict};
use crate::model::{self, Verdict, ACCEPTED, ANY};
use crate::queries;
use crate::random::Random;
use crate::{said, Tally};

/// More work words than any case here needs.
const AMPLE: usize = 200_000;

/// The rows of a query with ample slices, as they are given; none where it is refused.
fn rows(feed: &[u32], drawing: &[u32]) -> Option<Vec<Vec<u32>>> {
    let [mut list, mut work, mut out] = [matcher::LIST_WORDS, AMPLE, AMPLE].map(|words| vec![7; words]);
    let picks = nodes(drawing).filter(|node| node[1] == 1).count();
    let words = matcher::query(feed, drawing, &mut list, &mut work, &mut out).ok()?;
    Some(words.chunks(picks).map(<[u32]>::to_vec).collect())
}

/// The list of a translation, and its verdict.
fn translation(feed: &[u32], drawing: &[u32]) -> (Verdict, Vec<u32>) {
    let mut list = vec![7; matcher::LIST_WORDS];
    let answer = matcher::translate(feed, drawing, &mut list);
    list.truncate(3 * answer.unwrap_or(0));
    (said(&answer), list)
}

/// The words of each node.
fn nodes(drawing: &[u32]) -> impl Iterator<Item = &[u32]> {
    drawing[2..].chunks(3).take(drawing[0] as usize)
}

/// The drawing with another pick and another fixed word at node k.
fn with(drawing: &[u32], k: usize, pick: u32, fixed: u32) -> Vec<u32> {
    let mut words = drawing.to_vec();
    words[3 + 3 * k..5 + 3 * k].copy_from_slice(&[pick, fixed]);
    words
}

/// The objects of each class.
fn objects(feed: &[u32]) -> Vec<Vec<u32>> {
    let classes = model::read_feed(feed).classes;
    classes.iter().map(|table| table.iter().map(|pair| pair.0).collect()).collect()
}

// ---- rows

const KEPT: [&str; 4] = ["picked, with rows", "not picked, with rows", "no row", "rows dropped"];

/// A drawing with a fixed node gives just those rows of the drawing without it that have this object there. Where the node is not picked, they are
/// the rows of the drawing that picks it, without its column.
fn kept(tally: &mut Tally, cases: usize) {
    let mut r = Random::new(60);
    let mut met = [0; KEPT.len()];
    for _ in 0..cases {
        let (feed, drawing) = cases::found(&mut r, 5, 6);
        let k = r.below(drawing[0] as usize);
        let pick = drawing[3 + 3 * k];
        let column = nodes(&drawing).take(k).filter(|node| node[1] == 1).count();
        let Some(all) = rows(&feed, &with(&drawing, k, 1, ANY)) else { continue };
        let mut tried = objects(&feed)[drawing[2 + 3 * k] as usize].clone();
        tried.extend([r.below(9) as u32, 65_535]);
        for object in tried {
            let mut wanted: Vec<Vec<u32>> = all.iter().filter(|row| row[column] == object).cloned().collect();
            if pick == 0 {
                // the column is the same in all of them, so they stay as many, and ascend
                wanted = wanted.iter().map(|row| [&row[..column], &row[column + 1..]].concat()).collect();
            }
            let some = !wanted.is_empty();
            let shown = [pick == 1 && some, pick == 0 && some, !some, some && wanted.len() < all.len()];
            shown.iter().zip(&mut met).for_each(|(&shown, count)| *count += shown as usize);
            let fixed = with(&drawing, k, pick, object);
            tally.same("rows with that object at a fixed node", &rows(&feed, &fixed), &Some(wanted), &[&feed[..], &fixed].concat());
        }
    }
    tally.met_by_name("a node fixed", &KEPT.map(String::from), &met[..]);
}

/// Where every node is fixed there is one row just when these objects are an embedding, which the same drawing with every node free and picked tells.
fn all_fixed(tally: &mut Tally, cases: usize) {
    let mut r = Random::new(61);
    let mut met = [0; 2];
    for _ in 0..cases {
        let (feed, mut drawing) = cases::found(&mut r, 4, 5);
        let n = drawing[0] as usize;
        let free = (0..n).fold(drawing.clone(), |words, k| with(&words, k, 1, ANY));
        let Some(embeddings) = rows(&feed, &free) else { continue };
        let of: Vec<Vec<u32>> = nodes(&drawing).map(|node| objects(&feed)[node[0] as usize].clone()).collect();
        // an embedding, or any objects of the classes
        let at: Vec<u32> = match embeddings.get(r.below(embeddings.len())) {
            Some(row) if r.one_in(2) => row.clone(),
            _ => of.iter().map(|objects| objects[r.below(objects.len())]).collect(),
        };
        at.iter().enumerate().for_each(|(k, &object)| drawing[4 + 3 * k] = object);
        let row = nodes(&drawing).zip(&at).filter(|(node, _)| node[1] == 1).map(|(_, &object)| object).collect();
        let expected: Vec<Vec<u32>> = if embeddings.contains(&at) { vec![row] } else { Vec::new() };
        met[expected.len()] += 1;
        tally.same("rows with every node fixed", &rows(&feed, &drawing), &Some(expected), &[&feed[..], &drawing].concat());
    }
    tally.met("every node fixed: rows", &met);
}

/// "A fixed object outside its class": the drawing is accepted, there is no row, and the row slice stays as it was.
fn outside(tally: &mut Tally, cases: usize) {
    let mut r = Random::new(62);
    for _ in 0..cases {
        let (feed, drawing) = cases::found(&mut r, 5, 6);
        let k = r.below(drawing[0] as usize);
        let class = objects(&feed)[drawing[2 + 3 * k] as usize].clone();
        let first = (0..).find(|object| !class.contains(object)).unwrap();
        for object in [first, 65_535, r.below(65_536) as u32].into_iter().filter(|object| !class.contains(object)) {
            let fixed = with(&drawing, k, drawing[3 + 3 * k], object);
            let plan = model::plan(&feed, &fixed, AMPLE);
            let words = plan.as_ref().map_or([0; 2], |p| [p.translation.list.len(), p.work_words()]);
            let answer = queries::ask(tally, &feed, &fixed, &plan, [words[0], words[1], r.below(4)]);
            tally.same("an object outside its class", &(answer.verdict, answer.extent), &(ACCEPTED, 0), &fixed);
            let [mut list, mut work, mut out] = [words[0], words[1], 3].map(|words| vec![7; words]);
            let given = matcher::query(&feed, &fixed, &mut list, &mut work, &mut out).map(<[u32]>::len);
            tally.same("an object outside its class: the row slice", &(given, out), &(Ok(0), vec![7; 3]), &fixed);
        }
    }
}

// ---- translations

/// The words of the loads: "The load of a fixed node is followed directly by kind 14, and that register is the node's". Then the registers of the
/// nodes and of the edges.
fn loads(drawing: &[u32]) -> (Vec<u32>, Vec<u32>) {
    let (mut words, mut registers) = (Vec::new(), Vec::new());
    for node in nodes(drawing) {
        words.extend([0, node[0], 0]);
        if node[2] < ANY {
            words.extend([14, words.len() as u32 / 3 - 1, node[2]]);
        }
        registers.push(words.len() as u32 / 3 - 1);
    }
    for edge in drawing[2..].chunks(3).skip(drawing[0] as usize) {
        words.extend([1, edge[0], 0]);
        registers.push(words.len() as u32 / 3 - 1);
    }
    (words, registers)
}

/// What follows the loads of a list without a fixed node, where the loads have these registers instead, and all others are so many later.
fn renumbered(list: &[u32], loads: &[u32], later: u32) -> Vec<u32> {
    let register = |r: u32| loads.get(r as usize).copied().unwrap_or(r + later);
    let steps = list.chunks(3).skip(loads.len());
    steps.flat_map(|w| [w[0], register(w[1]), if matches!(w[0], 3 | 4 | 10) { register(w[2]) } else { w[2] }]).collect()
}

/// Kind 14 stands directly behind the load, and what follows the loads is as without it, over the registers of the fixed nodes.
fn translations(tally: &mut Tally, cases: usize) {
    let mut r = Random::new(63);
    let mut met = [0; 13];
    for i in 0..cases {
        let (most_nodes, most_edges) = if i % 4 == 0 { (12, 24) } else { (6, 8) };
        let (feed, drawing) = cases::found(&mut r, most_nodes, most_edges);
        let count = nodes(&drawing).filter(|node| node[2] < ANY).count();
        let free = (0..drawing[0] as usize).fold(drawing.clone(), |words, k| with(&words, k, words[3 + 3 * k], ANY));
        let (first, registers) = loads(&drawing);
        let (_, plain) = translation(&feed, &free);
        let expected = [first, renumbered(&plain, &registers, count as u32)].concat();
        tally.same("a translation with fixed nodes", &translation(&feed, &drawing), &(ACCEPTED, expected), &drawing);
        met[count] += 1;
    }
    tally.met("translations by fixed nodes", &met);
}

// ---- by name

fn named(tally: &mut Tally) {
    // classes {1, 2, 3} and {2, 65535}; labels {(1,1), (1,2), (2,3)} and {(2,65535)}
    let belt = feed(&[&[1, 2, 3], &[2, 65_535]], &[&[(1, 1), (1, 2), (2, 3)], &[(2, 65_535)]]);
    let mut rows = |name: &str, nodes: &[(u32, u32, u32)], edges: &[(u32, u32, u32)], expected: &[&[u32]]| {
        examples::rows(tally, &format!("fixed, {name}"), &belt, &fixed_drawing(nodes, edges), expected);
    };
    rows("one node", &[(0, 1, 2)], &[], &[&[2]]);
    rows("one node, outside its class", &[(0, 1, 0)], &[], &[]);
    rows("one node, the highest object", &[(1, 1, 65_535)], &[], &[&[65_535]]);
    rows("one node, any object", &[(1, 1, ANY)], &[], &[&[2], &[65_535]]);
    rows("a loop", &[(0, 1, 1)], &[(0, 0, 0)], &[&[1]]);
    rows("a loop that is not met", &[(0, 1, 2)], &[(0, 0, 0)], &[]);
    rows("two loops", &[(0, 1, 1)], &[(0, 0, 0), (0, 0, 0)], &[&[1]]);
    rows("two nodes, one object", &[(0, 1, 2), (0, 1, 2)], &[], &[&[2, 2]]);
    rows("two nodes, one object, an edge", &[(0, 1, 1), (0, 1, 1)], &[(0, 0, 1)], &[&[1, 1]]);
    rows("two nodes, one object, an edge that is not met", &[(0, 1, 2), (0, 1, 2)], &[(0, 0, 1)], &[]);
    rows("two nodes of two classes, one object", &[(0, 1, 2), (1, 1, 2)], &[], &[&[2, 2]]);
    rows("two nodes, an object that one class has", &[(0, 1, 3), (1, 1, 3)], &[], &[]);
    rows("the source", &[(0, 1, 1), (0, 1, ANY)], &[(0, 0, 1)], &[&[1, 1], &[1, 2]]);
    rows("the target", &[(0, 1, ANY), (0, 1, 2)], &[(0, 0, 1)], &[&[1, 2]]);
    rows("an unpicked middle", &[(0, 1, ANY), (0, 0, 2), (0, 1, ANY)], &[(0, 0, 1), (0, 1, 2)], &[&[1, 3]]);
    rows("an unpicked node beside", &[(0, 1, ANY), (1, 0, 2)], &[], &[&[1], &[2], &[3]]);
    rows("an unpicked node beside, outside its class", &[(0, 1, ANY), (1, 0, 1)], &[], &[]);
    rows("a chain of labels", &[(0, 1, 1), (0, 0, 2), (1, 1, 65_535)], &[(0, 0, 1), (1, 1, 2)], &[&[1, 65_535]]);
    let mut turned = feed(&[&[1, 2, 3]], &[&[(2, 1), (3, 2)]]);
    turned[3] += model::MARK;
    examples::rows(tally, "fixed, a two-way label", &turned, &fixed_drawing(&[(0, 1, 2), (0, 1, ANY)], &[(0, 0, 1)]), &[&[2, 1], &[2, 3]]);
    slices(tally);
}

/// One node fixed to 2 of {1, 2, 3}: two instructions, three pairs and one.
fn slices(tally: &mut Tally) {
    let belt = feed(&[&[1, 2, 3]], &[]);
    let node = fixed_drawing(&[(0, 1, 2)], &[]);
    tally.same("a fixed node's list", &translation(&belt, &node), &(ACCEPTED, vec![0, 0, 0, 14, 0, 2]), &node);
    for (lengths, expected) in [
        ([6, 8, 1], ACCEPTED),
        ([6, 8, 0], (12, 0)),
        ([6, 7, 1], (10, 1)),
        ([6, 6, 1], (10, 1)),
        ([6, 5, 1], (10, 0)),
        ([5, 8, 1], (13, 2)),
        ([3, 8, 1], (13, 2)),
    ] {
        verdict(tally, &format!("a fixed node, slices {lengths:?}"), &belt, &node, lengths, expected);
    }
}

// ---- the third word

/// What each of the calls with a drawing says of it; after a refusal no slice is written.
fn refused(tally: &mut Tally, name: &str, feed: &[u32], drawing: &[u32], expected: Verdict) {
    let mut slices = [matcher::LIST_WORDS, 6_000, 600].map(|words| vec![7; words]);
    let kept = slices.clone();
    let mut found = vec![said(&matcher::check_drawing(feed, drawing)), said(&matcher::translate(feed, drawing, &mut slices[0]))];
    let untouched = slices == kept;
    let [list, work, out] = &mut slices;
    found.push(said(&matcher::query(feed, drawing, list, work, out)));
    tally.same(name, &found, &vec![expected; 3], drawing);
    tally.same(&format!("{name}: slices"), &(untouched, slices == kept), &(expected != ACCEPTED, expected != ACCEPTED), drawing);
}

/// "A word above 65,536 is 6", at every node of drawings of every size; and words of the length that drawings had before are 5.
fn ceilings(tally: &mut Tally) {
    let belt = feed(&[&[1]], &[&[(1, 1)]]);
    for n in 1..=12 {
        for e in [0, 1, 24] {
            let free = examples::drawing(&vec![(0, 1); n], &vec![(0, 0, n as u32 - 1); e]);
            for k in 0..n {
                let place = 4 + 3 * k as u32;
                for (word, expected) in [(65_535, ACCEPTED), (65_536, ACCEPTED), (65_537, (6, place)), (131_072, (6, place)), (u32::MAX, (6, place))] {
                    refused(tally, &format!("{word} at node {k} of {n}"), &belt, &with(&free, k, 1, word), expected);
                }
            }
        }
        for e in 0..=24 {
            let old = [vec![n as u32, e], [0, 1].repeat(n), [0, 0, 0].repeat(e as usize)].concat();
            refused(tally, "two words a node", &belt, &old, (5, 0));
        }
    }
}

/// Two bad words, in every order: 6 at the lower; before 7 and behind 5 and the feed.
fn two_causes(tally: &mut Tally) {
    let belt = feed(&[&[1]], &[&[(1, 1)]]);
    let good = fixed_drawing(&[(0, 1, 1), (0, 0, ANY), (0, 1, ANY)], &[(0, 0, 1), (0, 1, 2)]);
    let bad = |place: usize| if place < 11 { [1, 2, 65_537][(place - 2) % 3] } else { [1, 3, 3][(place - 2) % 3] };
    for i in 2..good.len() {
        for j in 2..=i {
            let mut words = good.clone();
            (words[i], words[j]) = (bad(i), bad(j));
            refused(tally, &format!("words {j} and {i}"), &belt, &words, (6, j as u32));
        }
    }
    let unpicked = (0..3).fold(good.clone(), |words, k| with(&words, k, 0, ANY));
    refused(tally, "no pick", &belt, &unpicked, (7, 0));
    for k in 0..3 {
        let place = 4 + 3 * k as u32;
        refused(tally, "no pick, and 65,537", &belt, &with(&unpicked, k, 0, 65_537), (6, place));
        let wide = with(&good, k, 1, 65_537);
        refused(tally, "65,537, and a word less", &belt, &wide[..wide.len() - 1], (5, 0));
        refused(tally, "65,537, and a word more", &belt, &[&wide[..], &[0]].concat(), (5, 0));
        for (feed, expected) in [(&belt[..3], (1, 0)), (&[33, 0][..], (2, 0)), (&[1, 0, 1, 65_536, 65_536], (3, 3)), (&[1, 0, 1, 5, 6], (4, 3))] {
            refused(tally, "65,537, and a bad feed", feed, &wide, expected);
        }
    }
}

// ---- the longest translation

/// A drawing of 12 nodes and 24 edges, all picked, with a long translation: one end of an edge is changed at a time, and what is longer stays.
fn long(r: &mut Random, tries: usize) -> Vec<u32> {
    let length = |words: &[u32]| model::translate(&model::read_drawing(words)).list.len();
    let edges: Vec<(u32, u32, u32)> = (0..24).map(|_| (0, r.below(12) as u32, r.below(12) as u32)).collect();
    let mut best = examples::drawing(&[(0, 1); 12], &edges);
    let mut longest = length(&best);
    for _ in 0..tries {
        let mut other = best.clone();
        for _ in 0..1 + r.below(2) {
            other[38 + 3 * r.below(24) + 1 + r.below(2)] = r.below(12) as u32;
        }
        let found = length(&other);
        if found >= longest {
            (best, longest) = (other, found);
        }
    }
    best
}

/// No translation has more than 876 instructions: 864, and one for each of 12 fixed nodes.
fn longest(tally: &mut Tally, starts: usize, tries: usize) {
    let mut r = Random::new(64);
    let belt = feed(&[&[1]], &[&[(1, 1)]]);
    let mut most = 0;
    for _ in 0..starts {
        let free = long(&mut r, tries);
        let all = (0..12).fold(free.clone(), |words, k| with(&words, k, 1, 1));
        let [plain, fixed] = [&free, &all].map(|drawing| translation(&belt, drawing));
        let [plain_count, count] = [&plain, &fixed].map(|found| found.1.len() / 3);
        tally.same("12 fixed nodes take 12 instructions more", &(fixed.0, count), &(ACCEPTED, plain_count + 12), &all);
        tally.same("the longest translation", &(count <= 876, 3 * count <= matcher::LIST_WORDS), &(true, true), &all);
        let plan = model::plan(&belt, &all, AMPLE);
        let numbers = [3 * count, 3 * count - 1].map(|words| queries::ask_list(tally, &belt, &all, &plan, words));
        tally.same("the longest translation, and a word short", &numbers, &[0, 13], &all);
        most = most.max(count);
    }
    println!("the longest translation with 12 fixed nodes: {most} instructions");
    tally.covers("long translations", most > 250);
}

pub fn all(tally: &mut Tally, cases: usize) {
    kept(tally, cases);
    all_fixed(tally, cases);
    outside(tally, cases / 4);
    translations(tally, cases);
    named(tally);
    ceilings(tally);
    two_causes(tally);
    longest(tally, if tally.few { 1 } else { 20 }, if tally.few { 100 } else { 3_000 });
}
