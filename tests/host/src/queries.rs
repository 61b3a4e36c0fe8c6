//! Translations and queries against the model, with slices of many lengths; the rows also against a plain search over embeddings.

use crate::cases;
use crate::checks::Causes;
use crate::examples;
use crate::model::{self, Answer, Drawing, Feed, Label, Node, Plan, Verdict, ANY};
use crate::random::Random;
use crate::search;
use crate::{said, Tally};
use std::collections::{BTreeMap, BTreeSet};

// ---- one call

/// Words on either side of a lent slice, which no call may touch.
const MARGIN: usize = 4;

/// Distinct words, none of them 0.
fn pattern(words: usize) -> Vec<u32> {
    (0..words as u32).map(|i| 0xa000_0000 + 977 * i).collect()
}

fn lend(words: usize) -> Vec<u32> {
    pattern(words + 2 * MARGIN)
}

fn slice(lent: &mut [u32]) -> &mut [u32] {
    let end = lent.len() - MARGIN;
    &mut lent[MARGIN..end]
}

/// The first word that is not the expected one: place, found, expected. Words beside the slice are expected as they were lent.
fn first_difference(lent: &[u32], expected: &[u32]) -> Option<(isize, u32, u32)> {
    let mut whole = pattern(lent.len());
    slice(&mut whole).copy_from_slice(expected);
    (0..whole.len()).find(|&i| lent[i] != whole[i]).map(|i| (i as isize - MARGIN as isize, lent[i], whole[i]))
}

/// A query with slices of these lengths, compared with the model in number, place, extent and every word. Gives its answer.
pub fn ask(tally: &mut Tally, feed: &[u32], drawing: &[u32], plan: &Result<Plan, Verdict>, lengths: [usize; 3]) -> Answer {
    let [mut list, mut work, mut rows] = lengths.map(lend);
    let before = [&mut list, &mut work, &mut rows].map(|lent| slice(lent).to_vec());
    let expected = match plan {
        Ok(plan) => plan.answer(&before[0], &before[1], &before[2]),
        Err(verdict) => model::refusal(*verdict, &before[0], &before[1], &before[2]),
    };
    let found = matcher::query(feed, drawing, slice(&mut list), slice(&mut work), slice(&mut rows));
    let (verdict, given) = (said(&found), found.unwrap_or(&[]).to_vec());
    let extent = given.len();
    let input = [feed, drawing, &lengths.map(|n| n as u32)].concat();
    tally.same("query", &(verdict, extent), &(expected.verdict, expected.extent), &input);
    tally.same("query's answer", &given[..], &expected.rows[..expected.extent], &input);
    tally.same("query's list", &first_difference(&list, &expected.list), &None, &input);
    tally.same("query's work slice", &first_difference(&work, &expected.work), &None, &input);
    tally.same("query's rows", &first_difference(&rows, &expected.rows), &None, &input);
    let [list, work, rows] = [&mut list, &mut work, &mut rows].map(|lent| slice(lent).to_vec());
    Answer { verdict, list, work, rows, extent }
}

/// A translation into a slice of this length, compared in the same way. Gives its number.
pub fn ask_list(tally: &mut Tally, feed: &[u32], drawing: &[u32], plan: &Result<Plan, Verdict>, length: usize) -> u32 {
    let mut list = lend(length);
    let before = slice(&mut list).to_vec();
    let (verdict, instructions, expected) = match plan {
        Ok(plan) => plan.list(&before),
        Err(verdict) => (*verdict, 0, before),
    };
    let found = matcher::translate(feed, drawing, slice(&mut list));
    let input = [feed, drawing, &[length as u32]].concat();
    tally.same("translate", &(said(&found), found.unwrap_or(0)), &(verdict, instructions), &input);
    tally.same("translate's list", &first_difference(&list, &expected), &None, &input);
    said(&found).0
}

// ---- many lengths

/// Exact, one short, two short, odd, none, long.
fn lengths(r: &mut Random, exact: usize) -> [usize; 6] {
    [exact, exact.saturating_sub(1), exact.saturating_sub(2), 2 * r.below(exact / 2 + 3) + 1, 0, exact + 1 + r.below(20)]
}

fn distinct(lengths: &[usize; 6]) -> impl Iterator<Item = usize> + '_ {
    (0..6).filter(|&i| !lengths[..i].contains(&lengths[i])).map(|i| lengths[i])
}

/// How often what was met.
#[derive(Default)]
struct Met {
    translate: [usize; 14],
    query: [usize; 14],
    causes: Causes,
    accepted: usize,
    features: BTreeMap<&'static str, usize>,
    searched: usize,
    tried: usize,
    longest: usize,
}

impl Met {
    fn show(&self, tally: &mut Tally) {
        tally.met_of("translations by number", &self.translate, &[0, 1, 2, 3, 4, 5, 6, 7, 13]);
        // the list of a query is a translation, so 8, 9, 16 and 17 are left to runs
        tally.met_of("queries by number", &self.query, &[0, 1, 2, 3, 4, 5, 6, 7, 10, 11, 12, 13]);
        self.causes.show_pairs(tally, "feed and drawing", &[1, 2, 3, 4], &[5, 6, 7]);
        self.causes.show_pairs(tally, "list, run and rows", &[13], &[10, 11, 12]);
        self.causes.show_pairs(tally, "run and rows", &[10], &[12]);
        let shown: Vec<String> = self.features.iter().map(|(name, n)| format!("{name} {n}")).collect();
        println!("drawings with: {}; longest translation {}", shown.join(", "), self.longest);
        tally.covers("drawings of every sort", self.features.values().all(|&n| n > 0));
        println!("rows by search: {} of {} drawings that are accepted; by every choice: {}", self.searched, self.accepted, self.tried);
        tally.covers("rows by search", self.searched >= 50_000);
    }
}

/// What an accepted case shows.
fn features(feed: &Feed, drawing: &Drawing, plan: &Plan) -> [(&'static str, bool); 22] {
    let two = |test: &dyn Fn(usize, usize, usize, usize) -> bool| {
        let edges = &drawing.edges;
        (0..edges.len()).any(|i| (0..i).any(|j| test(edges[i].1, edges[i].2, edges[j].1, edges[j].2)))
    };
    let steps = plan.translation.steps;
    let picks = plan.translation.paths.len();
    let two_way = || drawing.edges.iter().map(|edge| &feed.labels[edge.0]).filter(|label| label.two_way);
    let both = |label: &Label| label.stored.iter().any(|&(u, v)| u != v && label.stored.contains(&(v, u)));
    let fixed: Vec<(usize, u32)> = drawing.nodes.iter().enumerate().filter_map(|(k, node)| Some((k, node.fixed?))).collect();
    let inside = |&(k, object): &(usize, u32)| feed.classes[drawing.nodes[k].class].contains(&(object, object));
    [
        ("loop", steps[0] > 0),
        ("parallel edges", two(&|s, t, u, v| s != t && s == u && t == v)),
        ("opposite edges", two(&|s, t, u, v| s != t && s == v && t == u)),
        ("unpicked chain", steps[2] > 0),
        ("joined nodes", steps[3] > 0),
        ("unconnected", steps[4] > 0),
        ("empty class", drawing.nodes.iter().any(|n| feed.classes[n.class].is_empty())),
        ("12 nodes", drawing.nodes.len() == 12),
        ("24 edges", drawing.edges.len() == 24),
        ("no row", plan.rows.is_empty()),
        ("one row", plan.rows.len() == picks),
        ("several rows", plan.rows.len() > picks),
        ("two-way edge", two_way().next().is_some()),
        ("two-way edge, both directions stored", two_way().any(both)),
        ("fixed node, and rows", !fixed.is_empty() && !plan.rows.is_empty()),
        ("fixed node, not picked", fixed.iter().any(|&(k, _)| !drawing.nodes[k].picked)),
        ("all nodes fixed, and rows", fixed.len() == drawing.nodes.len() && !plan.rows.is_empty()),
        ("fixed outside its class", !fixed.iter().all(inside)),
        ("fixed to 65,535", fixed.iter().any(|&(_, object)| object == 65_535)),
        ("fixed to 65,535, in its class", fixed.iter().any(|at| at.1 == 65_535 && inside(at))),
        ("two nodes fixed to one object", (0..fixed.len()).any(|i| fixed[..i].iter().any(|at| at.1 == fixed[i].1))),
        ("loop at a fixed node", drawing.edges.iter().any(|&(_, s, t)| s == t && drawing.nodes[s].fixed.is_some())),
    ]
}

/// The same feed, its labels read in their direction only.
fn one_way(feed: &Feed) -> Feed {
    let label = |label: &Label| Label { stored: label.stored.clone(), two_way: false };
    Feed { classes: feed.classes.clone(), labels: feed.labels.iter().map(label).collect() }
}

/// The same drawing, no node of it fixed.
fn unfixed(drawing: &Drawing) -> Drawing {
    let node = |node: &Node| Node { fixed: None, ..node.clone() };
    Drawing { nodes: drawing.nodes.iter().map(node).collect(), edges: drawing.edges.clone() }
}

/// The rows of an accepted case against the search, and the search against every choice where these are few.
fn compare_rows(tally: &mut Tally, met: &mut Met, feed: &[u32], drawing: &[u32], plan: &Plan) {
    let (f, d) = (model::read_feed(feed), model::read_drawing(drawing));
    met.accepted += 1;
    for (name, shown) in features(&f, &d, plan) {
        *met.features.entry(name).or_default() += shown as usize;
    }
    let Some(found) = search::rows(&f, &d, 200_000) else { return };
    met.searched += 1;
    let backwards = search::rows(&one_way(&f), &d, 200_000).is_some_and(|rows| rows != found);
    *met.features.entry("rows by a pair met backwards").or_default() += backwards as usize;
    let fixed = !found.is_empty() && d.nodes.iter().any(|node| node.fixed.is_some());
    let fewer = fixed && search::rows(&f, &unfixed(&d), 200_000).is_some_and(|rows| rows != found);
    *met.features.entry("fewer rows by a fixed object").or_default() += fewer as usize;
    let words: Vec<u32> = found.iter().flatten().copied().collect();
    tally.same("rows of the embeddings", &plan.rows, &words, &[feed, drawing].concat());
    if search::choices(&f, &d) <= 200 {
        met.tried += 1;
        tally.same("rows by every choice", &search::every_choice(&f, &d), &found, &[feed, drawing].concat());
    }
}

/// The lengths of list, work slice and row slice to try: each slice in all its lengths, those before it long enough, those behind it any.
fn triples(r: &mut Random, plan: &Plan, most: usize) -> Vec<[usize; 3]> {
    let exact = plan.translation.list.len();
    let lists = lengths(r, exact);
    let works = lengths(r, plan.work_words()).map(|n| n.min(most));
    let rows = lengths(r, plan.rows.len());
    let any = |r: &mut Random, of: &[usize; 6]| of[r.below(6)];
    let enough = |r: &mut Random, of: &[usize; 6]| of[5 * r.below(2)];
    let mut triples = Vec::new();
    triples.extend(distinct(&lists).filter(|&list| list < exact).map(|list| [list, any(r, &works), any(r, &rows)]));
    triples.extend(distinct(&works).map(|work| [enough(r, &lists), work, any(r, &rows)]));
    if plan.verdict == model::ACCEPTED {
        triples.extend(distinct(&rows).map(|row| [enough(r, &lists), enough(r, &works), row]));
    }
    triples
}

/// Which slices are too short, two by two in the order of the answers.
fn note_causes(met: &mut Met, plan: &Plan, [list, work, rows]: [usize; 3]) {
    let list = if list < plan.translation.list.len() { 13 } else { 0 };
    let run = plan.trace.verdict(work).0;
    let rows = if rows < plan.rows.len() { 12 } else { 0 };
    met.causes.note(list, run);
    met.causes.note(list, rows);
    met.causes.note(run, rows);
}

/// One feed and drawing, with work slices of at most this length.
fn compare(tally: &mut Tally, met: &mut Met, r: &mut Random, feed: &[u32], drawing: &[u32], most: usize) {
    let plan = model::plan(feed, drawing, most);
    let (triples, lists) = match &plan {
        Ok(p) => {
            let exact = p.translation.list.len();
            (triples(r, p, most), vec![exact, lengths(r, exact)[1 + r.below(5)]])
        }
        Err(_) => (vec![[r.below(60), r.below(60), r.below(60)]], vec![r.below(60)]),
    };
    for lengths in triples {
        if let Ok(p) = &plan {
            note_causes(met, p, lengths);
        }
        met.query[ask(tally, feed, drawing, &plan, lengths).verdict.0 as usize] += 1;
    }
    for length in lists {
        met.translate[ask_list(tally, feed, drawing, &plan, length) as usize] += 1;
    }
    if let Ok(p) = plan {
        met.longest = met.longest.max(p.instructions());
        if p.verdict == model::ACCEPTED {
            compare_rows(tally, met, feed, drawing, &p);
        }
    }
}

// ---- the cases

pub fn few(tally: &mut Tally, cases: usize) {
    let mut met = Met::default();
    small(tally, &mut met, cases);
    met.show(tally);
}

pub fn all(tally: &mut Tally, cases: usize) {
    let mut met = Met::default();
    small(tally, &mut met, cases);
    chains(tally, &mut met, 600);
    dense(tally, &mut met, 600);
    products(tally, &mut met, 60);
    growing(tally, &mut met, 8);
    beyond(tally, &mut met, 12);
    met.show(tally);
}

/// Small feeds and drawings of any size, most of them small, too; some damaged.
fn small(tally: &mut Tally, met: &mut Met, cases: usize) {
    let mut r = Random::new(3);
    for i in 0..cases {
        let (nodes, edges) = if r.one_in(4) { (12, 24) } else { (6, 8) };
        let (mut feed, mut drawing) = if i % 4 == 0 {
            let feed = cases::feed(&mut r);
            let drawing = cases::drawing(&mut r, &feed, nodes, edges);
            (feed, drawing)
        } else {
            cases::found(&mut r, nodes, edges)
        };
        let valid = (feed.clone(), drawing.clone());
        if i % 32 < 3 {
            cases::damage(&mut r, &mut feed);
        }
        match i % 32 {
            1 | 3 => cases::damage(&mut r, &mut drawing),
            2 | 4 => cases::unpick(&mut drawing),
            _ => {}
        }
        met.causes.note(model::check_drawing(&feed, &valid.1).0, model::check_drawing(&valid.0, &drawing).0);
        compare(tally, met, &mut r, &feed, &drawing, 8_000);
    }
}

/// A feed of three classes of one or two objects, and of two labels that lack few of the pairs.
fn tiny(r: &mut Random) -> Vec<u32> {
    let classes: Vec<_> = (0..3).map(|_| (0..1 + r.below(2)).map(|_| r.below(3) as u32).map(|u| (u, u)).collect()).collect();
    let mut labels = vec![(0..9).map(|i| (i / 3, i % 3)).collect::<BTreeSet<_>>(); 2];
    for _ in 0..r.below(8) {
        labels[r.below(2)].remove(&(r.below(3) as u32, r.below(3) as u32));
    }
    cases::feed_with(&classes, &labels, &cases::marks(r, 2))
}

/// A chain of 12 nodes, the two ends picked or one, edges in either direction; in every other case closed to a ring, or with edges doubled.
fn chains(tally: &mut Tally, met: &mut Met, cases: usize) {
    let mut r = Random::new(4);
    for i in 0..cases {
        let feed = tiny(&mut r);
        let mut edges: Vec<[u32; 2]> = (0..11).map(|k| [k, k + 1]).collect();
        match i % 4 {
            1 => edges.push([11, 0]),
            3 => edges.extend((0..13).map(|k| [k % 12, (k + 1) % 12])),
            _ => {}
        }
        let mut drawing = vec![12, edges.len() as u32];
        drawing.extend((0..12).flat_map(|k| [r.below(3) as u32, (k == 0 || k == 11 && i % 3 > 0) as u32, ANY]));
        for [s, t] in edges {
            let (s, t) = if r.one_in(2) { (s, t) } else { (t, s) };
            drawing.extend([r.below(2) as u32, s, t]);
        }
        cases::fix_some(&mut r, &feed, &mut drawing);
        compare(tally, met, &mut r, &feed, &drawing, 40_000);
    }
}

/// 12 nodes, 24 edges, every node picked.
fn dense(tally: &mut Tally, met: &mut Met, cases: usize) {
    let mut r = Random::new(5);
    for _ in 0..cases {
        let feed = tiny(&mut r);
        let mut drawing = vec![12, 24];
        drawing.extend((0..12).flat_map(|_| [r.below(3) as u32, 1, ANY]));
        drawing.extend((0..24).flat_map(|_| [r.below(2) as u32, r.below(12) as u32, r.below(12) as u32]));
        cases::fix_some(&mut r, &feed, &mut drawing);
        compare(tally, met, &mut r, &feed, &drawing, 40_000);
    }
}

/// 12 unconnected nodes, picked or not.
fn products(tally: &mut Tally, met: &mut Met, cases: usize) {
    let mut r = Random::new(6);
    for i in 0..cases {
        let feed = tiny(&mut r);
        let mut drawing = vec![12, 0];
        drawing.extend((0..12).flat_map(|k| [r.below(3) as u32, (i % 2 == 0 || k == 5) as u32, ANY]));
        cases::fix_some(&mut r, &feed, &mut drawing);
        compare(tally, met, &mut r, &feed, &drawing, 200_000);
    }
}

/// 12 nodes of 5 or 7 objects each, every node picked, unconnected or in a chain that any objects fit: registers grow beyond 65,536 pairs.
fn growing(tally: &mut Tally, met: &mut Met, cases: usize) {
    let mut r = Random::new(8);
    for i in 0..cases {
        let objects = if i % 2 == 0 { 5 } else { 7 };
        let any = (0..objects * objects).map(|k| (k / objects, k % objects)).collect();
        let feed = cases::feed_of(&[cases::class(0, objects)], &[any]);
        let edges = if i % 4 < 2 { 0 } else { 11 };
        let mut drawing = vec![12, edges];
        drawing.extend([0, 1, ANY].repeat(12));
        drawing.extend((0..edges).flat_map(|k| [0, k, k + 1]));
        compare(tally, met, &mut r, &feed, &drawing, 1_000_000);
    }
}

/// Registers of about 65,536 pairs, by cross and by composition.
fn beyond(tally: &mut Tally, met: &mut Met, cases: usize) {
    let mut r = Random::new(7);
    for i in 0..cases {
        let a = 200 + r.below(100);
        let b = 65_536 / a + i % 2;
        let (spread, gather) = ((0..b as u32).map(|v| (0, v)).collect(), (0..a as u32).map(|u| (u, 0)).collect());
        let feed = cases::feed_of(&[cases::class(0, a as u32), cases::class(0, b as u32)], &[gather, spread]);
        let two = || examples::drawing(&[(0, 1), (1, 1)], &[]);
        let chain = || examples::drawing(&[(0, 1), (0, 0), (1, 1)], &[(0, 0, 1), (1, 1, 2)]);
        let drawing = if i % 4 < 2 { two() } else { chain() };
        compare(tally, met, &mut r, &feed, &drawing, 1_000_000);
    }
}
