//! Random sheets for pages: so many rows, picks and letters in a name; and sheets at the sizes of the run and of the rows, with more picks.

use crate::random::Random;
use crate::sheet_cases::{self, free, Plan, Sheet};
use std::collections::BTreeSet;

/// Rows at the turn of a page.
const TURNS: [usize; 12] = [0, 1, 2, 48, 49, 50, 51, 99, 100, 101, 150, 151];

/// So many objects, of one to five digits.
fn objects(r: &mut Random, count: usize) -> BTreeSet<u32> {
    let mut objects = BTreeSet::new();
    while objects.len() < count {
        let below = [10, 100, 1_000, 10_000, 65_536][r.below(5)];
        objects.insert(if r.one_in(30) { 65_535 } else { r.below(below) as u32 });
    }
    objects
}

fn shuffled<T>(r: &mut Random, mut all: Vec<T>) -> Vec<T> {
    (1..all.len()).for_each(|k| all.swap(k, r.below(k + 1)));
    all
}

// ---- shapes with so many rows

/// One node, a class of so many objects.
fn class(r: &mut Random, rows: usize) -> Plan {
    Plan { classes: vec![objects(r, rows)], nodes: vec![free(0, 1)], ..Plan::default() }
}

/// Two nodes and an edge between them, of a label with so many pairs; now and then two-way, with the pairs turned. The lefts are all different, so
/// the second node need not be picked.
fn pairs(r: &mut Random, rows: usize, both: bool) -> Plan {
    let all = objects(r, rows + 3);
    let targets: Vec<u32> = all.iter().rev().take(3).copied().collect();
    let sources: BTreeSet<u32> = all.iter().take(rows).copied().collect();
    let two_way = r.one_in(2);
    let pair = |(u, v)| if two_way { (v, u) } else { (u, v) };
    let label = sources.iter().map(|&u| pair((u, targets[r.below(3)]))).collect();
    Plan {
        classes: vec![sources, targets.into_iter().collect()],
        labels: vec![label],
        two_way: if two_way { [0].into() } else { BTreeSet::new() },
        nodes: vec![free(0, 1), free(1, both as u32)],
        edges: vec![[0, 0, 1]],
    }
}

/// Two nodes without an edge.
fn product(r: &mut Random, rows: usize) -> Plan {
    let divisors: Vec<usize> = (1..=rows).filter(|a| rows % a == 0).collect();
    let a = divisors[r.below(divisors.len())];
    Plan { classes: vec![objects(r, a), objects(r, rows / a)], nodes: vec![free(0, 1), free(1, 1)], ..Plan::default() }
}

/// A node with an edge to itself that nothing meets.
fn nothing(r: &mut Random) -> Plan {
    let all: Vec<u32> = objects(r, 4).into_iter().collect();
    let labels = vec![[(all[0], all[1]), (all[2], all[3])].into()];
    Plan { classes: vec![all.into_iter().collect()], labels, nodes: vec![free(0, 1)], edges: vec![[0, 0, 0]], ..Plan::default() }
}

/// Nodes more, each of a class with one object: the rows stay as many.
fn add_nodes(r: &mut Random, plan: &mut Plan, picks: usize) {
    plan.classes.push(objects(r, 1));
    let single = plan.classes.len() - 1;
    let picked = plan.nodes.iter().filter(|node| node.1 == 1).count();
    plan.nodes.extend((picked..picks).map(|_| free(single, 1)));
    if r.one_in(4) {
        plan.nodes.push(free(single, 0));
    }
}

/// The nodes in another order.
fn reorder(r: &mut Random, plan: &mut Plan) {
    let order = shuffled(r, (0..plan.nodes.len()).collect());
    plan.nodes = order.iter().map(|&k| plan.nodes[k]).collect();
    let place = |node: usize| order.iter().position(|&k| k == node).unwrap();
    plan.edges.iter_mut().for_each(|edge| *edge = [edge[0], place(edge[1]), place(edge[2])]);
}

// ---- names

/// Names of the nodes that all have so many letters.
fn rename(r: &mut Random, sheet: &mut Sheet, letters: usize) {
    let alphabet = shuffled(r, ('a'..='z').collect());
    let name = |k: usize| (0..letters).map(|i| alphabet[(k + 5 * i) % 26]).collect::<String>();
    let old: Vec<String> = sheet.sections[2].iter().map(|node| node[0].clone()).collect();
    for (k, node) in sheet.sections[2].iter_mut().enumerate() {
        node[0] = name(k);
    }
    let ends = sheet.sections[3].iter_mut().flat_map(|edge| edge[1..].iter_mut());
    ends.for_each(|end| *end = name(old.iter().position(|node| node == end).unwrap()));
}

// ---- sheets

/// A sheet that reads well, with rows about the turn of a page or some more, and one to six picks.
pub fn counted(r: &mut Random) -> Sheet {
    let (rows, picks) = match r.below(60) {
        0 => (152 + r.below(1_200), 1),
        _ => (TURNS[r.below(TURNS.len())], 1 + r.below(6)),
    };
    let mut plan = match r.below(3) {
        _ if rows == 0 => nothing(r),
        0 => class(r, rows),
        1 if picks > 1 => product(r, rows),
        _ => pairs(r, rows, picks > 1),
    };
    if picks > 1 || r.one_in(8) {
        add_nodes(r, &mut plan, picks);
    }
    reorder(r, &mut plan);
    let mut sheet = sheet_cases::written(r, &plan);
    match r.below(3) {
        0 => rename(r, &mut sheet, 1),
        1 => rename(r, &mut sheet, 12),
        _ => {}
    }
    sheet
}

/// A sheet whose run or rows are at their sizes, with up to six picks more.
pub fn large(r: &mut Random) -> Sheet {
    let mut plan = match r.below(16) {
        0 => sheet_cases::product(r, 65_536, 200),
        1 => sheet_cases::hub(r, 65_536, 200),
        2..=5 => sheet_cases::product(r, 2_048, 2),
        6..=9 => sheet_cases::hub(r, 2_048, 30),
        _ => sheet_cases::rows(r),
    };
    if r.one_in(2) {
        let picks = plan.nodes.iter().filter(|node| node.1 == 1).count() + 1 + r.below(6);
        add_nodes(r, &mut plan, picks);
    }
    sheet_cases::written(r, &plan)
}
