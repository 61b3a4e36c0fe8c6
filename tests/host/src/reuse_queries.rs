//! The work slice used again (document 02, E5), queries: drawings with their living registers by hand, in slices of every length; random drawings in
//! slices about their peak, stopped at every instruction where that can be, and their translations cut behind every instruction.

use crate::cases;
use crate::examples::{feed, fixed_drawing};
use crate::living::{operands, padded};
use crate::misreadings;
use crate::model::{self, Plan, Verdict, ACCEPTED, ANY};
use crate::queries::ask;
use crate::random::Random;
use crate::reuse::{self, all_registers, by_hand, Met};
use crate::Tally;

/// More work words than the cases by hand need; random cases that need more are left out.
const AMPLE: usize = 40_000;

// ---- by hand

/// A query over the feed below: nodes (class, pick, fixed), edges (label, source, target), the list, and the registers that live before each
/// instruction and after the last.
struct Case {
    name: &'static str,
    nodes: &'static [(u32, u32, u32)],
    edges: &'static [(u32, u32, u32)],
    list: &'static [u32],
    living: &'static [&'static [usize]],
}

const TWO: [u32; 18] = [0, 0, 0, 0, 1, 0, 10, 0, 1, 7, 2, 0, 8, 2, 0, 9, 2, 0];

const CASES: [Case; 6] = [
    // the path of a lone node is the last node's register
    Case { name: "one node", nodes: &[(0, 1, ANY)], edges: &[], list: &[0, 0, 0], living: &[&[], &[0]] },
    Case { name: "one fixed node", nodes: &[(0, 1, 2)], edges: &[], list: &[0, 0, 0, 14, 0, 2], living: &[&[], &[0], &[1]] },
    Case {
        name: "two loops",
        nodes: &[(0, 1, ANY)],
        edges: &[(0, 0, 0), (0, 0, 0)],
        list: &[0, 0, 0, 1, 0, 0, 1, 0, 0, 4, 0, 1, 4, 3, 2],
        living: &[&[], &[0], &[0, 1], &[0, 1, 2], &[2, 3], &[4]],
    },
    // the tag of a node that is not picked is used by nothing
    Case {
        name: "two picked nodes",
        nodes: &[(0, 1, ANY), (1, 1, ANY)],
        edges: &[],
        list: &TWO,
        living: &[&[], &[0], &[0, 1], &[2], &[2, 3], &[2, 3, 4], &[3, 4, 5]],
    },
    Case {
        name: "the first of two picked",
        nodes: &[(0, 1, ANY), (1, 0, ANY)],
        edges: &[],
        list: &TWO,
        living: &[&[], &[0], &[0, 1], &[2], &[2, 3], &[2, 3], &[3, 5]],
    },
    Case {
        name: "the second of two picked",
        nodes: &[(0, 0, ANY), (1, 1, ANY)],
        edges: &[],
        list: &TWO,
        living: &[&[], &[0], &[0, 1], &[2], &[2], &[2, 4], &[4, 5]],
    },
];

/// Three nodes. A path that a later combination replaces is no final path: registers 4 and 5 of the first, 4 of the second, 7 and 8 of the third are
/// gone at the end.
#[rustfmt::skip]
const REPLACED: [Case; 3] = [
    Case {
        name: "three picked nodes",
        nodes: &[(0, 1, ANY), (1, 1, ANY), (1, 1, ANY)],
        edges: &[],
        list: &[0, 0, 0, 0, 1, 0, 0, 1, 0, 10, 0, 1, 7, 3, 0, 8, 3, 0, 9, 3, 0, 10, 6, 2, 7, 7, 0, 8, 7, 0, 9, 7, 0, 3, 8, 4, 3, 8, 5],
        living: &[
            &[], &[0], &[0, 1], &[0, 1, 2], &[2, 3], &[2, 3, 4], &[2, 3, 4, 5], &[2, 4, 5, 6], &[4, 5, 7], &[4, 5, 7, 8], &[4, 5, 7, 8, 9],
            &[4, 5, 8, 9, 10], &[5, 8, 9, 10, 11], &[9, 10, 11, 12],
        ],
    },
    Case {
        name: "the first of three picked",
        nodes: &[(0, 1, ANY), (1, 0, ANY), (1, 0, ANY)],
        edges: &[],
        list: &[0, 0, 0, 0, 1, 0, 0, 1, 0, 10, 0, 1, 7, 3, 0, 8, 3, 0, 9, 3, 0, 10, 6, 2, 7, 7, 0, 8, 7, 0, 9, 7, 0, 3, 8, 4],
        living: &[
            &[], &[0], &[0, 1], &[0, 1, 2], &[2, 3], &[2, 3, 4], &[2, 3, 4], &[2, 4, 6], &[4, 7], &[4, 7, 8], &[4, 7, 8], &[4, 8, 10], &[10, 11],
        ],
    },
    Case {
        name: "three picked nodes in a row",
        nodes: &[(0, 1, ANY), (0, 1, ANY), (0, 1, ANY)],
        edges: &[(0, 0, 1), (0, 1, 2)],
        list: &[
            0, 0, 0, 0, 0, 0, 0, 0, 0, 1, 0, 0, 1, 0, 0, 3, 0, 3, 3, 5, 1, 7, 6, 0, 8, 6, 0, 9, 6, 0, 3, 8, 4, 3, 9, 10, 3, 11, 2, 7, 12, 0, 8, 12, 0,
            9, 12, 0, 3, 13, 7, 3, 13, 8,
        ],
        living: &[
            &[], &[0], &[0, 1], &[0, 1, 2], &[0, 1, 2, 3], &[0, 1, 2, 3, 4], &[1, 2, 4, 5], &[2, 4, 6], &[2, 4, 6, 7], &[2, 4, 6, 7, 8],
            &[2, 4, 7, 8, 9], &[2, 7, 8, 9, 10], &[2, 7, 8, 11], &[7, 8, 12], &[7, 8, 12, 13], &[7, 8, 12, 13, 14], &[7, 8, 13, 14, 15],
            &[8, 13, 14, 15, 16], &[14, 15, 16, 17],
        ],
    },
];

/// A query over classes {1, 2, 3} and {2, 7} and the label {(1,2), (2,2), (2,3), (3,3)}, in slices of every length up to two words more than its
/// registers take together.
fn every_length(tally: &mut Tally, case: &Case) {
    let feed = feed(&[&[1, 2, 3], &[2, 7]], &[&[(1, 2), (2, 2), (2, 3), (3, 3)]]);
    let Case { name, list, living, .. } = *case;
    let drawing = fixed_drawing(case.nodes, case.edges);
    let plan = model::plan(&feed, &drawing, AMPLE);
    let tables = model::tables(&model::read_feed(&feed), list);
    let all: usize = tables.iter().map(|table| 2 * table.len()).sum();
    for words in 0..=all + 2 {
        let (verdict, standing) = by_hand(&tables, living, words);
        let work = padded(&standing, words);
        let answer = ask(tally, &feed, &drawing, &plan, [list.len(), words, 99]);
        tally.same(&format!("{name}, {words} words"), &(answer.verdict, &answer.work), &(verdict, &work), &drawing);
        tally.same(&format!("{name}, its list"), &answer.list[..], list, &drawing);
        if verdict == ACCEPTED {
            // the registers stand after 12, too
            let short = ask(tally, &feed, &drawing, &plan, [list.len(), words, answer.extent - 1]);
            tally.same(&format!("{name}, {words} words, no room for rows"), &(short.verdict, &short.work), &((12, 0), &work), &drawing);
        }
    }
}

// ---- random

const SHOWN: [&str; 4] = ["a path replaced", "a tag that nothing uses", "a path behind the last node's register", "one register stands"];

/// What the plan of an accepted query shows.
fn shown(plan: &Plan) -> [bool; SHOWN.len()] {
    let (list, roots) = (&plan.trace.list, &plan.trace.roots);
    let used = |r: u32| list.chunks(3).any(|w| operands(w).contains(&r));
    let tags = (0..).zip(list.chunks(3)).filter(|(_, w)| matches!(w[0], 7 | 8)).map(|(r, _)| r);
    let last = plan.translation.last;
    let stays = plan.trace.living(list.len() / 3).len();
    [
        !plan.translation.replaced.is_empty(),
        tags.clone().any(|r| !roots.contains(&r) && !used(r)),
        roots.iter().any(|&r| r > last),
        stays == 1,
    ]
}

/// A query with list and row slices that are long enough or, now and then, just so.
fn query(tally: &mut Tally, feed: &[u32], drawing: &[u32], plan: &Result<Plan, Verdict>, words: usize) -> Verdict {
    let rows = plan.as_ref().map_or(0, |p| p.rows.len());
    let list = plan.as_ref().map_or(0, |p| p.translation.list.len());
    ask(tally, feed, drawing, plan, [list + words % 3, words, rows + words % 2]).verdict
}

fn random(tally: &mut Tally, cases: usize) {
    let mut r = Random::new(71);
    let mut met = Met::default();
    let mut counts = [0; SHOWN.len()];
    for i in 0..cases {
        let (nodes, edges) = if i % 16 == 0 { (12, 24) } else { (5, 7) };
        let (feed, drawing) = cases::found(&mut r, nodes, edges);
        let plan = model::plan(&feed, &drawing, AMPLE);
        let Ok(found) = &plan else { continue };
        if found.verdict.0 == 10 || all_registers(&found.trace) > AMPLE - 100 {
            continue;
        }
        if found.verdict == ACCEPTED {
            shown(found).iter().zip(&mut counts).for_each(|(&shown, count)| *count += shown as usize);
        }
        reuse::compare(tally, &mut met, &mut r, &feed, &found.trace, |tally, words| query(tally, &feed, &drawing, &plan, words));
        if i % 8 == 5 {
            let (peak, replaced) = (found.work_words(), &found.translation.replaced);
            let lengths = (peak.saturating_sub(2)..=peak).chain([r.below(peak + 1)]);
            lengths.for_each(|words| met.told.note(&found.trace, replaced, words));
        }
    }
    met.show(tally, "work slices used again, queries", &misreadings::OF_QUERIES);
    tally.met_by_name("work slices used again, drawings with", &SHOWN.map(String::from), &counts);
}

/// 12 picked nodes in a row, over three objects in a ring: what the query needs, and what its registers take together.
fn long_chain(tally: &mut Tally) {
    let pairs: Vec<(u32, u32)> = (1..4).map(|u| (u, u % 3 + 1)).collect();
    let belt = feed(&[&[1, 2, 3]], &[&pairs]);
    let edges: Vec<(u32, u32, u32)> = (0..11).map(|k| (0, k, k + 1)).collect();
    let drawing = fixed_drawing(&[(0, 1, ANY); 12], &edges);
    let plan = model::plan(&belt, &drawing, AMPLE);
    let Ok(found) = &plan else { return tally.same("12 nodes in a row", &false, &true, &drawing) };
    let (all, peak) = (all_registers(&found.trace), found.work_words());
    println!("12 picked nodes in a row: {peak} work words, {all} for all registers together");
    for (words, expected) in [(all, ACCEPTED), (peak, ACCEPTED), (peak - 1, found.trace.verdict(peak - 1))] {
        let verdict = query(tally, &belt, &drawing, &plan, words);
        tally.same("12 nodes in a row", &verdict, &expected, &drawing);
    }
    tally.same("12 nodes in a row: a third suffices", &(3 * peak < all), &true, &[peak as u32, all as u32]);
}

pub fn all(tally: &mut Tally, cases: usize) {
    CASES.iter().chain(&REPLACED).for_each(|case| every_length(tally, case));
    long_chain(tally);
    random(tally, cases);
}
