//! The page's section on object numbers that are not dense, with the means of all ratios.

use crate::clock::geometric_mean;
use crate::contest::{Cell, BACKTRACKING, FROM_WORDS, PROVED, SQLITE, UNPROVED};
use crate::drawings::CAP_FIXED;
use crate::figures::count;
use crate::text::{micro, ratio, row};
use crate::Results;

const NUMBERS: &str = "\
The frames above have *dense* numbers: their regions are numbered from 0 on, row by row. Here the same frames have other numbers. *Shuffled* are the same ones in chance order, so that regions that
touch have numbers far from each other. *Spread* are chance ones up to 65,535, in the order of the dense ones, so that there are gaps everywhere. All five matchers are asked on these frames, too,
and must give the same rows; less time is spent on each query. The sizes of the registers are the same, whatever the numbers.
";

const MEANS: &str = "\
Geometric means of the queries that are not refused. On `bottle, cap fixed` SQLite looks up one known object and few others, while the program loads its tables whole, whatever is fixed; so
the means are there without it, too.
";

const NAMES: [&str; 3] = ["dense", "shuffled", "spread"];

/// One drawing on one frame, with dense, shuffled and spread numbers.
type Query<'r> = [&'r Cell; 3];

/// By drawing, for each frame.
fn queries(results: &Results) -> Vec<(&'static str, Vec<Query<'_>>)> {
    let cells = [&results.cells, &results.shuffled, &results.spread];
    let on = |i: usize| (0..results.frames.len()).map(|j| cells.map(|cells| &cells[i][j])).collect();
    results.drawings.iter().enumerate().map(|(i, drawing)| (drawing.name, on(i))).collect()
}

/// The proved times and how SQLite's compare.
fn figures(query: &Query) -> Vec<String> {
    if let Some((number, place)) = query[0].refused {
        return vec![format!("refused: {number} at {place}"); 3].into_iter().chain(vec![String::new(); 5]).collect();
    }
    let times = query.map(|cell| cell.time(PROVED));
    let slower = [times[1], times[2]].map(|time| ratio(time / times[0]));
    times.map(micro).into_iter().chain(slower).chain(query.map(|cell| ratio(cell.ratio(SQLITE)))).collect()
}

fn table(results: &Results) -> String {
    let mut text = String::from(
        "| drawing | regions | proved query, dense, µs | shuffled, µs | spread, µs | shuffled / dense | spread / dense | SQLite / proved, dense | shuffled | spread |\n\
        |---|---:|---:|---:|---:|---:|---:|---:|---:|---:|\n",
    );
    for (name, queries) in queries(results) {
        for (i, query) in queries.iter().enumerate() {
            let name = if i == 0 { name } else { "" };
            text += &row([name.into(), count(query[0].regions)].into_iter().chain(figures(query)));
        }
    }
    text
}

/// The means of these queries with one kind of numbers, or with all three.
fn mean(drawings: &str, queries: &[Query], kinds: &[usize]) -> String {
    let cells = || queries.iter().flat_map(|query| kinds.iter().map(|&k| query[k]));
    let of = |which: usize| geometric_mean(cells().map(|cell| cell.ratio(which)));
    let to_dense = |k: usize| geometric_mean(queries.iter().map(|query| query[k].time(PROVED) / query[0].time(PROVED)));
    let faster = cells().filter(|cell| cell.ratio(SQLITE) < 1.0).count();
    let (name, slower) = match kinds {
        [0] => (NAMES[0], String::new()),
        [k] => (NAMES[*k], ratio(to_dense(*k))),
        _ => ("all three", String::new()),
    };
    let means = [of(SQLITE), of(BACKTRACKING), of(FROM_WORDS), 1.0 / of(UNPROVED)].map(ratio);
    row([drawings, name].map(String::from).into_iter().chain(means).chain([slower, format!("{faster} of {}", cells().count())]))
}

fn means(results: &Results) -> String {
    let mut text = String::from(
        "| drawings | numbers | SQLite / proved | backtracking / proved | from the words / proved | proved / unproved | proved: to dense | SQLite is faster in |\n\
        |---|---|---:|---:|---:|---:|---:|---:|\n",
    );
    let queries = queries(results);
    for (drawings, left_out) in [("all", ""), ("all but `bottle, cap fixed`", CAP_FIXED)] {
        let kept = queries.iter().filter(|(name, _)| *name != left_out).flat_map(|(_, queries)| queries);
        let kept: Vec<Query> = kept.filter(|query| query[0].refused.is_none()).copied().collect();
        for (i, kinds) in [&[0][..], &[1], &[2], &[0, 1, 2]].into_iter().enumerate() {
            text += &mean(if i == 0 { drawings } else { "" }, &kept, kinds);
        }
    }
    text
}

pub fn section(results: &Results) -> String {
    format!("{NUMBERS}\n{}\n{MEANS}\n{}", table(results), means(results))
}
