//! The page on two libraries that are lent the same words.

use crate::figures::count;
use crate::means::{answer, means, NUMBERS};
use crate::text::{micro, ratio, row};
use crate::turns::Ways;
use crate::ways::{BEFORE, NOW};
use crate::Results;

const HEAD: &str = "\
# The query, beside an earlier library

Written by `bench/before`; x86-64, one core. Each whole query of [bench-query.md](bench-query.md), which has the drawings and the frames, is asked of an earlier state of the library and of this
one, in one process. Both first gave the same rows or the same refusal, and the same words in the list and in the work slice; otherwise the bench fails. Then they take turns. Each slice is lent
with just the words that are needed. A time is processor time, the median of the turns in three passes.
**A ratio is the time before to the time now, the median of the turns: above 1 the library has become faster.**
";

fn faster(ways: &Ways<2>) -> f64 {
    ways.ratio(BEFORE, NOW)
}

fn table(results: &Results<2>) -> String {
    let mut text = String::from(
        "| drawing | regions | rows | dense: before, µs | now, µs | before / now | shuffled: before, µs | now, µs | before / now | spread: before, µs | now, µs | before / now |\n\
        |---|---:|---:|---:|---:|---:|---:|---:|---:|---:|---:|---:|\n",
    );
    for (name, query) in results.rows() {
        let figures = query.iter().flat_map(|ways| {
            let [before, now] = ways.times().map(micro);
            [before, now, ratio(faster(ways))]
        });
        text += &row([name.into(), count(query[0].regions), answer(&query[0])].into_iter().chain(figures));
    }
    text
}

pub fn page(results: &Results<2>) -> String {
    format!("{HEAD}\n{NUMBERS}\n{}\n## All queries\n\n{}", means(results, faster, |x| x < 1.0), table(results))
}
