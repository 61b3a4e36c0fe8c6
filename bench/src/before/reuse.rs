//! The page on a library that keeps every register, beside this one, which uses the work slice again.

use crate::figures::count;
use crate::means::{answer, means, NUMBERS};
use crate::text::{micro, ratio, row};
use crate::turns::Ways;
use crate::ways::{BEFORE, NEEDED_WORDS, SAME_WORDS};
use crate::Results;

const HEAD: &str = "\
# The query, beside a library that keeps every register

Written by `bench/before --reuse`; x86-64, one core. Each whole query of [bench-query.md](bench-query.md), which has the drawings and the frames, is asked of an earlier state of the library, which
keeps every register in the work slice to the end (3.0.3 is the last version that does), and of this one, which gives a register up after its last use and moves together what remains. The earlier one is lent
just the words that all registers take. This one is lent as many, and just those that it needs, which *Work words* of that page tells. All three first gave the same rows or the same refusal, and
the same list. Of the work slice, the earlier library left every register, and this one those that still live, each word as the unproved algebra has it; with one word less
each of the two refused with 10. Otherwise the bench fails. Then the three take turns in one process. A time is processor time, the median of the turns in three passes.
**A ratio is the time now to the time before, the median of the turns: above 1 the library has become slower.** The aim is a mean of at most 1.25, and at most 1.6 in each query; a query
above that is set bold.
";

const FULL: &str = "\
Where the slice is full, an intersection has room for its result and not for all pairs of an operand. It then goes a slower way, which looks at the room at each pair that it keeps.
";

/// What a query may take, to the time before.
const BOUND: f64 = 1.6;

fn slower(ways: &Ways<3>, way: usize) -> f64 {
    ways.ratio(way, BEFORE)
}

/// The times with dense numbers; then the ratios with dense, shuffled and spread ones, lent as many words as before, and lent those that are needed.
fn table(results: &Results<3>) -> String {
    let mut text = String::from(
        "| drawing | regions | rows | dense: before, µs | now, same words, µs | now, needed words, µs | same words: dense | shuffled | spread | needed words: dense | shuffled | spread |\n\
        |---|---:|---:|---:|---:|---:|---:|---:|---:|---:|---:|---:|\n",
    );
    let told = |x: f64| if x > BOUND { format!("**{}**", ratio(x)) } else { ratio(x) };
    for (name, query) in results.rows() {
        let ratios = [SAME_WORDS, NEEDED_WORDS].into_iter().flat_map(|way| query.each_ref().map(|ways| told(slower(ways, way))));
        let sizes = [name.into(), count(query[0].regions), answer(&query[0])];
        text += &row(sizes.into_iter().chain(query[0].times().map(micro)).chain(ratios));
    }
    text
}

/// The means where this library is lent so many words.
fn part(results: &Results<3>, way: usize) -> String {
    let above = results.queries().flat_map(|(_, query)| query).filter(|ways| slower(ways, way) > BOUND).count();
    format!("{}\nAbove {BOUND}: {above}.\n", means(results, |ways| slower(ways, way), |x| x > 1.0))
}

pub fn page(results: &Results<3>) -> String {
    [
        HEAD,
        "\n",
        NUMBERS,
        "\n## Lent the words of all registers\n\n",
        &part(results, SAME_WORDS),
        "\n## Lent the words that are needed\n\n",
        FULL,
        "\n",
        &part(results, NEEDED_WORDS),
        "\n## All queries\n\n",
        &table(results),
    ]
    .concat()
}
