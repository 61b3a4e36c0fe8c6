//! The manual's registers and work slices against the library: what each register of its lists holds, the slices that it prints, and which register
//! lives when.

use crate::living::{last_register, living, Trace};
use crate::manual::{ask, block, line_of, numbers, sample, says, table, words, Case};
use crate::model::{self, Verdict, ACCEPTED};
use crate::Tally;

/// The words of each line of a block: a register a line.
fn lines(name: &str) -> Vec<Vec<u32>> {
    let line = |line: &&str| numbers(line.split(['#', ':']).nth(1).unwrap_or(""));
    block(name).iter().map(line).collect()
}

/// A call with so many work words gives this verdict, and leaves these words in the work slice, then zeros.
fn leaves(tally: &mut Tally, name: &str, call: &str, case: &Case, lent: usize, verdict: Verdict, work: &[u32]) {
    let left = ask(call, &Case { lengths: [case.list.len(), lent, 99], ..case.clone() });
    let mut expected = work.to_vec();
    expected.resize(lent.max(work.len()), 0);
    tally.same(&format!("{name}, {lent} work words"), &(left.verdict, left.work), &(verdict, expected), &case.list);
}

/// Each register of a list holds what is printed for it: the run of the list cut behind its instruction leaves it alone, in a slice that the whole list
/// just needs.
pub fn registers(tally: &mut Tally, name: &str, feed: &[u32], list: &[u32], printed: &[Vec<u32>]) {
    let peak = Trace::bare(&model::read_feed(feed), list).peak(usize::MAX);
    tally.same(&format!("{name}: how many registers"), &printed.len(), &(list.len() / 3), list);
    for (i, register) in printed.iter().enumerate() {
        let case = Case { feed: feed.to_vec(), list: list[..3 * (i + 1)].to_vec(), ..Case::default() };
        leaves(tally, &format!("{name}: register {i}"), "matcher_run", &case, peak, ACCEPTED, register);
    }
}

/// Section 6: a list, its registers, and the slice after its run.
fn small(tally: &mut Tally) {
    let (feed, list, slice) = (words(tally, "small-feed", 1), words(tally, "small-list", 3), words(tally, "small-slice", 1));
    words(tally, "small-work", 1);
    registers(tally, "the manual's small list", &feed, &list, &lines("small-work"));
    let case = Case { feed, list, ..Case::default() };
    leaves(tally, "the manual's small list", "matcher_run", &case, slice.len(), ACCEPTED, &slice);
    says(tally, "Eight words suffice,");
    let short = ask("matcher_run", &Case { lengths: [0, 7, 0], ..case });
    tally.same("the manual's small list, a word short of eight", &(slice.len(), short.verdict.0), &(8, 10), &[]);
}

/// Section 7: the registers that stand after the query of three nodes without an edge.
fn crossed(tally: &mut Tally) {
    let [feed, drawing, list] = ["feed", "drawing", "list"].map(|first| line_of("crossed", first));
    says(tally, "stand in the work slice after the query, in the order 9, 10, 11, 12. Paths 4 and 5 were replaced, and are gone.");
    let translation = model::translate(&model::read_drawing(&drawing));
    tally.same("the manual's crossed: replaced", &translation.replaced, &vec![4, 5], &drawing);
    let tables = model::tables(&model::read_feed(&feed), &list);
    let work: Vec<u32> = tables[9..13].iter().flatten().flat_map(|&(u, v)| [u, v]).collect();
    leaves(tally, "the manual's crossed", "matcher_query", &Case { feed, drawing, list, ..Case::default() }, 99, ACCEPTED, &work);
}

/// Section 11: the sample's registers, and the slices after its query, its run, its stop, and the run of its list cut.
fn whole_sample(tally: &mut Tally) {
    let case = sample(tally);
    registers(tally, "the manual's sample", &case.feed, &case.list, &lines("sample-work"));
    let [after_query, stopped, after_run, after_cut] =
        ["sample-query-slice", "sample-stopped-slice", "sample-run-slice", "sample-cut-slice"].map(|name| words(tally, name, 1));
    says(tally, "So 42 work words suffice, and after the query they hold the registers that live to the end,");
    leaves(tally, "the sample's query", "matcher_query", &case, 42, ACCEPTED, &after_query);
    says(tally, "With 41 words the query stops with 10 at instruction 5. The slice then holds the 18 pairs that lived before it,");
    tally.same("the sample's stopped slice", &(stopped.len(), &stopped[36..]), &(41, &[0; 5][..]), &stopped);
    says(tally, "The peak is the same, and so is the stop with 41 words. After the run 42 words hold");
    leaves(tally, "the sample's run", "matcher_run", &case, 42, ACCEPTED, &after_run);
    for call in ["matcher_query", "matcher_run"] {
        leaves(tally, &format!("the sample, {call}"), call, &case, 41, (10, 5), &stopped);
    }
    says(tally, "To see register 6, run the first 7 instructions, 21 words of the list.");
    leaves(tally, "the sample's list cut", "matcher_run", &Case { list: case.list[..21].to_vec(), ..case }, 42, ACCEPTED, &after_cut);
}

/// Section 11: which register lives when, and the sums that 10 is judged by; with one pair less than a sum the query does not get past its instruction.
fn living_table(tally: &mut Tally) {
    let case = sample(tally);
    let roots = model::translate(&model::read_drawing(&case.drawing)).roots();
    let trace = Trace::new(&model::read_feed(&case.feed), &case.list, roots.clone(), usize::MAX);
    let rows = table("### Which register lives when");
    tally.same("the sample's table: how many instructions", &rows.len(), &(case.list.len() / 3), &case.list);
    for (i, row) in rows.iter().enumerate() {
        let [before, after] = [i, i + 1].map(|i| living(&roots, &case.list, i));
        let given_up: Vec<usize> = before.iter().copied().chain([i]).filter(|r| !after.contains(r)).collect();
        let shown = |registers: &[usize]| registers.iter().map(usize::to_string).collect::<Vec<_>>().join(", ");
        let own = trace.tables[i].len();
        let [pairs, own, sum] = [trace.pairs[i] - own, own, trace.pairs[i]].map(|n| n.to_string());
        tally.same("the sample's table", row, &vec![&*i.to_string(), &shown(&before), &pairs, &own, &sum, &shown(&given_up)], &case.list);
        let short = ask("matcher_query", &Case { lengths: [36, 2 * trace.pairs[i] - 1, 9], ..case.clone() }).verdict;
        tally.same("the sample, a word less than a sum", &(short.0, short.1 as usize <= i), &(10, true), &[i as u32]);
    }
    says(tally, "The peak is 21 pairs, at instruction 5:");
    let bare = Trace::new(&model::read_feed(&case.feed), &case.list, last_register(&case.list), usize::MAX);
    says(tally, "the sum at instructions 10 and 11 is 4.");
    tally.same("the sample's peaks", &(trace.peak(usize::MAX), bare.peak(usize::MAX), &bare.pairs[10..]), &(42, 42, &[4, 4][..]), &[]);
}

pub fn all(tally: &mut Tally) {
    small(tally);
    crossed(tally);
    whole_sample(tally);
    living_table(tally);
}
