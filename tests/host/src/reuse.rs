//! The work slice used again (document 02, E5), bare lists: lists with their living registers by hand, in slices of every length; registers of 65,536
//! pairs that nothing uses; random lists in slices about their peak, stopped at every instruction where that can be, and cut behind every instruction.
//! Queries are in `reuse_queries.rs`.

use crate::cases;
use crate::living::{self, padded, Trace};
use crate::misreadings::{self, Told};
use crate::model::{self, Table, Verdict, ACCEPTED};
use crate::random::Random;
use crate::runs;
use crate::Tally;

// ---- by hand

/// A list over the feed below, and the registers that live before each instruction and after the last.
struct Case {
    name: &'static str,
    list: &'static [u32],
    living: &'static [&'static [usize]],
}

/// Classes {0, 1, 2}, {1, 2} and {}; labels {(0,1), (1,2)} and {(1,1), (1,2), (2,0), (2,2)}.
fn feed() -> Vec<u32> {
    let label = |pairs: &[(u32, u32)]| pairs.iter().copied().collect::<Table>();
    let labels = [label(&[(0, 1), (1, 2)]), label(&[(1, 1), (1, 2), (2, 0), (2, 2)])];
    cases::feed_of(&[cases::class(0, 3), cases::class(1, 2), Table::new()], &labels)
}

const CASES: [Case; 19] = [
    Case { name: "one instruction", list: &[0, 0, 0], living: &[&[], &[0]] },
    Case { name: "an operand counts at its last use", list: &[0, 0, 0, 2, 0, 0, 2, 1, 0], living: &[&[], &[0], &[1], &[2]] },
    Case {
        name: "one operand dies, the other lives on",
        list: &[0, 0, 0, 0, 1, 0, 5, 0, 1, 6, 2, 0],
        living: &[&[], &[0], &[0, 1], &[0, 2], &[3]],
    },
    Case {
        name: "operands named twice",
        list: &[0, 0, 0, 3, 0, 0, 4, 1, 1, 5, 2, 2, 6, 3, 3, 10, 0, 0],
        living: &[&[], &[0], &[0, 1], &[0, 2], &[0, 3], &[0], &[5]],
    },
    Case { name: "an operand named twice at last", list: &[0, 0, 0, 1, 1, 0, 3, 1, 1], living: &[&[], &[], &[1], &[2]] },
    Case {
        name: "unused registers between others",
        list: &[0, 0, 0, 0, 1, 0, 1, 1, 0, 2, 0, 0],
        living: &[&[], &[0], &[0], &[0], &[3]],
    },
    Case { name: "no register is used", list: &[0, 0, 0, 1, 1, 0, 0, 1, 0], living: &[&[], &[], &[], &[2]] },
    Case {
        name: "an unused result of living operands",
        list: &[0, 0, 0, 1, 1, 0, 3, 0, 1, 5, 0, 1],
        living: &[&[], &[0], &[0, 1], &[0, 1], &[3]],
    },
    // 0 and 1 as numbers of classes and labels: registers 0 and 1 are done with after their making
    Case { name: "class 0 is no use of register 0", list: &[1, 1, 0, 0, 0, 0, 2, 1, 0], living: &[&[], &[], &[1], &[2]] },
    Case { name: "label 0 is no use of register 0", list: &[1, 1, 0, 1, 0, 0, 2, 1, 0], living: &[&[], &[], &[1], &[2]] },
    Case {
        name: "class 1 is no use of register 1",
        list: &[0, 0, 0, 1, 1, 0, 0, 1, 0, 2, 0, 0],
        living: &[&[], &[0], &[0], &[0], &[3]],
    },
    Case {
        name: "label 1 is no use of register 1",
        list: &[0, 0, 0, 1, 1, 0, 1, 1, 0, 2, 0, 0],
        living: &[&[], &[0], &[0], &[0], &[3]],
    },
    // 0 and 1 as numbers of kinds 14 and 15
    Case { name: "a left value of 0", list: &[0, 0, 0, 1, 0, 0, 14, 1, 0], living: &[&[], &[], &[1], &[2]] },
    Case { name: "a right value of 0", list: &[0, 0, 0, 1, 1, 0, 15, 1, 0], living: &[&[], &[], &[1], &[2]] },
    Case { name: "a left value of 1", list: &[0, 0, 0, 1, 1, 0, 14, 0, 1], living: &[&[], &[0], &[0], &[2]] },
    Case { name: "a right value of 1", list: &[0, 0, 0, 1, 1, 0, 15, 0, 1], living: &[&[], &[0], &[0], &[2]] },
    Case {
        name: "several die at once, between those that stay",
        list: &[0, 0, 0, 0, 1, 0, 1, 0, 0, 1, 1, 0, 0, 0, 0, 5, 1, 3, 5, 0, 2, 5, 5, 6, 5, 7, 4],
        living: &[&[], &[0], &[0, 1], &[0, 1, 2], &[0, 1, 2, 3], &[0, 1, 2, 3, 4], &[0, 2, 4, 5], &[4, 5, 6], &[4, 7], &[8]],
    },
    Case {
        name: "the first lives to the last instruction",
        list: &[0, 0, 0, 2, 0, 0, 2, 1, 0, 2, 2, 0, 5, 3, 0],
        living: &[&[], &[0], &[0, 1], &[0, 2], &[0, 3], &[4]],
    },
    Case {
        name: "empty registers among the living",
        list: &[0, 2, 0, 0, 0, 0, 4, 0, 1, 5, 2, 1, 5, 0, 3],
        living: &[&[], &[0], &[0, 1], &[0, 1, 2], &[0, 3], &[4]],
    },
];

/// Verdict and registers that stand with so many words, where these live before each instruction and after the last.
pub fn by_hand<'a>(tables: &'a [Table], living: &[&[usize]], words: usize) -> (Verdict, Vec<&'a Table>) {
    let standing = |i: usize| living[i].iter().map(|&r| &tables[r]).collect::<Vec<_>>();
    let pairs = |i: usize| standing(i).iter().map(|table| table.len()).sum::<usize>() + tables[i].len();
    match (0..tables.len()).find(|&i| pairs(i) > words / 2) {
        Some(i) => ((10, i as u32), standing(i)),
        None => (ACCEPTED, standing(tables.len())),
    }
}

/// A list in slices of every length up to two words more than its registers take together.
fn every_length(tally: &mut Tally, name: &str, list: &[u32], living: &[&[usize]]) {
    let feed = feed();
    let tables = model::tables(&model::read_feed(&feed), list);
    let all: usize = tables.iter().map(|table| 2 * table.len()).sum();
    for words in 0..=all + 2 {
        let (verdict, standing) = by_hand(&tables, living, words);
        runs::compare(tally, name, &feed, list, words, |_| (verdict, padded(&standing, words)));
        tally.same(&format!("{name}, the model"), &model::run(&feed, list, &vec![7; words]), &(verdict, padded(&standing, words)), list);
    }
    for (i, registers) in living.iter().enumerate() {
        tally.same(&format!("{name}, living before {i}"), &&living::living(&living::last_register(list), list, i)[..], registers, list);
    }
}

/// An unused 0 is no use: register 0 is done with after its making, whatever kind with an unused word follows.
fn unused_words(tally: &mut Tally) {
    for kind in [2, 7, 8, 9, 11, 12, 13] {
        every_length(tally, "an unused word is no use of register 0", &[0, 0, 0, 1, 1, 0, kind, 1, 0], &[&[], &[], &[1], &[2]]);
    }
    for load in [[0, 1, 0], [1, 1, 0]] {
        every_length(tally, "a load is no use of register 0", &[&[1, 0, 0][..], &load, &[2, 1, 0]].concat(), &[&[], &[], &[1], &[2]]);
    }
}

/// 256 objects crossed with themselves, over and over: 65,536 pairs that nothing uses have room where those of the class stand beside them, again and
/// again; but not where another cross stands still.
fn huge(tally: &mut Tally) {
    let feed = cases::feed_of(&[cases::class(0, 256)], &[]);
    let class: Vec<(u32, u32)> = (0..256).map(|u| (u, u)).collect();
    let cross: Vec<(u32, u32)> = (0..65_536).map(|k| (k / 256, k % 256)).collect();
    let times = if tally.few { 2 } else { 20 };
    let unused = [&[0, 0, 0][..], &[10, 0, 0].repeat(times), &[12, 0, 0]].concat();
    let peak = 2 * (256 + 65_536);
    for (words, verdict) in [(peak + 1, ACCEPTED), (peak, ACCEPTED), (peak - 1, (10, 1)), (peak - 2, (10, 1))] {
        runs::check(tally, "huge registers that nothing uses", &feed, &unused, words, verdict, &class);
    }
    // the first cross is used by the last instruction
    let used = [0, 0, 0, 10, 0, 0, 10, 0, 0, 12, 1, 0];
    let both = [&class[..], &cross].concat();
    let peak = 2 * (256 + 2 * 65_536);
    for (words, verdict, standing) in [(peak, ACCEPTED, &class), (peak - 1, (10, 2), &both), (peak - 2 * 65_536, (10, 2), &both)] {
        runs::check(tally, "a huge register beside another", &feed, &used, words, verdict, standing);
    }
}

// ---- random

/// What the random cases met.
#[derive(Default)]
pub struct Met {
    accepted: usize,
    stopped: usize,
    /// at an instruction that was chosen
    stops: usize,
    cuts: usize,
    /// accepted now in a slice that does not take all registers together
    gained: usize,
    pub told: Told,
}

impl Met {
    pub fn show(&self, tally: &mut Tally, what: &str, misreadings: &[usize]) {
        let Met { accepted, stopped, stops, cuts, gained, .. } = *self;
        let counts = [accepted, stopped, stops, cuts, gained];
        let names = ["accepted", "stopped", "at an instruction that is chosen", "cut behind an instruction", "10 before E5 and accepted now"];
        tally.met_by_name(what, &names.map(String::from), &counts);
        self.told.show(tally, what, misreadings);
    }
}

/// Lengths about the peak, and some far from it.
fn lengths(r: &mut Random, peak: usize) -> Vec<usize> {
    let mut lengths: Vec<usize> = (peak.saturating_sub(3)..=peak + 3).collect();
    lengths.extend([0, 1, r.below(peak + 1), peak + 4 + r.below(60)]);
    lengths
}

/// The words that all registers take together, but for one that is over 65,536 pairs: what document 01 asked for.
pub fn all_registers(trace: &Trace) -> usize {
    trace.tables.iter().map(|table| table.len()).filter(|&n| n <= 65_536).map(|n| 2 * n).sum()
}

/// For each instruction at which the run can be stopped by 10: the instruction, and the fewest words, the most, and some between that stop it there.
fn stops(r: &mut Random, trace: &Trace) -> Vec<(usize, Vec<usize>)> {
    let mut most = 0;
    let mut stops = Vec::new();
    for (i, (&pairs, table)) in trace.pairs.iter().zip(&trace.tables).enumerate() {
        if pairs > most && table.len() <= 65_536 {
            stops.push((i, vec![2 * most, 2 * pairs - 1, 2 * most + r.below(2 * (pairs - most))]));
            most = pairs;
        }
    }
    stops
}

/// "wherever a run gets past an instruction", be it of a list or of a query, the list cut behind it leaves that register alone.
fn cuts(tally: &mut Tally, met: &mut Met, feed: &[u32], trace: &Trace, words: usize) {
    for i in 0..trace.finished(words) {
        met.cuts += 1;
        runs::cut(tally, "a list", feed, trace, i, words);
    }
}

/// The slice by doing it: a register is put behind those that stand, and those that were used for the last time are taken out.
fn by_doing(list: &[u32], roots: &[u32], tables: &[Table], words: usize) -> (Verdict, Vec<u32>) {
    let mut last_use: Vec<usize> = (0..list.len() / 3).collect();
    list.chunks(3).enumerate().for_each(|(i, w)| living::operands(w).iter().for_each(|&r| last_use[r as usize] = i));
    roots.iter().for_each(|&r| last_use[r as usize] = usize::MAX);
    let mut standing: Vec<(usize, u32, u32)> = Vec::new();
    let after = |standing: &[(usize, u32, u32)]| {
        let mut work: Vec<u32> = standing.iter().flat_map(|&(_, u, v)| [u, v]).collect();
        work.resize(words, 0);
        work
    };
    for (i, table) in tables.iter().enumerate() {
        let number = if table.len() > 65_536 { 11 } else { 10 };
        if number == 11 || standing.len() + table.len() > words / 2 {
            return ((number, i as u32), after(&standing));
        }
        standing.extend(table.iter().map(|&(u, v)| (i, u, v)));
        standing.retain(|&(r, _, _)| last_use[r] > i);
    }
    (ACCEPTED, after(&standing))
}

/// A list, or a query, in slices about its peak, stopped where it can be, with room for all registers, and cut. `ask` asks the library, which is to
/// answer as the trace does, in a slice of so many words, and gives its verdict.
pub fn compare(tally: &mut Tally, met: &mut Met, r: &mut Random, feed: &[u32], trace: &Trace, mut ask: impl FnMut(&mut Tally, usize) -> Verdict) {
    let (list, peak, stops, all) = (&trace.list, trace.peak(usize::MAX), stops(r, trace), all_registers(trace));
    for words in lengths(r, peak) {
        tally.same("a slice by doing it", &by_doing(list, &trace.roots, &trace.tables, words), &trace.end(words), list);
        let accepted = ask(tally, words) == ACCEPTED;
        met.accepted += accepted as usize;
        met.stopped += !accepted as usize;
        met.gained += (accepted && words < all) as usize;
    }
    for (i, lengths) in &stops {
        met.stops += 1;
        for &words in lengths {
            let verdict = ask(tally, words);
            tally.same("stopped at an instruction", &verdict, &(10, *i as u32), list);
        }
    }
    let verdict = ask(tally, all);
    tally.same("a slice for all registers together", &(verdict.0 == 10), &false, list);
    let stopped = stops.get(r.below(stops.len())).map_or(peak, |(_, lengths)| lengths[2]);
    for words in [peak, stopped] {
        cuts(tally, met, feed, trace, words);
    }
}

fn random(tally: &mut Tally, cases: usize) {
    let mut r = Random::new(70);
    let mut met = Met::default();
    for i in 0..cases {
        let feed = cases::full_feed(&mut r);
        let list = match i % 256 {
            0 => cases::growing_list(&mut r, &feed),
            1..=4 => cases::lively_list(&mut r, &feed, 90, 60),
            5..=80 => cases::list(&mut r, &feed, 16),
            _ => cases::lively_list(&mut r, &feed, 16, 200),
        };
        let trace = Trace::bare(&model::read_feed(&feed), &list);
        compare(tally, &mut met, &mut r, &feed, &trace, |tally, words| {
            runs::compare(tally, "a list", &feed, &list, words, |_| trace.end(words))
        });
        if i % 8 == 5 {
            lengths(&mut r, trace.peak(usize::MAX)).into_iter().for_each(|words| met.told.note(&trace, &[], words));
        }
    }
    met.show(tally, "work slices used again, lists", &misreadings::OF_LISTS);
}

pub fn all(tally: &mut Tally, cases: usize) {
    CASES.iter().for_each(|case| every_length(tally, case.name, case.list, case.living));
    unused_words(tally);
    huge(tally);
    random(tally, cases);
}
