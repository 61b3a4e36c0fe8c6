//! The page of figures.

use crate::clock::{geometric_mean, median};
use crate::figures::{count, figure};
use crate::operators::{Row, Worst, NAMES, OPEN};

/// More than this, and the page says why.
const BOUND: f64 = 1.25;

const HEAD: &str = "\
# The operators of the run, beside an unproved run

Written by `bench/run`; x86-64, one core. Each operator of `matcher_run` is timed beside an unproved one in Rust (`bench/src/peer/`, optimised, plain x86-64): the
same algorithms over the same work slice, written for speed. The two take turns in one process. A time is the difference between a list that repeats the
operator and one that has it once, so that checks, loads, the making of the operands and the giving up of these cancel; it is a median of many in three passes, in processor
time. A result that is not used is given up at once, so each is written where the one before it stood; the work slice has room for any register more than is needed. Both first ran
each list with just the words that it needs and with one less, and 40,000 random ones, and gave the same number, place and words.

A size is that of the operand, or of the result where that is larger; of intersection, union and difference it is that of the union. Larger operands than
the 4,096 pairs of a table in a feed are made by unions; loads are timed at 1,000 and 4,096 stored pairs, of which a two-way label gives up to twice as many.
Up to sixteen operands are used in turn, so that no branch is learned by heart. Loops of one or two cycles a pair vary by a factor of two with the place that
the linker gives them.
";

fn each<'r>(row: &'r Row, f: impl Fn(usize, f64, f64) -> String + 'r) -> Vec<String> {
    row.times.iter().map(move |(size, t)| f(*size, t.proved(), t.ratio())).collect()
}

fn table(rows: &[Row]) -> String {
    let mut text = String::from(
        "| kind | operands | µs at 1,000 | at 8,000 | at 65,536 | ns a pair | proved / peer |\n|---|---|---:|---:|---:|---|---|\n",
    );
    for row in rows {
        let mut micro = each(row, |_, time, _| figure(time * 1e6));
        if row.kind < 2 {
            micro = vec![micro[0].clone(), format!("{} (4,096)", micro[1]), String::new()];
        }
        let nano = each(row, |size, time, _| figure(time * 1e9 / size as f64)).join(" · ");
        let ratio = each(row, |_, _, ratio| if ratio > BOUND { format!("**{ratio:.2}**") } else { format!("{ratio:.2}") }).join(" · ");
        let name = NAMES[row.kind as usize];
        text += &format!("| {} {name} | {} | {} | {nano} | {ratio} |\n", row.kind, row.operands, micro.join(" | "));
    }
    text
}

fn summary(rows: &[Row]) -> String {
    let ratios: Vec<f64> = rows.iter().flat_map(|row| row.times.iter().map(|(_, t)| t.ratio())).collect();
    let within = ratios.iter().filter(|&&x| x <= BOUND).count();
    let (usual, mean) = (median(ratios.clone()), geometric_mean(ratios.iter().copied()));
    format!("Of {} ratios {within} are at most {BOUND}; the median is {usual:.2}, the geometric mean {mean:.2}.\n", ratios.len())
}

/// How much longer it takes for 65,536 pairs than for 8,000.
fn growth(rows: &[Row]) -> String {
    let grown = |row: &Row| row.times[2].1.proved() / row.times[1].1.proved();
    let mut text = String::from("From 8,000 to 65,536 pairs is 8.2 times as many. The time grows, by operator (least and most of its operands): ");
    let mut parts = Vec::new();
    for (kind, name) in NAMES.iter().enumerate().skip(2) {
        let mut all: Vec<f64> = rows.iter().filter(|row| row.kind == kind as u32).map(grown).collect();
        all.sort_by(f64::total_cmp);
        let (least, most) = (all[0], all[all.len() - 1]);
        parts.push(if all.len() == 1 { format!("{name} {least:.1}") } else { format!("{name} {least:.1} to {most:.1}") });
    }
    text += &parts.join(", ");
    text += ".\nA block composed with a block passes through n√n pairs, so 8.2 times the pairs are 23 times the work; merges and searches by halving \
        take n log n; all else is linear at most.\n";
    text
}

fn reasons(rows: &[Row]) -> String {
    let mut text = String::new();
    let mut told: Vec<&str> = Vec::new();
    for row in rows {
        let over = |row: &&Row| row.times.iter().any(|(_, t)| t.ratio() > BOUND);
        if !over(&row) || told.contains(&row.why) {
            continue;
        }
        told.push(row.why);
        let same: Vec<String> =
            rows.iter().filter(|other| other.why == row.why).filter(over).map(|r| format!("{} ({})", NAMES[r.kind as usize], r.operands)).collect();
        text += &format!("- {}: {}.\n", same.join(", "), row.why);
    }
    text
}

fn worst_table(worst: &[Worst]) -> String {
    let mut text = String::from(
        "| left values | middle values | rights of each | pairs gathered | ms | proved / peer |\n|---:|---:|---|---:|---:|---:|\n",
    );
    for w in worst {
        let gathered = count(w.lefts * w.middles * w.rights);
        text += &format!(
            "| {} | {} | {} {} | {gathered} | {:.1} | {:.2} |\n",
            count(w.lefts),
            count(w.middles),
            w.rights,
            w.drawn,
            w.times.proved() * 1e3,
            w.times.ratio()
        );
    }
    if worst.iter().any(|w| w.times.ratio() > BOUND) {
        text += &format!("\nAbove {BOUND}: {OPEN}.\n");
    }
    text
}

pub fn page(rows: &[Row], worst: &[Worst]) -> String {
    let most = worst.iter().map(|w| w.times.proved()).fold(0.0, f64::max);
    format!(
        "{HEAD}\n{}\n{}\n## How time grows\n\n{}\n## Above {BOUND}\n\n{}\n## The worst composition\n\n\
        Each left value leads to all middle values, and each middle value to some of those rights that the result may have: 65,536 pairs in the first table, up to \
        65,536 in the second and in the result. Where the rights are spread wide, marks are dear or not used. The longest takes {:.0} ms.\n\n{}",
        table(rows),
        summary(rows),
        growth(rows),
        reasons(rows),
        most * 1e3,
        worst_table(worst)
    )
}
