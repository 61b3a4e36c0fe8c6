//! What the two pages have in common: the means of ratios, and the answer of a query.

use crate::clock::geometric_mean;
use crate::figures::count;
use crate::text::{ratio, row};
use crate::turns::Ways;
use crate::Results;

pub const NUMBERS: &str = "\
The numbers of a frame's regions are *dense*, from 0 on, row by row; *shuffled*, the same ones in chance order; or *spread*, chance ones up to 65,535.
";

/// The mean, the least and the greatest of these ratios, each with its query, and how many tell that the library has become slower.
fn mean(numbers: &str, mut ratios: Vec<(f64, String)>, is_slower: impl Fn(f64) -> bool) -> String {
    ratios.sort_by(|a, b| a.0.total_cmp(&b.0));
    let [least, most] = [0, ratios.len() - 1].map(|k| format!("{} ({})", ratio(ratios[k].0), ratios[k].1));
    let slower = ratios.iter().filter(|one| is_slower(one.0)).count();
    let mean = geometric_mean(ratios.iter().map(|one| one.0));
    row([numbers.into(), count(ratios.len()), ratio(mean), least, most, count(slower)])
}

/// A table of these ratios: for each sort of numbers, and for all.
pub fn means<const N: usize>(results: &Results<N>, of: impl Fn(&Ways<N>) -> f64, is_slower: impl Fn(f64) -> bool) -> String {
    let mut text = String::from("| numbers | queries | geometric mean | least | greatest | slower now |\n|---|---:|---:|---|---|---:|\n");
    for (numbers, sorts) in [("dense", 0..1), ("shuffled", 1..2), ("spread", 2..3), ("all three", 0..3)] {
        let queries = results.queries().flat_map(|(name, query)| query[sorts.clone()].iter().map(move |ways| (name, ways)));
        let ratios = queries.map(|(name, ways)| (of(ways), format!("{name}, {}", count(ways.regions))));
        text += &mean(numbers, ratios.collect(), &is_slower);
    }
    text
}

/// The rows of a query, or its refusal.
pub fn answer<const N: usize>(ways: &Ways<N>) -> String {
    ways.refused.map_or(count(ways.rows), |(number, place)| format!("refused: {number} at {place}"))
}
