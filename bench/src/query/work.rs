//! The page's section on the words of the work slice: those of all registers together, and those that are needed.

use crate::clock::geometric_mean;
use crate::contest::Cell;
use crate::figures::count;
use crate::text::{ratio, row};
use crate::Results;

const WORK: &str = "\
A register gives up its pairs after its last use, and what remains is moved together; the register of the last node and the paths of the picked nodes stay to the end. So the words that are
*needed* are those of the registers that live at once, before an instruction, and of the one that it makes: two words a pair, where they are most. *All registers* are the words that would be
needed if each register stayed. Both are computed from the uses in the list and the sizes of the registers, and the library was held to them in each query: with just the words that are needed it answered,
with one word less, and with two, it refused with 10 at the instruction that is named; otherwise the bench fails. Dense, shuffled and spread numbers need the same words. **A ratio is the words
of all registers to those that are needed.**
";

fn of_all(cell: &Cell) -> f64 {
    cell.room.all as f64 / cell.room.peak as f64
}

fn figures(cell: &Cell) -> [String; 4] {
    match cell.refused {
        None => [count(cell.room.words_of_all()), count(cell.room.words()), cell.room.place.to_string(), ratio(of_all(cell))],
        Some((number, place)) => [format!("refused: {number} at {place}"), String::new(), String::new(), String::new()],
    }
}

fn table(results: &Results) -> String {
    let mut text = String::from(
        "| drawing | regions | instructions | all registers, words | needed, words | most at instruction | all / needed |\n|---|---:|---:|---:|---:|---:|---:|\n",
    );
    for (drawing, cells) in results.drawings.iter().zip(&results.cells) {
        for (i, cell) in cells.iter().enumerate() {
            let name = if i == 0 { drawing.name } else { "" };
            text += &row([name.into(), count(cell.regions), count(cell.instructions)].into_iter().chain(figures(cell)));
        }
    }
    text
}

/// The mean of the ratios, the least and the greatest.
fn outcome(results: &Results) -> String {
    let all = results.drawings.iter().zip(&results.cells).flat_map(|(drawing, cells)| cells.iter().map(move |cell| (drawing.name, cell)));
    let mut queries: Vec<(&str, &Cell)> = all.filter(|(_, cell)| cell.refused.is_none()).collect();
    queries.sort_by(|(_, a), (_, b)| of_all(a).total_cmp(&of_all(b)));
    let told = |(name, cell): (&str, &Cell)| format!("{} ({name}, {})", ratio(of_all(cell)), count(cell.regions));
    format!(
        "The geometric mean of the {} ratios is {}; they go from {} to {}.\n",
        queries.len(),
        ratio(geometric_mean(queries.iter().map(|(_, cell)| of_all(cell)))),
        told(queries[0]),
        told(queries[queries.len() - 1])
    )
}

pub fn section(results: &Results) -> String {
    format!("{WORK}\n{}\n{}", table(results), outcome(results))
}
