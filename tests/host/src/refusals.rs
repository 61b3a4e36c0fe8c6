//! The crate's words for refusals: each number has its own, with the place where it has one.

use crate::Tally;
use matcher::Refusal;
use std::collections::BTreeSet;

/// The ends of the words for place 7, by number from 1.
const PLACES: [&str; 17] = [
    "",
    " (word 7 of the feed)",
    " (word 7 of the feed)",
    " (word 7 of the feed)",
    "",
    " (word 7 of the drawing)",
    "",
    "",
    " (word 7 of the list)",
    " (instruction 7)",
    " (instruction 7)",
    "",
    " (7 instructions are needed)",
    " (line 7 of the sheet)",
    "",
    " (word 7 of the list)",
    " (word 7 of the list)",
];

pub fn words(tally: &mut Tally) {
    let mut meanings = BTreeSet::new();
    for (number, place) in (1..).zip(PLACES) {
        let text = Refusal { number, place: 7 }.to_string();
        let meaning = text.strip_prefix(&format!("refused {number} 7: ")).and_then(|rest| rest.strip_suffix(place));
        tally.same("words of a refusal", &meaning.is_some_and(|meaning| !meaning.is_empty() && !meaning.contains('7')), &true, &[number]);
        meanings.insert(meaning.map(String::from));
    }
    tally.same("refusals with words of their own", &meanings.len(), &PLACES.len(), &[]);
    // a sheet that is too long has no line
    let text = Refusal { number: 14, place: 0 }.to_string();
    tally.same("words of a sheet too long", &text.contains(" (line "), &false, &[]);
    for number in [0, 18] {
        let text = Refusal { number, place: 7 }.to_string();
        tally.same("no refusal", &text, &format!("refused {number} 7: no refusal of this library"), &[number]);
    }
}
