//! The lent listing: slices of every length, and the longest listing that there is.

use crate::model::ACCEPTED;
use crate::sheet_cases::Sheet;
use crate::sheet_model;
use crate::sheets::{self, CASES};
use crate::Tally;

// ---- slices of every length from 0 to one more than exact

/// A sheet with one picked node and so many objects in its class.
fn objects(count: usize) -> Vec<u8> {
    let mut sheet = Sheet::default();
    sheet.sections[0] = (0..count).map(|object| vec!["a".to_string(), object.to_string()]).collect();
    sheet.sections[2] = vec!["x a 1 -".split(' ').map(String::from).collect()];
    sheet.bytes()
}

pub fn lengths(tally: &mut Tally) {
    let mut sheets: Vec<Vec<u8>> = CASES.iter().map(|(sheet, _)| sheet.as_bytes().to_vec()).collect();
    let [bottle, tray] = [&include_bytes!("../../../examples/bottle.sheet")[..], include_bytes!("../../../examples/tray.sheet")];
    let [touching, block] = [&include_bytes!("../../../examples/touching.sheet")[..], include_bytes!("../../../examples/block.sheet")];
    sheets.extend([bottle, tray, touching, block].map(<[u8]>::to_vec));
    sheets.push(objects(500));
    // rows, no row, a refusal
    let mut met = [0; 3];
    let mut calls = 0;
    for sheet in &sheets {
        let answer = sheet_model::answer(sheet);
        met[if answer.verdict != ACCEPTED { 2 } else { (answer.rows == 0) as usize }] += 1;
        for length in 0..=answer.text.len() + 1 {
            sheets::ask(tally, "a slice of every length", sheet, &answer.text, length, 8);
            calls += 1;
        }
    }
    println!("slices of every length: {calls} calls, sheets with rows {}, without {}, refused {}", met[0], met[1], met[2]);
    tally.covers("slices of every length", met.iter().all(|&count| count > 0));
}

// ---- the longest listing

const NODES: usize = 12;
const NAME: usize = 12 + 1;
const ROW_WORDS: usize = 4_096;
const NUMBER: usize = 5 + 1;

/// What the header says.
fn stated() -> Option<usize> {
    let line = |line: &'static str| line.strip_prefix("#define MATCHER_LISTING_BYTES ");
    include_str!("../../../include/matcher.h").lines().find_map(line)?.parse().ok()
}

/// The most bytes with so many picks: that many names, and as many whole rows as 4,096 words take; a space or a line feed behind each.
fn most(picks: usize) -> usize {
    picks * NAME + ROW_WORDS / picks * picks * NUMBER
}

/// 12 picked nodes with names of 12 letters, 341 objects at the last and one at the others, all of five digits: 341 rows.
fn widest() -> Vec<u8> {
    let line = |fields: &[&str]| fields.iter().map(|field| field.to_string()).collect::<Vec<_>>();
    let mut sheet = Sheet::default();
    sheet.sections[0].push(line(&["one", "65535"]));
    sheet.sections[0].extend((0..ROW_WORDS / NODES).map(|k| line(&["many", &(10_000 + k).to_string()])));
    for k in 0..NODES {
        let name = format!("abcdefghijk{}", char::from(b'a' + k as u8));
        sheet.sections[2].push(line(&[&name, if k + 1 < NODES { "one" } else { "many" }, "1", "-"]));
    }
    sheet.bytes()
}

/// The stated bound is 12 names and 4,096 row words. As 12 does not divide 4,096, it is never reached: the longest listing has 341 rows of 12.
pub fn longest(tally: &mut Tally) {
    tally.same("the stated bound", &stated(), &Some(24_732), &[]);
    tally.same("the bound", &(NODES * NAME + ROW_WORDS * NUMBER), &24_732, &[]);
    let by_picks: Vec<usize> = (1..=NODES).map(most).collect();
    tally.same("the longest listing, by the number of picks", &by_picks.iter().max(), &Some(&24_708), &[]);
    let sheet = widest();
    let answer = sheet_model::answer(&sheet);
    tally.same("the longest listing", &(answer.verdict, answer.text.len()), &(ACCEPTED, 24_708), &[]);
    let beside = if tally.few { 0 } else { 8 };
    for length in [24_707, 24_708, 24_732] {
        sheets::ask(tally, "the longest listing", &sheet, &answer.text, length, beside);
    }
    println!("the longest listing: {} bytes, stated {}", answer.text.len(), stated().unwrap_or(0));
}
