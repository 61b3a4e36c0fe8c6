//! The manual's pages against the library: those that it prints, how many bytes they take, and what the call leaves in the page buffer.

use crate::manual::{file, is_among, pages, says, table, text};
use crate::page_model;
use crate::pages::in_order;
use crate::raw;
use crate::Tally;

/// Pages that are printed.
fn printed(tally: &mut Tally) {
    let sample = pages(file("examples/sample.sheet").as_bytes(), matcher::PAGES_BYTES);
    tally.same("the manual's pages of the sample", &text("sample-pages"), &sample, &[]);
    says(tally, &format!("With r rows on p pages there are 66 × (2p + r) bytes: {} here.", sample.len()));
    let spaces: Vec<usize> = sample.lines().rev().skip(1).map(|line| line.len() - line.trim_end().len()).collect();
    tally.same("spaces behind the last column", &spaces, &vec![39; 3], &[]);
    says(tally, "each line but the last ends in 39 spaces:");
    let shift = pages(file("examples/shift.sheet").as_bytes(), matcher::PAGES_BYTES);
    let lines: Vec<&str> = shift.lines().collect();
    let (first, second) = lines.split_at(52);
    let second = second.join("\n") + "\n";
    tally.same("the manual's second page", &text("shift-second-page"), &second, &[]);
    tally.same("the README has it, too", &file("README.md").contains(&format!("```\n{second}```\n")), &true, &[]);
    tally.same("a full page", &first[51].trim_start(), &"page 1", &[]);
    says(tally, "A full page has 52 lines.");
    says(tally, &format!("{} rows on two pages", lines.len() - 4));
}

/// What the call leaves in the page buffer after each answer, by the table; every answer of the table is met, and no other.
fn leaves(tally: &mut Tally) {
    let table = table("### What a call leaves");
    let rows: Vec<(&str, &str)> = table.iter().filter(|row| row[0] == "`matcher_sheet_pages`").map(|row| (row[1], row[5])).collect();
    let mut met = [false; 18];
    for (what, sheet, verdict) in in_order() {
        let answer = page_model::answer(&sheet);
        for bytes in [0, 131, answer.text.len(), matcher::PAGES_BYTES] {
            let mut buffer = vec![b'~'; bytes];
            let ((number, place), length) = raw::sheet_pages(&sheet, &mut buffer);
            let expected = if verdict == (0, 0) && bytes < answer.text.len() { (12, 0) } else { verdict };
            tally.same(&format!("the manual's order, {what}"), &(number, place), &expected, &[]);
            let cells: Vec<&str> = rows.iter().filter(|(numbers, _)| is_among(numbers, number)).map(|row| row.1).collect();
            let (written, rest) = match cells[..] {
                ["pages, then kept"] => (&answer.text[..], b'~'),
                ["all zeros"] => (&[][..], 0),
                ["kept"] => (&[][..], b'~'),
                _ => panic!("docs/MANUAL.md, what pages leave after {number}: {cells:?}"),
            };
            let right = length == written.len() && buffer.starts_with(written) && buffer[length..].iter().all(|&byte| byte == rest);
            tally.same(&format!("pages after {number}, {what}"), &right, &true, &[]);
            met[number as usize] = true;
        }
    }
    let named: Vec<bool> = (0..18).map(|number| rows.iter().any(|(numbers, _)| is_among(numbers, number))).collect();
    tally.same("answers of pages in the manual, and those met", &named[..], &met[..], &[]);
}

pub fn all(tally: &mut Tally) {
    printed(tally);
    leaves(tally);
}
