//! The pages of a sheet against a second reading: number, place and length, every byte of the page buffer and beside it, and the rows that are read
//! back from what the library wrote.

use crate::model::{Verdict, ACCEPTED};
use crate::page_cases;
use crate::page_model::{self, Answer, COLUMNS};
use crate::random::Random;
use crate::raw;
use crate::said;
use crate::sheet_cases::{self, Sheet, CAUSES, DAMAGES};
use crate::sheet_model;
use crate::sheets::{self, CASES, SAMPLE};
use crate::Tally;

// ---- one call

/// No byte of a page, and not 0.
fn pattern(i: usize) -> u8 {
    0x80 | (i as u8).wrapping_mul(29)
}

/// A call with a page buffer of so many bytes, and some on both sides that must stay as they are; gives what the buffer then holds.
fn ask(tally: &mut Tally, what: &str, sheet: &[u8], answer: &Answer, length: usize, beside: usize) -> Vec<u8> {
    let mut wanted: Vec<u8> = (0..length + 2 * beside).map(pattern).collect();
    let mut lent = wanted.clone().into_boxed_slice();
    let expected = answer.put(&mut wanted[beside..beside + length]);
    let found = raw::sheet_pages(sheet, &mut lent[beside..beside + length]);
    if found == expected && lent[..] == wanted[..] {
        tally.same(what, &true, &true, &[]);
    } else {
        let shown = |bytes: &[u8]| String::from_utf8_lossy(bytes).into_owned();
        let what = format!("{what}, {length} bytes lent, for {:?}", shown(sheet));
        tally.same(&what, &(found, shown(&lent)), &(expected, shown(&wanted)), &[]);
    }
    lent[beside..beside + length].to_vec()
}

/// The lengths of page buffers: exact, one short, none, some that are too short, long. Where there are no pages, none and some.
fn lengths(r: &mut Random, answer: &Answer) -> Vec<usize> {
    match answer.text.len() {
        0 => vec![0, 1, 66, r.below(1_000)],
        exact => vec![exact, exact - 1, 0, r.below(exact), exact + 1 + r.below(200)],
    }
}

/// A sheet with page buffers of these lengths; and what the crate's call gives with one that is long enough.
fn compare(tally: &mut Tally, met: &mut Met, r: &mut Random, what: &str, sheet: &[u8]) -> Answer {
    let answer = page_model::answer(sheet);
    met.note(&answer);
    // a block of its own, so that valgrind sees its ends; then also those of the page buffer
    let sheet: Box<[u8]> = sheet.into();
    let beside = if tally.few { 0 } else { 8 };
    for length in lengths(r, &answer) {
        let text = ask(tally, what, &sheet, &answer, length, beside);
        if length == answer.text.len() && answer.verdict == ACCEPTED {
            let rows = answer.rows.len();
            let read = page_model::read_back(&text) == Some((answer.rows.clone(), 2 * page_model::page_count(rows)));
            tally.same(&format!("{what}, read back"), &(read, text.len()), &(true, page_model::length(rows)), &[]);
        }
    }
    let mut pages = vec![pattern(0); answer.text.len()];
    let given = matcher::sheet_pages(&sheet, &mut pages);
    let right = said(&given) == answer.verdict && given.map_or(true, |text| text == answer.text);
    tally.same(&format!("{what}, by the crate"), &right, &true, &[]);
    answer
}

/// The classes of row counts that are counted.
const ROWS: [(&str, usize, usize); 10] = [
    ("0", 0, 0),
    ("1", 1, 1),
    ("2 to 48", 2, 48),
    ("49", 49, 49),
    ("50", 50, 50),
    ("51", 51, 51),
    ("52 to 99", 52, 99),
    ("100", 100, 100),
    ("101", 101, 101),
    ("more", 102, 4_096),
];

/// What the sheets of a test met.
#[derive(Default)]
struct Met {
    numbers: [usize; 16],
    rows: [usize; ROWS.len()],
    picks: [usize; COLUMNS + 1],
    letters: [usize; 13],
    longest: usize,
}

impl Met {
    fn note(&mut self, answer: &Answer) {
        self.numbers[answer.verdict.0 as usize] += 1;
        self.longest = self.longest.max(answer.text.len());
        if answer.verdict != ACCEPTED {
            return;
        }
        self.picks[answer.names.len()] += 1;
        answer.names.iter().for_each(|name| self.letters[name.len()] += 1);
        let rows = answer.rows.len();
        self.rows[ROWS.iter().position(|&(_, low, high)| (low..=high).contains(&rows)).unwrap()] += 1;
    }

    fn show(&self, tally: &mut Tally, what: &str) {
        tally.met_of(&format!("{what} by number"), &self.numbers, &NUMBERS);
        let others: Vec<usize> = (0..16).filter(|i| !NUMBERS.contains(i) && self.numbers[*i] > 0).collect();
        tally.same(&format!("{what}: other numbers"), &others, &Vec::new(), &[]);
        tally.met_by_name(&format!("{what} by rows"), &ROWS.map(|class| class.0.to_string()), &self.rows);
        tally.met_of(&format!("{what} by picks"), &self.picks, &[1, 2, 3, 4, 5]);
        tally.met_of(&format!("{what}, letters of names"), &self.letters, &(1..=12).collect::<Vec<_>>());
        println!("{what}: longest {} bytes", self.longest);
    }
}

/// The numbers that pages can give before a page buffer is looked at: those of a sheet query, and 15. Every accepted sheet is also asked with one that
/// is too short.
const NUMBERS: [usize; 10] = [0, 3, 5, 6, 7, 10, 11, 12, 14, 15];

// ---- cases with names

/// A class a of one object and a class b of two, and these node lines.
fn drawn(nodes: &str) -> Vec<u8> {
    format!("class object\na 7\nb 8\nb 9\n\nlabel from to\n\nnode class pick fixed\n{nodes}\nedge source target\n").into_bytes()
}

const SIX: &str = "u a 1 -\nv a 1 -\nw a 1 -\nx a 1 -\ny a 1 -\nz b 1 -\n";

/// Sheets with their verdicts in an ample page buffer: 15 just after 7, and before 10, 11 and 12.
pub fn in_order() -> Vec<(&'static str, Vec<u8>, Verdict)> {
    let replaced = |from: &str, to: &str| String::from_utf8(drawn(SIX)).unwrap().replacen(from, to, 1).into_bytes();
    vec![
        ("five picks", replaced("u a 1", "u a 0"), ACCEPTED),
        ("six picks", drawn(SIX), (15, 0)),
        ("six picks and a node without", drawn(&format!("t b 0 -\n{SIX}")), (15, 0)),
        ("twelve picks", drawn(&"uvwxyz".chars().chain("abcdef".chars()).map(|name| format!("{name} b 1 -\n")).collect::<String>()), (15, 0)),
        ("six picks and a pick of 2", drawn(&format!("{SIX}t a 2 -\n")), (6, 21)),
        ("a pick of 2 and six picks", drawn(&format!("t a 2 -\n{SIX}")), (6, 3)),
        ("six picks and a fixed object of 65537", replaced("z b 1 -", "z b 1 65537"), (6, 19)),
        ("five picks and a node fixed to an object", replaced("u a 1 -", "u a 0 7"), ACCEPTED),
        ("six picks and a node fixed to an object", replaced("u a 1 -", "u a 1 7"), (15, 0)),
        ("six picks and a breach before them", replaced("a 7", "a 07"), (14, 2)),
        ("six picks and a breach behind them", replaced("edge source target\n", "edge source target\n\n"), (14, 17)),
        ("six picks and an unknown class", drawn(&format!("{SIX}t c 1 -\n")), (14, 15)),
        ("six picks and objects that descend", replaced("b 8\nb 9", "b 9\nb 8"), (3, 8)),
        ("six picks and an object over 65,535", replaced("a 7", "a 65536"), (3, 4)),
        ("no pick", drawn(&SIX.replace('1', "0")), (7, 0)),
        ("no node", drawn(""), (5, 0)),
        ("five picks, no room for a register", sheets::crossed(&[256, 1], &[0, 0, 1, 1, 1]), (10, 5)),
        ("six picks, no room for a register", sheets::crossed(&[256, 1], &[0, 0, 1, 1, 1, 1]), (15, 0)),
        ("five picks, a register over 65,536", sheets::crossed(&[256, 257, 1], &[0, 1, 2, 2, 2]), (11, 5)),
        ("six picks, a register over 65,536", sheets::crossed(&[256, 257, 1], &[0, 1, 2, 2, 2, 2]), (15, 0)),
        ("five picks, 4,095 row words", sheets::crossed(&[1, 3, 273], &[0, 0, 0, 1, 2]), ACCEPTED),
        ("five picks, 4,100 row words", sheets::crossed(&[1, 4, 5, 41], &[0, 0, 1, 2, 3]), (12, 0)),
        ("six picks, 4,104 row words", sheets::crossed(&[1, 4, 9, 19], &[0, 0, 0, 1, 2, 3]), (15, 0)),
    ]
}

/// Sheets with their pages, printed by hand: no rows; the widest names and numbers; the example of the repository, and one with two pages.
const PRINTED: [(&str, &str); 4] = [
    (
        "class object\na 1\n\nlabel from to\nl 2 2\n\nnode class pick fixed\nx a 1 -\n\nedge source target\nl x x\n",
        "            x                                                    \n\
         \x20                                                          page 1\n",
    ),
    (
        "class object\na 65535\nb 0\n\nlabel from to\n\nnode class pick fixed\nabcdefghijkl a 1 -\nbcdefghijklm b 1 -\npage a 1 -\nd b 0 -\n\
         cdefghijklmn a 1 -\nrefused b 1 -\n\nedge source target\n",
        " abcdefghijkl bcdefghijklm         page cdefghijklmn      refused\n\
         \x20       65535            0        65535        65535            0\n\
         \x20                                                          page 1\n",
    ),
    (SAMPLE, include_str!("../../../examples/sample.pages")),
    (include_str!("../../../examples/shift.sheet"), include_str!("../../../examples/shift.pages")),
];

pub fn named(tally: &mut Tally) {
    let mut r = Random::new(50);
    let mut met = Met::default();
    for (what, sheet, verdict) in in_order() {
        let answer = compare(tally, &mut met, &mut r, what, &sheet);
        tally.same(&format!("pages, {what}"), &answer.verdict, &verdict, &[]);
    }
    for (sheet, printed) in PRINTED {
        let answer = compare(tally, &mut met, &mut r, "printed pages", sheet.as_bytes());
        tally.same("printed pages", &String::from_utf8_lossy(&answer.text), &printed.into(), &[]);
    }
    for (sheet, _) in CASES {
        compare(tally, &mut met, &mut r, "pages of a named sheet", sheet.as_bytes());
    }
    tally.met_of("pages by name, by number", &met.numbers, &NUMBERS);
}

// ---- page buffers of every length, and the longest pages

pub fn every_length(tally: &mut Tally) {
    let mut sheets: Vec<Vec<u8>> = in_order().into_iter().take(17).map(|case| case.1).collect();
    sheets.extend(PRINTED.map(|(sheet, _)| sheet.as_bytes().to_vec()));
    let mut calls = 0;
    for sheet in &sheets {
        let answer = page_model::answer(sheet);
        let most = if answer.verdict == ACCEPTED { answer.text.len() + 1 } else { 140 };
        for length in 0..=most {
            ask(tally, "a page buffer of every length", sheet, &answer, length, 8);
            calls += 1;
        }
    }
    println!("page buffers of every length: {calls} calls");
}

/// What the header says.
fn stated() -> Option<usize> {
    let line = |line: &'static str| line.strip_prefix("#define MATCHER_PAGES_BYTES ");
    include_str!("../../../include/matcher.h").lines().find_map(line)?.parse().ok()
}

/// The stated bound is 4,096 rows of one pick. No sheet reaches it, for each object of the pick takes a line: 16,384 bytes hold fewer.
pub fn longest(tally: &mut Tally) {
    let by_picks: Vec<usize> = (1..=COLUMNS).map(|picks| page_model::length(4_096 / picks)).collect();
    tally.same("the longest pages, by the number of picks", &by_picks.iter().max().copied(), &Some(281_160), &[]);
    tally.same("the stated bound of pages", &stated(), &Some(281_160), &[]);
    tally.same("the crate's bound of pages", &matcher::PAGES_BYTES, &281_160, &[]);
    let mut r = Random::new(51);
    let mut met = Met::default();
    for case in sheets::at_ceilings() {
        let answer = compare(tally, &mut met, &mut r, case.what, &case.sheet);
        // 15 is for those with twelve picks
        let verdict = if answer.verdict.0 == 15 { (15, 0) } else { case.verdict };
        tally.same(&format!("pages, {}", case.what), &answer.verdict, &verdict, &[]);
    }
    println!("pages at ceilings: longest {} bytes, stated {}", met.longest, stated().unwrap_or(0));
}

// ---- random sheets

/// How often 15 stood in the way of each number, and each number in the way of 15.
#[derive(Default)]
struct Before {
    query: [usize; 16],
    damaged: [usize; 16],
}

/// One change of a sheet: a cause of a later refusal, or damaged bytes.
fn changed(r: &mut Random, valid: &Sheet, of_bytes: bool) -> Vec<u8> {
    if of_bytes {
        let mut bytes = valid.bytes();
        let sort = r.below(DAMAGES.len());
        sheet_cases::damage(r, &mut bytes, sort);
        return bytes;
    }
    let mut changed = valid.clone();
    let sort = r.below(CAUSES);
    sheet_cases::cause(r, &mut changed, sort);
    changed.bytes()
}

/// Random sheets with rows about the turn of a page, others as the sheet query gets them, and some at the sizes; three in ten are damaged.
pub fn random(tally: &mut Tally, cases: usize) {
    let mut r = Random::new(52);
    let mut met = Met::default();
    let mut before = Before::default();
    for i in 0..cases {
        let large = i % 128 == 5;
        let valid = match i % 10 {
            _ if large => page_cases::large(&mut r),
            0..=5 => page_cases::counted(&mut r),
            _ => sheet_cases::sheet(&mut r),
        };
        if large || matches!(i % 10, 0..=3 | 6..=8) {
            let answer = compare(tally, &mut met, &mut r, "random pages", &valid.bytes());
            if large && answer.verdict.0 == 15 {
                before.query[sheet_model::answer(&valid.bytes()).verdict.0 as usize] += 1;
            }
            continue;
        }
        let bytes = changed(&mut r, &valid, i % 2 == 0);
        let answer = compare(tally, &mut met, &mut r, "random damaged pages", &bytes);
        if answer.verdict.0 != 15 && valid.sections[2].iter().filter(|node| node[2] == "1").count() > COLUMNS {
            before.damaged[answer.verdict.0 as usize] += 1;
        }
    }
    met.show(tally, "random pages");
    tally.met_of("15, where a query says", &before.query, &[0, 10, 11, 12]);
    tally.met_of("over five picks and a cause before 15", &before.damaged, &[3, 5, 6, 7, 14]);
}
