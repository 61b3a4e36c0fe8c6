//! docs/MANUAL.md against the library: every example that it prints is asked for, and must be answered as it is printed.
//! Code blocks are found by the name behind ```text, tables by the heading above them.

use crate::manual_limits;
use crate::manual_pages;
use crate::manual_sheets;
use crate::manual_slices;
use crate::model::{self, Verdict, ACCEPTED};
use crate::sheet_model;
use crate::{said, Tally};
use matcher::Refusal;
use std::sync::OnceLock;

// ---- the library: all calls of these tests

/// What a call leaves: number and place, the three slices, and how many instructions or row words.
pub struct Left {
    pub verdict: Verdict,
    pub list: Vec<u32>,
    pub work: Vec<u32>,
    pub rows: Vec<u32>,
    pub count: usize,
}

/// Distinct words, none of them 0.
fn lent(words: usize) -> Vec<u32> {
    (0..words as u32).map(|i| 0xb000_0000 + i).collect()
}

/// One call of `matcher.h` with slices of these lengths; a run takes `list`, the others take `drawing`.
pub fn ask(call: &str, case: &Case) -> Left {
    let [mut list, mut work, mut rows] = case.lengths.map(lent);
    let (feed, drawing) = (&case.feed[..], &case.drawing[..]);
    let (verdict, count) = match call {
        "matcher_check_feed" => (said(&matcher::check_feed(feed)), 0),
        "matcher_check_drawing" => (said(&matcher::check_drawing(feed, drawing)), 0),
        "matcher_translate" => counted(matcher::translate(feed, drawing, &mut list)),
        "matcher_run" => (said(&matcher::run(feed, &case.list, &mut work)), 0),
        _ => counted(matcher::query(feed, drawing, &mut list, &mut work, &mut rows).map(<[u32]>::len)),
    };
    Left { verdict, list, work, rows, count }
}

fn counted(answer: Result<usize, Refusal>) -> (Verdict, usize) {
    (said(&answer), answer.unwrap_or(0))
}

pub fn listing(sheet: &[u8]) -> String {
    let mut listing = [b'~'; matcher::LISTING_BYTES];
    String::from_utf8(matcher::sheet_query(sheet, &mut listing).unwrap_or_default().to_vec()).unwrap()
}

/// The pages of a sheet with a page buffer of so many bytes, or the line of its refusal.
pub fn pages(sheet: &[u8], bytes: usize) -> String {
    match matcher::sheet_pages(sheet, &mut vec![b'~'; bytes]) {
        Ok(text) => String::from_utf8(text.to_vec()).unwrap(),
        Err(Refusal { number, place }) => format!("refused {number} {place}\n"),
    }
}

// ---- the manual's text

/// A file of the repository, from whose root the tests are run.
pub fn file(path: &str) -> String {
    std::fs::read_to_string(path).unwrap_or_else(|error| panic!("{path}: {error}"))
}

fn manual() -> &'static str {
    static TEXT: OnceLock<String> = OnceLock::new();
    TEXT.get_or_init(|| file("docs/MANUAL.md"))
}

/// The lines of the code block of this name.
pub fn block(name: &str) -> Vec<&'static str> {
    let fence = format!("```text {name}");
    let lines = manual().lines().skip_while(|line| *line != fence).skip(1);
    let lines: Vec<_> = lines.take_while(|line| *line != "```").collect();
    assert!(!lines.is_empty(), "docs/MANUAL.md has no code block {name}");
    lines
}

/// The block as text.
pub fn text(name: &str) -> String {
    block(name).join("\n") + "\n"
}

pub fn numbers(text: &str) -> Vec<u32> {
    text.split_whitespace().map(|word| word.parse().unwrap_or_else(|_| panic!("no number in docs/MANUAL.md: {word}"))).collect()
}

/// The words of a block whose lines are 'place: words # remark'. Each place is how often `step` words stand before the line.
pub fn words(tally: &mut Tally, name: &str, step: usize) -> Vec<u32> {
    let mut words = Vec::new();
    for line in block(name) {
        let line = line.split('#').next().unwrap();
        let (place, rest) = line.split_once(':').unwrap_or_else(|| panic!("no place in docs/MANUAL.md, {name}: {line}"));
        tally.same(&format!("manual, place in {name}"), &place.trim().parse::<usize>(), &Ok(words.len() / step), &words);
        words.extend(numbers(rest));
    }
    words
}

/// The words of the line of a block that begins with this word.
pub fn line_of(name: &str, first: &str) -> Vec<u32> {
    let line = block(name).into_iter().find_map(|line| line.strip_prefix(first));
    numbers(line.unwrap_or_else(|| panic!("docs/MANUAL.md: no {first} in {name}")))
}

/// The cells of the first table below this heading, without its head.
pub fn table(heading: &str) -> Vec<Vec<&'static str>> {
    let lines = manual().lines().skip_while(|line| *line != heading).skip_while(|line| !line.starts_with('|'));
    let rows = lines.take_while(|line| line.starts_with('|')).skip(2);
    let rows: Vec<Vec<_>> = rows.map(|line| line.trim_matches('|').split('|').map(str::trim).collect()).collect();
    assert!(!rows.is_empty(), "docs/MANUAL.md has no table below {heading}");
    rows
}

/// The manual has this sentence, however its lines are broken.
pub fn says(tally: &mut Tally, sentence: &str) {
    let text = manual().split_whitespace().collect::<Vec<_>>().join(" ");
    tally.same(&format!("the manual says '{sentence}'"), &text.contains(sentence), &true, &[]);
}

// ---- what is asked for

#[derive(Clone, Default)]
pub struct Case {
    pub feed: Vec<u32>,
    pub drawing: Vec<u32>,
    pub list: Vec<u32>,
    pub lengths: [usize; 3],
    pub sheet: Option<Vec<u8>>,
    /// the length of a page buffer, where the sheet's pages are asked for
    pub buffer: Option<usize>,
}

/// The sample, with ample slices.
pub fn sample(tally: &mut Tally) -> Case {
    Case {
        feed: words(tally, "sample-feed", 1),
        drawing: words(tally, "sample-drawing", 1),
        list: words(tally, "sample-list", 3),
        lengths: [60, 99, 9],
        sheet: Some(text("sample-sheet").into_bytes()),
        buffer: None,
    }
}

/// Two picked nodes of classes with so many objects, no edge.
fn crossed(sizes: &[u32]) -> Case {
    let mut feed = vec![2, 0, sizes[0], sizes[1]];
    feed.extend(sizes.iter().flat_map(|&n| (0..n).flat_map(|i| [i, i])));
    let drawing = vec![2, 0, 0, 1, model::ANY, 1, 1, model::ANY];
    let list = model::translate(&model::read_drawing(&drawing)).list;
    Case { feed, drawing, list, lengths: [60, 600_000, 140_000], ..Case::default() }
}

/// What an example of the table of refusals hands over, and to which call.
fn example(sample: &Case, text: &str) -> (&'static str, Case) {
    let (first, rest) = text.split_once(' ').unwrap_or((text, ""));
    let mut case = Case { sheet: None, lengths: [60, 66, 9], ..sample.clone() };
    match first {
        "feed" => case.feed = numbers(rest),
        "drawing" => case.drawing = numbers(rest),
        "list" => case.list = numbers(rest),
        "query" => case.lengths = [0, 1, 2].map(|k| numbers(rest)[k] as usize),
        "cross" => case = crossed(&numbers(rest)),
        "sheet" | "pages" => case.sheet = Some(rest.replace("\\n", "\n").into_bytes()),
        "bytes" => case.sheet = Some(vec![b'\n'; numbers(rest)[0] as usize]),
        "buffer" => case.sheet = sample.sheet.clone(),
        _ => panic!("docs/MANUAL.md, refusals: {text}"),
    }
    case.buffer = match first {
        "pages" => Some(matcher::PAGES_BYTES),
        "buffer" => Some(numbers(rest)[0] as usize),
        _ => None,
    };
    let call = match first {
        "feed" => "matcher_check_feed",
        "drawing" => "matcher_check_drawing",
        "list" => "matcher_run",
        _ => "matcher_query",
    };
    (call, case)
}

// ---- the worked examples

/// A drawing has this list as its translation, and gives these rows.
fn answers(tally: &mut Tally, name: &str, case: &Case, rows: &[u32]) {
    let lengths = [case.list.len(), 600, rows.len()];
    let left = ask("matcher_query", &Case { lengths, ..case.clone() });
    tally.same(&format!("{name}: the query"), &(left.verdict, left.count), &(ACCEPTED, rows.len()), &case.drawing);
    tally.same(&format!("{name}: the rows"), &left.rows[..], rows, &case.drawing);
    tally.same(&format!("{name}: the query's list"), &left.list, &case.list, &case.drawing);
    let left = ask("matcher_translate", &Case { lengths, ..case.clone() });
    tally.same(&format!("{name}: the translation"), &(left.verdict, left.count), &(ACCEPTED, case.list.len() / 3), &case.drawing);
    tally.same(&format!("{name}: the list"), &left.list, &case.list, &case.drawing);
}

/// Sections 4 and 5: a feed, a drawing and its rows.
fn small(tally: &mut Tally) {
    let (feed, drawing) = (words(tally, "small-feed", 1), words(tally, "small-drawing", 1));
    let list = model::translate(&model::read_drawing(&drawing)).list;
    answers(tally, "the manual's small drawing", &Case { feed, drawing, list, ..Case::default() }, &numbers(&text("small-rows")));
}

/// Section 4: a feed with a two-way label, and the rows of a drawing over it.
fn touching(tally: &mut Tally) {
    let words_of = "2 1  0 1 65536  0 1 65536  0 0 1";
    says(tally, &format!("`{}`", words_of.replace("  ", " ")));
    let (feed, drawing) = (words(tally, "touching-feed", 1), numbers(words_of));
    let list = model::translate(&model::read_drawing(&drawing)).list;
    answers(tally, "the manual's touching regions", &Case { feed, drawing, list, ..Case::default() }, &numbers(&text("touching-rows")));
    says(tally, &format!("of a two-way label {} more", with_comma(model::MARK)));
}

/// Section 5: the small drawing with its first node fixed to an object, and the rows of each.
fn fixed_nodes(tally: &mut Tally) {
    let feed = words(tally, "small-feed", 1);
    for row in table("### A fixed node") {
        let (drawing, rows) = (numbers(row[1].trim_matches('`')), numbers(row[2].trim_matches('`')));
        tally.same("the manual's fixed object", &row[0].split(',').next(), &Some(&*drawing[4].to_string()), &drawing);
        let list = model::translate(&model::read_drawing(&drawing)).list;
        let case = Case { feed: feed.clone(), drawing, list, ..Case::default() };
        answers(tally, &format!("the manual's node fixed to {}", row[0]), &case, &rows);
    }
}

/// The table of kinds: instruction i has kind i, register i holds what is printed, and its words are of the sort that is named.
fn kinds(tally: &mut Tally) {
    let feed = words(tally, "kinds-feed", 1);
    let table = table("### The sixteen kinds");
    let list: Vec<u32> = table.iter().flat_map(|row| numbers(row[5].trim_matches('`'))).collect();
    let digits = |cell: &str| cell.replace(['`', '(', ')', ','], " ");
    let printed: Vec<Vec<u32>> = table.iter().map(|row| numbers(&digits(row[6]))).collect();
    manual_slices::registers(tally, "the manual's kinds", &feed, &list, &printed);
    tally.same("the manual's kinds: how many", &table.len(), &16, &[]);
    says(tally, "instruction i has its kind at 3i, a at 3i + 1 and b at 3i + 2.");
    for (i, row) in table.iter().enumerate() {
        tally.same("the manual's kinds: number", &(row[0].parse::<usize>(), list[3 * i] as usize), &(Ok(i), i), &[]);
        for (place, sort) in (3 * i..).zip(["kind", row[2], row[3]]) {
            let (word, number) = match sort {
                "kind" => (16, 9),
                "class" | "label" => (1, 16),
                "register" => (i as u32, 16),
                "0" => (1, 17),
                _ => (u32::MAX, 0),
            };
            let verdict = if number == 0 { ACCEPTED } else { (number, place as u32) };
            let mut list = list.clone();
            list[place] = word;
            let case = Case { feed: feed.clone(), list, lengths: [0, 999, 0], ..Case::default() };
            tally.same("the manual's kinds: a word changed", &ask("matcher_run", &case).verdict, &verdict, &case.list);
        }
    }
}

/// Section 7: translations with an inverse, with composed paths, and with a fixed node.
fn reductions(tally: &mut Tally) {
    for name in ["opposite", "crossed", "fixed"] {
        let [feed, drawing, list, rows] = ["feed", "drawing", "list", "rows"].map(|first| line_of(name, first));
        answers(tally, &format!("the manual's {name}"), &Case { feed, drawing, list, ..Case::default() }, &rows);
    }
}

/// Section 11, from the sheet to its listing.
fn whole_sample(tally: &mut Tally) {
    let case = sample(tally);
    let sheet = text("sample-sheet");
    tally.same("the manual's sample is that of examples", &sheet, &file("examples/sample.sheet"), &[]);
    let read = sheet_model::read(sheet.as_bytes()).map(|sheet| (sheet.feed(), sheet.drawing()));
    tally.same("the sample's words", &read.ok(), &Some((case.feed.clone(), case.drawing.clone())), &[]);
    answers(tally, "the manual's sample", &case, &numbers(&text("sample-rows")));
    let work = words(tally, "sample-work", 1);
    tally.same("the sample's listing", &listing(sheet.as_bytes()), &text("sample-listing"), &[]);
    says(tally, &format!("Its translation has {} instructions, {} words.", case.list.len() / 3, case.list.len()));
    says(tally, &format!("{} pairs in {} words.", work.len() / 2, work.len()));
    says(tally, "is 65,536 × (r + 1) + p.");
    says(tally, &format!("65,536 × 9 = {} and {}:", with_comma(65_536 * 9), with_comma(65_536 * 9 + 1)));
    tally.same("the sample's tags", &[work[54], work[56]], &[65_536 * 9, 65_536 * 9 + 1], &[]);
}

/// A number of four to six digits as the manual prints it.
fn with_comma(n: u32) -> String {
    format!("{},{:03}", n / 1000, n % 1000)
}

// ---- refusals

/// Each row of the table of refusals: its example gives its answer, whose number it stands under.
fn refusals(tally: &mut Tally) {
    let sample = sample(tally);
    let mut met = [false; 18];
    for row in table("## 8. Refusals") {
        let (given, answer) = (row[3].trim_matches('`'), row[4].trim_matches('`'));
        let (call, case) = example(&sample, given);
        let found = match (&case.sheet, case.buffer) {
            (Some(sheet), Some(bytes)) => pages(sheet, bytes),
            (Some(sheet), None) => listing(sheet),
            (None, _) => format!("refused {} {}\n", ask(call, &case).verdict.0, ask(call, &case).verdict.1),
        };
        tally.same(&format!("the manual's '{given}'"), &found, &format!("refused {answer}\n"), &[]);
        let (number, place) = answer.split_once(' ').unwrap();
        tally.same(&format!("the number of '{given}'"), number, row[0], &[]);
        if row[2].parse::<u32>().is_ok() {
            tally.same(&format!("the place of '{given}'"), place, row[2], &[]);
        }
        met[row[0].parse::<usize>().unwrap()] = true;
    }
    tally.same("the manual has every refusal", &met[1..], &[true; 17][..], &[]);
}

/// Numbers as '1 to 4, 8, 9'.
pub fn is_among(cell: &str, number: u32) -> bool {
    cell.split(", ").any(|part| {
        let (low, high) = part.split_once(" to ").unwrap_or((part, part));
        low.parse().map_or(false, |low: u32| low <= number) && high.parse().map_or(false, |high: u32| number <= high)
    })
}

/// The slice that a cell of the table names: these words, then zeros or what was lent.
fn slice_of(cell: &str, written: impl Fn() -> Vec<u32>, length: usize) -> Vec<u32> {
    let mut words = match cell {
        "" | "kept" | "all zeros" => Vec::new(),
        _ => written(),
    };
    let rest = if cell.ends_with("zeros") { vec![0; length] } else { lent(length) };
    words.extend(&rest[words.len().min(length)..]);
    words
}

/// What each call leaves after each answer, on the sample and on the examples of refusals.
fn leaves(tally: &mut Tally) {
    let sample = sample(tally);
    let refused = table("## 8. Refusals").into_iter().map(|row| example(&sample, row[3].trim_matches('`')).1);
    let cases: Vec<Case> = std::iter::once(Case { sheet: None, ..sample.clone() }).chain(refused).filter(|case| case.sheet.is_none()).collect();
    let table = table("### What a call leaves");
    let rows = table.iter().filter(|row| !row[0].starts_with("`matcher_sheet_"));
    let calls: Vec<(&str, &Vec<&str>)> = rows.map(|row| (row[0].trim_matches('`'), row)).collect();
    for (call, row) in &calls {
        let answers: Vec<(&Case, Left)> = cases.iter().map(|case| (case, ask(call, case))).collect();
        for number in (0..=17).filter(|&number| is_among(row[1], number)) {
            let met = answers.iter().any(|(_, left)| left.verdict.0 == number);
            tally.same(&format!("{call} answers {number}"), &met, &true, &[]);
        }
        for (case, left) in &answers {
            let named = calls.iter().filter(|(other, row)| other == call && is_among(row[1], left.verdict.0)).count();
            tally.same(&format!("{call}: {} in the manual", left.verdict.0), &named, &1, &[]);
            if is_among(row[1], left.verdict.0) {
                leaves_so(tally, call, row, case, left);
            }
        }
    }
}

/// One call's slices and count against a row of the table.
fn leaves_so(tally: &mut Tally, call: &str, row: &[&str], case: &Case, left: &Left) {
    let plan = || model::plan(&case.feed, &case.drawing, case.lengths[1]).unwrap_or_else(|_| panic!("{call}: refused, though {row:?}"));
    let list = || if call == "matcher_run" { case.list.clone() } else { plan().translation.list };
    let work = || match call {
        "matcher_run" => model::run(&case.feed, &case.list, &vec![0; case.lengths[1]]).1,
        _ => plan().run(case.lengths[1]).1,
    };
    let what = format!("{call} after {:?}", left.verdict);
    tally.same(&format!("{what}: list"), &(left.list == slice_of(row[2], list, case.lengths[0])), &true, &left.list);
    tally.same(&format!("{what}: work"), &(left.work == slice_of(row[3], work, case.lengths[1])), &true, &[]);
    tally.same(&format!("{what}: rows"), &(left.rows == slice_of(row[4], || plan().rows, case.lengths[2])), &true, &left.rows);
    if left.verdict != ACCEPTED {
        tally.same(&format!("{what}: count"), &left.count, &0, &[]);
    }
}

pub fn examples(tally: &mut Tally) {
    small(tally);
    touching(tally);
    fixed_nodes(tally);
    kinds(tally);
    reductions(tally);
    whole_sample(tally);
    manual_slices::all(tally);
    manual_sheets::all(tally);
    manual_pages::all(tally);
    refusals(tally);
    leaves(tally);
}

pub fn all(tally: &mut Tally) {
    examples(tally);
    manual_limits::table(tally);
}
