//! Stars behind the names of two-way labels (document 02, E1): sheets by name, a starred sample damaged at every place, and stars that are
//! misplaced in random sheets.

use crate::random::Random;
use crate::sheet_cases::{Sheet, NEAR};
use crate::sheets::{self, Met, SAMPLE};
use crate::Tally;

// ---- sheets by name

/// A class a of 1, 2 and 3, nodes x and y of it, both picked, and these label lines and edge lines. The first label line is line 7; with one
/// label line the first edge line is line 14.
fn sheet(labels: &str, edges: &str) -> String {
    format!("class object\na 1\na 2\na 3\n\nlabel from to\n{labels}\nnode class pick fixed\nx a 1 -\ny a 1 -\n\nedge source target\n{edges}")
}

/// Name, label lines, edge lines, and the listing.
const LABELS: [(&str, &str, &str, &str); 35] = [
    ("without a star", "l 2 1\n", "l x y\n", "x y\n2 1\n"),
    ("with a star", "l* 2 1\n", "l* x y\n", "x y\n1 2\n2 1\n"),
    ("both directions stored", "l* 1 2\nl* 2 1\n", "l* x y\n", "x y\n1 2\n2 1\n"),
    ("a pair (u,u)", "l* 1 1\nl* 3 2\n", "l* x y\n", "x y\n1 1\n2 3\n3 2\n"),
    ("in two edges", "l* 2 1\nl* 3 1\n", "l* x y\nl* y x\n", "x y\n1 2\n1 3\n2 1\n3 1\n"),
    ("one label with a star, one without", "l 1 2\nl 2 1\nm* 2 1\n", "l x y\nm* x y\n", "x y\n1 2\n2 1\n"),
    ("the other one with a star", "l* 1 2\nm 2 1\n", "l* x y\nm x y\n", "x y\n2 1\n"),
    ("lines of two labels in turns", "l* 1 2\nm 3 3\nl* 2 3\n", "l* x y\n", "x y\n1 2\n2 1\n2 3\n3 2\n"),
    ("used by no edge", "l* 2 1\nm 1 3\n", "m x y\n", "x y\n1 3\n"),
    // the star is not one of the 12 letters
    ("12 letters", "abcdefghijkl* 2 1\n", "abcdefghijkl* x y\n", "x y\n1 2\n2 1\n"),
    ("13 letters", "abcdefghijklm* 2 1\n", "abcdefghijklm* x y\n", "refused 14 7\n"),
    // two stars; a star alone, first, within, behind a space; another byte
    ("two stars", "l** 2 1\n", "l** x y\n", "refused 14 7\n"),
    ("two stars on a second line", "l* 2 1\nl** 3 1\n", "l* x y\n", "refused 14 8\n"),
    ("two stars on an edge", "l* 2 1\n", "l** x y\n", "refused 14 14\n"),
    ("12 letters and two stars", "abcdefghijkl** 2 1\n", "abcdefghijkl** x y\n", "refused 14 7\n"),
    ("a star alone", "* 2 1\n", "* x y\n", "refused 14 7\n"),
    ("a star alone on an edge", "l* 2 1\n", "* x y\n", "refused 14 14\n"),
    ("two stars alone", "** 2 1\n", "** x y\n", "refused 14 7\n"),
    ("a star first", "*l 2 1\n", "*l x y\n", "refused 14 7\n"),
    ("a star within", "l*l 2 1\n", "l*l x y\n", "refused 14 7\n"),
    ("a star first and last", "*l* 2 1\n", "*l* x y\n", "refused 14 7\n"),
    ("a star behind a space", "l * 2 1\n", "l * x y\n", "refused 14 7\n"),
    ("a capital and a star", "L* 2 1\n", "L* x y\n", "refused 14 7\n"),
    ("a plus", "l+ 2 1\n", "l+ x y\n", "refused 14 7\n"),
    // both with and without: the first line that parts from the earlier ones
    ("without its star on a second line", "l* 1 2\nl 2 3\n", "l* x y\n", "refused 14 8\n"),
    ("with a star on a second line", "l 1 2\nl* 2 3\n", "l x y\n", "refused 14 8\n"),
    ("without its star on a third line", "l* 1 2\nm 1 3\nl 2 3\n", "l* x y\n", "refused 14 9\n"),
    ("without its star on an edge", "l* 2 1\n", "l x y\n", "refused 14 14\n"),
    ("with a star on an edge only", "l 2 1\n", "l* x y\n", "refused 14 14\n"),
    ("without its star on a second edge", "l* 2 1\n", "l* x y\nl y x\n", "refused 14 15\n"),
    ("an edge of another label with a star", "l* 2 1\n", "m* x y\n", "refused 14 14\n"),
    // stars on the other fields of these lines
    ("a star on a number", "l* 2* 1\n", "l* x y\n", "refused 14 7\n"),
    ("a star on the last number", "l* 2 1*\n", "l* x y\n", "refused 14 7\n"),
    ("a star on a source", "l* 2 1\n", "l* x* y\n", "refused 14 14\n"),
    ("a star on a target", "l* 2 1\n", "l* x y*\n", "refused 14 14\n"),
];

/// A field of the good sheet with a star behind it, and the line that is then wrong.
const FIELDS: [(&str, &str, u32); 11] = [
    ("a 1\n", "a* 1\n", 2),
    ("a 2\n", "a* 2\n", 3),
    ("a 1\n", "a 1*\n", 2),
    ("x a 1 -\n", "x* a 1 -\n", 10),
    ("x a 1 -\n", "x a* 1 -\n", 10),
    ("x a 1 -\n", "x a 1* -\n", 10),
    ("x a 1 -\n", "x a 1 -*\n", 10),
    ("x a 1 -\n", "x a 1 *\n", 10),
    ("label from to\n", "label* from to\n", 6),
    ("class object\n", "class* object\n", 1),
    ("edge source target\n", "edge* source target\n", 13),
];

/// What a starred label's words do: their places and sizes are those without the mark.
const WORDS: [(&str, &str, &str, &str); 3] = [
    ("pairs that descend", "l* 2 1\nl* 1 2\n", "l* x y\n", "refused 3 12\n"),
    ("a pair twice", "l* 1 2\nm 1 1\nl* 1 2\n", "l* x y\n", "refused 3 13\n"),
    ("a value over 65,535", "l* 65536 1\n", "l* x y\n", "refused 3 10\n"),
];

/// Whole sheets: one name for a class, a label with its star and a node; the last line unended; an earlier breach; the example.
const WHOLE: [(&str, &str); 4] = [
    ("class object\nl 1\nl 2\n\nlabel from to\nl* 2 1\n\nnode class pick fixed\nl l 1 -\nx l 1 -\n\nedge source target\nl* l x\n", "l x\n1 2\n2 1\n"),
    ("class object\na 1\n\nlabel from to\nl* 1 1\n\nnode class pick fixed\nx a 1 -\n\nedge source target\nl* x x", "refused 14 11\n"),
    ("class object\na 01\n\nlabel from to\nl* 1 1\nl 1 2\n", "refused 14 2\n"),
    (include_str!("../../../examples/touching.sheet"), include_str!("../../../examples/touching.listing")),
];

pub fn named(tally: &mut Tally) {
    let good = sheet("l* 2 1\n", "l* x y\n");
    let lines = LABELS.iter().chain(&WORDS).map(|&(name, labels, edges, listing)| (name, sheet(labels, edges), listing.to_string()));
    let fields = FIELDS.iter().map(|&(field, other, line)| {
        assert!(good.contains(field));
        ("a star where none may be", good.replacen(field, other, 1), format!("refused 14 {line}\n"))
    });
    let whole = WHOLE.iter().map(|&(sheet, listing)| ("a whole sheet", sheet.to_string(), listing.to_string()));
    let mut r = Random::new(41);
    let mut met = Met::default();
    for (name, sheet, listing) in lines.chain(fields).chain(whole) {
        let answer = sheets::compare(tally, &mut met, &mut r, &format!("stars, {name}"), sheet.as_bytes());
        tally.same(&format!("stars, {name}: the listing of {sheet:?}"), &String::from_utf8_lossy(&answer.text), &listing.into(), &[]);
        sheets::query(tally, sheet.as_bytes());
    }
    met.show(tally, "starred sheets", &[0, 3, 14]);
}

/// Document 01's sheet with a star on every `touch`, damaged at every place.
pub fn mutations(tally: &mut Tally) {
    let mut met = Met::default();
    sheets::damaged(tally, &mut met, "starred sample", SAMPLE.replace("touch", "touch*").as_bytes(), NEAR);
    met.show(tally, "starred samples with a byte damaged", &[0, 3, 6, 14]);
}

// ---- random sheets

pub const STARS: [&str; 16] = [
    "off a label line",
    "off an edge line",
    "on a label line",
    "on an edge line",
    "two",
    "alone",
    "first",
    "within",
    "behind a space",
    "on a class line",
    "on a node's class",
    "on a node",
    "on an end of an edge",
    "on a number",
    "behind 12 letters",
    "behind 13 letters",
];

/// The section and the field that a sort is about.
fn field_of(r: &mut Random, sort: usize) -> (usize, usize) {
    match sort {
        0 | 2 => (1, 0),
        1 | 3 => (3, 0),
        9 => (0, 0),
        10 => (2, 1),
        11 => (2, 0),
        12 => (3, 1 + r.below(2)),
        13 => [(0, 1), (1, 1), (1, 2), (2, 2), (2, 3)][r.below(5)],
        _ => ([1, 3][r.below(2)], 0),
    }
}

/// A star put on or taken off in one line, where the sheet has such a line; the last two rename a label on all its lines.
pub fn misplace(r: &mut Random, sheet: &mut Sheet, sort: usize) {
    let (section, field) = field_of(r, sort);
    let lines = &mut sheet.sections[section];
    let wanted = |text: &str| match sort {
        0 | 1 => text.ends_with('*'),
        2 | 3 => !text.ends_with('*'),
        _ => true,
    };
    let places: Vec<usize> = (0..lines.len()).filter(|&k| wanted(&lines[k][field])).collect();
    if places.is_empty() {
        return;
    }
    let line = &mut lines[places[r.below(places.len())]];
    let old = line[field].clone();
    let name = old.trim_end_matches('*');
    line[field] = match sort {
        0 | 1 => name.to_string(),
        4 => format!("{name}**"),
        5 => "*".to_string(),
        6 => format!("*{old}"),
        7 => format!("{}*{old}", &name[..1]),
        8 => format!("{name} *"),
        14 | 15 => return rename(sheet, &old, &format!("{}*", &name.repeat(13)[..sort - 2])),
        _ => format!("{old}*"),
    };
}

/// Another name for a label, on its lines and in its edges.
fn rename(sheet: &mut Sheet, old: &str, new: &str) {
    for section in [1, 3] {
        let lines = sheet.sections[section].iter_mut().filter(|line| line[0] == old);
        lines.for_each(|line| line[0] = new.to_string());
    }
}
