//! The fourth field of a node's line, `-` for any object or a number (document 02, E4): sheets by name, a sample with fixed nodes damaged at every
//! place, and fields that are wrong in random sheets.

use crate::random::Random;
use crate::sheet_cases::{Sheet, NEAR};
use crate::sheets::{self, Met, SAMPLE};
use crate::Tally;

// ---- sheets by name

/// A class a of 1, 2 and 3, a label l, these node lines, of which the first is line 12, and an edge from x to y, line 16 behind two node lines.
fn sheet(nodes: &str) -> String {
    let feed = "class object\na 1\na 2\na 3\n\nlabel from to\nl 1 2\nl 2 2\nl 2 3\n";
    format!("{feed}\nnode class pick fixed\n{nodes}\nedge source target\nl x y\n")
}

/// Name, node lines, and the listing.
const NODES: [(&str, &str, &str); 49] = [
    ("any objects", "x a 1 -\ny a 1 -\n", "x y\n1 2\n2 2\n2 3\n"),
    ("any objects, written out", "x a 1 65536\ny a 1 65536\n", "x y\n1 2\n2 2\n2 3\n"),
    ("any objects, one written out", "x a 1 -\ny a 1 65536\n", "x y\n1 2\n2 2\n2 3\n"),
    ("the first fixed", "x a 1 2\ny a 1 -\n", "x y\n2 2\n2 3\n"),
    ("the second fixed", "x a 1 -\ny a 1 2\n", "x y\n1 2\n2 2\n"),
    ("both fixed", "x a 1 1\ny a 1 2\n", "x y\n1 2\n"),
    ("both fixed to one object", "x a 1 2\ny a 1 2\n", "x y\n2 2\n"),
    ("both fixed, and no pair", "x a 1 1\ny a 1 3\n", "x y\n"),
    ("fixed and not picked", "x a 0 2\ny a 1 -\n", "y\n2\n3\n"),
    ("both fixed, one picked", "x a 0 1\ny a 1 2\n", "y\n2\n"),
    // objects that are not in the class: no rows, and no refusal
    ("an object of no class", "x a 1 7\ny a 1 -\n", "x y\n"),
    ("object 0", "x a 1 0\ny a 1 -\n", "x y\n"),
    ("object 65535", "x a 1 -\ny a 1 65535\n", "x y\n"),
    // well-formed, and then 6 at that word of the drawing
    ("65537", "x a 1 65537\ny a 1 -\n", "refused 6 4\n"),
    ("65537 at the second", "x a 1 -\ny a 1 65537\n", "refused 6 7\n"),
    ("99999", "x a 1 99999\ny a 1 -\n", "refused 6 4\n"),
    ("99999 at both", "x a 1 99999\ny a 1 99999\n", "refused 6 4\n"),
    ("a pick of 2, and 65537", "x a 2 65537\ny a 1 -\n", "refused 6 3\n"),
    ("65537, and a pick of 2 behind it", "x a 1 65537\ny a 2 -\n", "refused 6 4\n"),
    ("no pick, and 65537", "x a 0 -\ny a 0 65537\n", "refused 6 7\n"),
    // no number of 1 to 5 digits
    ("100000", "x a 1 100000\ny a 1 -\n", "refused 14 12\n"),
    ("100000 at the second", "x a 1 -\ny a 1 100000\n", "refused 14 13\n"),
    ("a leading zero", "x a 1 02\ny a 1 -\n", "refused 14 12\n"),
    ("two zeros", "x a 1 00\ny a 1 -\n", "refused 14 12\n"),
    ("a leading zero before 65536", "x a 1 065536\ny a 1 -\n", "refused 14 12\n"),
    ("a plus", "x a 1 +2\ny a 1 -\n", "refused 14 12\n"),
    // no dash alone
    ("two dashes", "x a 1 --\ny a 1 -\n", "refused 14 12\n"),
    ("two dashes at the second", "x a 1 -\ny a 1 --\n", "refused 14 13\n"),
    ("a dash before a number", "x a 1 -2\ny a 1 -\n", "refused 14 12\n"),
    ("a dash behind a number", "x a 1 2-\ny a 1 -\n", "refused 14 12\n"),
    ("a comma", "x a 1 ,\ny a 1 -\n", "refused 14 12\n"),
    ("a dot", "x a 1 .\ny a 1 -\n", "refused 14 12\n"),
    ("a minus of three bytes", "x a 1 −\ny a 1 -\n", "refused 14 12\n"),
    // names
    ("a class", "x a 1 a\ny a 1 -\n", "refused 14 12\n"),
    ("a node", "x a 1 x\ny a 1 -\n", "refused 14 12\n"),
    ("the word any", "x a 1 any\ny a 1 -\n", "refused 14 12\n"),
    // more fields and fewer
    ("an empty field", "x a 1 \ny a 1 -\n", "refused 14 12\n"),
    ("three fields", "x a 1\ny a 1 -\n", "refused 14 12\n"),
    ("three fields at the second", "x a 1 -\ny a 1\n", "refused 14 13\n"),
    ("two fields", "x a\ny a 1 -\n", "refused 14 12\n"),
    ("five fields", "x a 1 - -\ny a 1 -\n", "refused 14 12\n"),
    ("five fields, numbers", "x a 1 2 2\ny a 1 -\n", "refused 14 12\n"),
    ("five fields at the second", "x a 1 -\ny a 1 2 -\n", "refused 14 13\n"),
    ("a space behind the dash", "x a 1 - \ny a 1 -\n", "refused 14 12\n"),
    ("two spaces before the dash", "x a 1  -\ny a 1 -\n", "refused 14 12\n"),
    ("a carriage return", "x a 1 -\r\ny a 1 -\n", "refused 14 12\n"),
    ("a tab", "x a 1\t-\ny a 1 -\n", "refused 14 12\n"),
    // the first breach counts
    ("a doubled node, and two dashes", "x a 1 --\nx a 1 -\n", "refused 14 12\n"),
    ("two dashes at a doubled node", "x a 1 -\nx a 1 --\n", "refused 14 13\n"),
];

/// A field of the good sheet and what takes its place, and the line that is then wrong: a dash in every other field, and other name lines.
const FIELDS: [(&str, &str, u32); 20] = [
    ("a 1\n", "- 1\n", 2),
    ("a 1\n", "a -\n", 2),
    ("l 1 2\n", "- 1 2\n", 7),
    ("l 1 2\n", "l - 2\n", 7),
    ("l 1 2\n", "l 1 -\n", 7),
    ("x a 1 -\n", "- a 1 -\n", 12),
    ("x a 1 -\n", "x - 1 -\n", 12),
    ("x a 1 -\n", "x a - -\n", 12),
    ("y a 1 -\n", "y a - -\n", 13),
    ("l x y\n", "- x y\n", 16),
    ("l x y\n", "l - y\n", 16),
    ("l x y\n", "l x -\n", 16),
    ("node class pick fixed\n", "node class pick\n", 11),
    ("node class pick fixed\n", "node class pick -\n", 11),
    ("node class pick fixed\n", "node class pick fixed \n", 11),
    ("node class pick fixed\n", "node class pick fixed fixed\n", 11),
    ("node class pick fixed\n", "node class fixed pick\n", 11),
    ("class object\n", "class object fixed\n", 1),
    ("label from to\n", "label from to -\n", 6),
    ("edge source target\n", "edge source target fixed\n", 15),
];

/// The sample as it was before there were fixed nodes, and with one of the two changes only.
fn old() -> [(&'static str, String, u32); 3] {
    let lines = SAMPLE.replace(" -\n", "\n");
    let name_line = SAMPLE.replace(" pick fixed\n", " pick\n");
    [("an old sheet", lines.replace(" pick fixed\n", " pick\n"), 12), ("old node lines", lines, 13), ("the old name line", name_line, 12)]
}

pub fn named(tally: &mut Tally) {
    let good = sheet("x a 1 -\ny a 1 -\n");
    let nodes = NODES.iter().map(|&(name, nodes, listing)| (name, sheet(nodes), listing.to_string()));
    let fields = FIELDS.iter().map(|&(field, other, line)| {
        assert!(good.contains(field));
        ("another field", good.replacen(field, other, 1), format!("refused 14 {line}\n"))
    });
    let old = old().map(|(name, sheet, line)| (name, sheet, format!("refused 14 {line}\n")));
    let [block, listing] = [include_str!("../../../examples/block.sheet"), include_str!("../../../examples/block.listing")].map(String::from);
    let mut r = Random::new(65);
    let mut met = Met::default();
    for (name, sheet, listing) in nodes.chain(fields).chain(old).chain([("the example", block, listing)]) {
        let answer = sheets::compare(tally, &mut met, &mut r, &format!("dashes, {name}"), sheet.as_bytes());
        tally.same(&format!("dashes, {name}: the listing of {sheet:?}"), &String::from_utf8_lossy(&answer.text), &listing.into(), &[]);
        sheets::query(tally, sheet.as_bytes());
    }
    met.show(tally, "sheets with fixed nodes", &[0, 6, 14]);
}

/// Document 01's sheet with its nodes fixed to 1, to 2 and, written out, to any object, damaged at every place.
pub fn mutations(tally: &mut Tally) {
    let sample = SAMPLE.replace("a region 1 -", "a region 1 1").replace("m region 0 -", "m region 0 2").replace("b region 1 -", "b region 1 65536");
    let mut met = Met::default();
    sheets::damaged(tally, &mut met, "fixed sample", sample.as_bytes(), NEAR);
    met.show(tally, "fixed samples with a byte damaged", &[0, 3, 6, 14]);
}

// ---- random sheets

/// A dash for every other field, then what no fourth field may be, then fields missing and more.
pub const DASHES: [&str; 18] = [
    "for a class",
    "for an object",
    "for a label",
    "for a number of a pair",
    "for a node",
    "for a node's class",
    "for a pick",
    "for an edge's label",
    "for an end of an edge",
    "two",
    "before a number",
    "behind a number",
    "a name",
    "nothing",
    "a leading zero",
    "six digits",
    "three fields",
    "five fields",
];

/// The section and the field that a sort is about.
fn field_of(r: &mut Random, sort: usize) -> (usize, usize) {
    match sort {
        0 | 1 => (0, sort),
        2 => (1, 0),
        3 => (1, 1 + r.below(2)),
        4..=6 => (2, sort - 4),
        7 => (3, 0),
        8 => (3, 1 + r.below(2)),
        _ => (2, 3),
    }
}

/// Another field in one line, where the sheet has such a line; or one less or more.
pub fn misplace(r: &mut Random, sheet: &mut Sheet, sort: usize) {
    let (section, field) = field_of(r, sort);
    let lines = &mut sheet.sections[section];
    if lines.is_empty() {
        return;
    }
    let line = r.below(lines.len());
    let line = &mut lines[line];
    let number = r.below(9);
    match sort {
        16 => drop(line.pop()),
        17 => line.push(line[field].clone()),
        _ => {
            line[field] = match sort {
                9 => "--".to_string(),
                10 => format!("-{number}"),
                11 => format!("{number}-"),
                12 => line[0].clone(),
                13 => String::new(),
                14 => format!("0{number}"),
                15 => (100_000 + number).to_string(),
                _ => "-".to_string(),
            }
        }
    }
}
