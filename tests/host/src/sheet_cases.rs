//! Random sheets: valid ones, those whose feed or drawing is refused, and the same with damaged bytes. Stars that are misplaced are in
//! `stars.rs`, dashes and what else a node's fourth field may not be in `dashes.rs`.

use crate::cases;
use crate::model::ANY;
use crate::random::Random;
use crate::sheet_model::{MOST_BYTES, NAME_LINES};
use std::collections::BTreeSet;

/// The fields of the value lines of the four sections.
#[derive(Clone, Default)]
pub struct Sheet {
    pub sections: [Vec<Vec<String>>; 4],
}

impl Sheet {
    pub fn bytes(&self) -> Vec<u8> {
        let mut text = String::new();
        for (name_line, lines) in NAME_LINES.iter().zip(&self.sections) {
            if !text.is_empty() {
                text.push('\n');
            }
            text += name_line;
            text.push('\n');
            for fields in lines {
                text += &fields.join(" ");
                text.push('\n');
            }
        }
        text.into_bytes()
    }
}

// ---- names

/// Mostly short and of few letters, so that names share their beginnings.
fn name(r: &mut Random) -> String {
    let length = match r.below(6) {
        0 => 12,
        1 => 1 + r.below(12),
        _ => 1 + r.below(3),
    };
    let letters = if r.one_in(2) { 2 } else { 26 };
    (0..length).map(|_| char::from(b'a' + r.below(letters) as u8)).collect()
}

pub fn names(r: &mut Random, count: usize) -> Vec<String> {
    let mut names: Vec<String> = Vec::new();
    while names.len() < count {
        let name = name(r);
        if !names.contains(&name) {
            names.push(name);
        }
    }
    names
}

// ---- what a sheet is to say

#[derive(Default)]
pub struct Plan {
    pub classes: Vec<BTreeSet<u32>>,
    pub labels: Vec<BTreeSet<(u32, u32)>>,
    /// the labels with a star
    pub two_way: BTreeSet<usize>,
    /// class, pick, fixed
    pub nodes: Vec<(usize, u32, u32)>,
    /// label, source, target
    pub edges: Vec<[usize; 3]>,
}

/// A node of a class that may be any object of it.
pub fn free(class: usize, pick: u32) -> (usize, u32, u32) {
    (class, pick, ANY)
}

/// The lines of some tables: table by table, or mixed with the order kept within each.
fn mixed(r: &mut Random, tables: Vec<Vec<Vec<String>>>) -> Vec<Vec<String>> {
    if r.one_in(2) {
        return tables.concat();
    }
    let mut rest: Vec<_> = tables.into_iter().map(Vec::into_iter).collect();
    let mut lines = Vec::new();
    while !rest.is_empty() {
        let k = r.below(rest.len());
        match rest[k].next() {
            Some(line) => lines.push(line),
            None => drop(rest.swap_remove(k)),
        }
    }
    lines
}

/// A node's line. Any object is mostly a dash.
fn node_line(r: &mut Random, names: [&String; 2], pick: u32, fixed: u32) -> Vec<String> {
    let fixed = if fixed == ANY && !r.one_in(8) { "-".to_string() } else { fixed.to_string() };
    vec![names[0].clone(), names[1].clone(), pick.to_string(), fixed]
}

/// The sheet that says it, with names of its own.
pub fn written(r: &mut Random, plan: &Plan) -> Sheet {
    let (classes, labels, nodes) = (names(r, plan.classes.len()), names(r, plan.labels.len()), names(r, plan.nodes.len()));
    let star = |(k, name): (usize, String)| if plan.two_way.contains(&k) { name + "*" } else { name };
    let labels: Vec<String> = labels.into_iter().enumerate().map(star).collect();
    let class_lines = classes.iter().zip(&plan.classes).map(|(name, of)| of.iter().map(|u| vec![name.clone(), u.to_string()]).collect());
    let label_lines =
        labels.iter().zip(&plan.labels).map(|(name, of)| of.iter().map(|(u, v)| vec![name.clone(), u.to_string(), v.to_string()]).collect());
    let sections = [
        mixed(r, class_lines.collect()),
        mixed(r, label_lines.collect()),
        nodes.iter().zip(&plan.nodes).map(|(name, &(class, pick, fixed))| node_line(r, [name, &classes[class]], pick, fixed)).collect(),
        plan.edges.iter().map(|&[l, s, t]| vec![labels[l].clone(), nodes[s].clone(), nodes[t].clone()]).collect(),
    ];
    Sheet { sections }
}

/// Up to so many objects, of one to five digits.
fn objects(r: &mut Random, most: usize) -> Vec<u32> {
    let count = 1 + r.below(most);
    let turns = [0, 9, 10, 99, 100, 999, 1_000, 9_999, 10_000, 65_534, 65_535];
    let mut objects = BTreeSet::new();
    while objects.len() < count {
        objects.insert(match r.below(4) {
            0 => turns[r.below(turns.len())],
            1 => r.below(65_536) as u32,
            _ => r.below(8) as u32,
        });
    }
    objects.into_iter().collect()
}

/// Which of so many labels have a star.
fn two_way(r: &mut Random, labels: usize) -> BTreeSet<usize> {
    let marks = cases::marks(r, labels);
    (0..labels).filter(|&k| marks[k]).collect()
}

/// Tables over some objects, so many classes and labels, with nodes and edges over them.
fn plan(r: &mut Random, objects: &[u32], [classes, labels, nodes, edges]: [usize; 4], pairs: usize) -> Plan {
    let any = |r: &mut Random| objects[r.below(objects.len())];
    let mut plan = Plan {
        classes: (0..classes).map(|_| (0..1 + r.below(objects.len())).map(|_| any(r)).collect()).collect(),
        labels: (0..labels).map(|_| (0..1 + r.below(pairs)).map(|_| (any(r), any(r))).collect()).collect(),
        ..Plan::default()
    };
    plan.two_way = two_way(r, labels);
    let often = 1 + r.below(4);
    let picked = r.below(nodes);
    plan.nodes = (0..nodes).map(|k| free(r.below(classes), (k == picked || r.one_in(often)) as u32)).collect();
    let edges = if labels == 0 { 0 } else { edges };
    plan.edges = (0..edges).map(|_| [r.below(labels), r.below(nodes), r.below(nodes)]).collect();
    let at: Vec<u32> = (0..nodes).map(|_| any(r)).collect();
    // mostly there is an embedding, for each node gets an object
    if !r.one_in(4) {
        embed(r, &mut plan, &at);
    }
    fix(r, &mut plan, &at);
    plan
}

/// Puts what these objects need into the tables.
fn embed(r: &mut Random, plan: &mut Plan, at: &[u32]) {
    for (node, &object) in plan.nodes.iter().zip(at) {
        plan.classes[node.0].insert(object);
    }
    for &[label, s, t] in &plan.edges {
        let turned = plan.two_way.contains(&label) && r.one_in(2);
        plan.labels[label].insert(if turned { (at[t], at[s]) } else { (at[s], at[t]) });
    }
}

/// Fixes some nodes of every other plan, or all, mostly to these objects.
fn fix(r: &mut Random, plan: &mut Plan, at: &[u32]) {
    let often = if r.one_in(2) { 0 } else { 1 + r.below(4) };
    for (node, &object) in plan.nodes.iter_mut().zip(at) {
        if often > 0 && r.one_in(often) {
            node.2 = cases::fixed(r, &[object]);
        }
    }
}

/// Few tables, nodes and edges.
fn small(r: &mut Random) -> Plan {
    let objects = objects(r, 6);
    let sizes = [1 + r.below(3), r.below(4), 1 + r.below(5), r.below(7)];
    plan(r, &objects, sizes, 12)
}

/// About 12 nodes and 24 edges, over two objects.
fn crowded(r: &mut Random) -> Plan {
    let objects = objects(r, 2);
    let nodes = if r.one_in(8) { 13 } else { 9 + r.below(4) };
    let edges = if r.one_in(8) { 25 } else { 17 + r.below(8) };
    let sizes = [1 + r.below(3), 1 + r.below(3), nodes, edges];
    plan(r, &objects, sizes, 6)
}

/// About 32 classes and 64 labels.
fn many_tables(r: &mut Random) -> Plan {
    let objects = objects(r, 3);
    let classes = if r.one_in(3) { 1 + r.below(3) } else { 30 + r.below(4) };
    let labels = if r.one_in(3) { r.below(3) } else { 62 + r.below(4) };
    let sizes = [classes, labels, 1 + r.below(5), r.below(7)];
    plan(r, &objects, sizes, 2)
}

fn class(r: &mut Random, count: usize) -> BTreeSet<u32> {
    let low = r.below(300) as u32;
    (low..low + count as u32).collect()
}

/// Two unconnected nodes with about this many pairs of objects. With one picked it is a third more where the slice decides: its tag alone stays.
pub fn product(r: &mut Random, pairs: usize, from: usize) -> Plan {
    let picked = r.below(2);
    let pairs = if picked == 0 && pairs < 65_536 { pairs * 4 / 3 } else { pairs };
    let a = from + r.below(60);
    let b = (pairs / a + r.below(4)).saturating_sub(1);
    let classes = vec![class(r, a), class(r, b)];
    let nodes = vec![free(0, 1), free(1, picked as u32)];
    Plan { classes, nodes, ..Plan::default() }
}

/// A chain over one object in the middle, with about this many pairs of ends.
pub fn hub(r: &mut Random, pairs: usize, from: usize) -> Plan {
    let a = from + r.below(60);
    let b = pairs / a + r.below(3);
    let (left, right) = (class(r, a), class(r, b));
    let middle = r.below(65_536) as u32;
    let labels = vec![left.iter().map(|&u| (u, middle)).collect(), right.iter().map(|&v| (middle, v)).collect()];
    let classes = vec![left, [middle].into(), right];
    Plan { classes, labels, two_way: two_way(r, 2), nodes: vec![free(0, 1), free(1, 0), free(2, 1)], edges: vec![[0, 0, 1], [1, 1, 2]] }
}

/// Unconnected nodes whose rows take about 4,096 words.
pub fn rows(r: &mut Random) -> Plan {
    let nodes = 4 + r.below(9);
    let (a, b) = (1 + r.below(4), 1 + r.below(4));
    let last = (4_096 / (nodes * a * b) + r.below(3)).saturating_sub(r.below(2));
    let classes = vec![class(r, 1), class(r, a), class(r, b), class(r, last)];
    let mut of = vec![0; nodes - 3];
    of.extend([1, 2, 3]);
    Plan { classes, nodes: of.into_iter().map(|class| free(class, 1)).collect(), ..Plan::default() }
}

/// A sheet of so many bytes, by class lines of two more classes.
pub fn filled(mut sheet: Sheet, bytes: usize) -> Sheet {
    let line = |name: &str, object: usize| vec![name.to_string(), object.to_string()];
    let width = |line: &[String]| line.join(" ").len() + 1;
    let known = |name: &str| sheet.sections[0].iter().any(|line| line[0] == name);
    let free: Vec<String> = ('a'..='z').map(String::from).filter(|name| !known(name)).take(2).collect();
    let mut length = sheet.bytes().len();
    for object in 0.. {
        let next = line(&free[0], object);
        // at least four bytes must be left, for one line more
        if length + width(&next) + 4 > bytes {
            break;
        }
        length += width(&next);
        sheet.sections[0].push(next);
    }
    sheet.sections[0].push(line(&free[1].repeat(bytes - length - 3), 1));
    sheet
}

fn long(r: &mut Random) -> Sheet {
    let plan = small(r);
    let bytes = MOST_BYTES + 1 - r.below(3);
    filled(written(r, &plan), bytes)
}

/// A sheet that reads well, but for those past a ceiling.
pub fn sheet(r: &mut Random) -> Sheet {
    let plan = match r.below(1_000) {
        0 => product(r, 65_536, 200),
        1 => hub(r, 65_536, 200),
        2..=5 => product(r, 2_048, 2),
        6..=9 => hub(r, 2_048, 30),
        10..=15 => rows(r),
        16..=17 => return long(r),
        18..=60 => many_tables(r),
        61..=110 => crowded(r),
        _ => small(r),
    };
    written(r, &plan)
}

// ---- sheets that read well and are refused later

pub const CAUSES: usize = 7;

/// A cause of one sort put into a sheet, where it has lines for it.
pub fn cause(r: &mut Random, sheet: &mut Sheet, sort: usize) {
    let [classes, labels, nodes, edges] = &mut sheet.sections;
    let tables = if r.one_in(2) { classes } else { labels };
    match sort {
        // a value over 65,535; a line doubled; lines exchanged
        0 if !tables.is_empty() => {
            let at = r.below(tables.len());
            let field = 1 + r.below(tables[at].len() - 1);
            tables[at][field] = [65_536, 65_537, 99_999, 65_536 + r.below(34_464)][r.below(4)].to_string();
        }
        1 if !tables.is_empty() => {
            let at = r.below(tables.len());
            tables.insert(at, tables[at].clone());
        }
        2 if !tables.is_empty() => {
            let (a, b) = (r.below(tables.len()), r.below(tables.len()));
            tables.swap(a, b);
        }
        // a pick over 1, a fixed object over 65,536, no pick, no node
        3 if !nodes.is_empty() => {
            let at = r.below(nodes.len());
            nodes[at][2] = [2, 10, 99_999][r.below(3)].to_string();
        }
        4 if !nodes.is_empty() => {
            let at = r.below(nodes.len());
            nodes[at][3] = [65_537, 99_999, 65_537 + r.below(34_463)][r.below(3)].to_string();
        }
        5 => nodes.iter_mut().for_each(|node| node[2] = "0".to_string()),
        6 => {
            nodes.clear();
            edges.clear();
        }
        _ => {}
    }
}

// ---- damaged bytes

pub const DAMAGES: [&str; 20] = [
    "byte changed",
    "byte deleted",
    "byte inserted",
    "byte doubled",
    "line deleted",
    "line doubled",
    "lines swapped",
    "empty line added",
    "empty line removed",
    "last line feed removed",
    "carriage return",
    "carriage returns",
    "leading zero",
    "13 letters",
    "two spaces",
    "space at an end",
    "six digits",
    "field added or removed",
    "cut off",
    "too long",
];

/// Bytes that mean something, and their neighbours.
pub const NEAR: &[u8] = b"\0\t\n\x0b\r\x1f !)**+,--./0159:@AZ`abmyz{\x7f\x80\x8a\xff";

fn byte(r: &mut Random) -> u8 {
    if r.one_in(4) { r.next() as u8 } else { NEAR[r.below(NEAR.len())] }
}

/// The places where a field of such bytes begins.
fn fields(bytes: &[u8], of: fn(&u8) -> bool) -> Vec<usize> {
    (0..bytes.len()).filter(|&i| of(&bytes[i]) && (i == 0 || matches!(bytes[i - 1], b' ' | b'\n'))).collect()
}

/// Some more bytes at the end of a field, up to a width.
fn widen(r: &mut Random, bytes: &mut Vec<u8>, of: fn(&u8) -> bool, width: usize) {
    let starts = fields(bytes, of);
    if starts.is_empty() {
        return;
    }
    let start = starts[r.below(starts.len())];
    let end = start + bytes[start..].iter().take_while(|b| of(b)).count();
    let last = bytes[end - 1];
    bytes.splice(end..end, vec![last; width.saturating_sub(end - start)]);
}

/// Damage of one sort, where the sheet has bytes for it.
pub fn damage(r: &mut Random, bytes: &mut Vec<u8>, sort: usize) {
    let length = bytes.len();
    let at = r.below(length);
    // the places of a byte, of which one is taken
    let one = |r: &mut Random, wanted: u8| {
        let all: Vec<usize> = (0..length).filter(|&i| bytes[i] == wanted).collect();
        if all.is_empty() { None } else { Some(all[r.below(all.len())]) }
    };
    match sort {
        0 if length > 0 => bytes[at] = byte(r),
        1 if length > 0 => drop(bytes.remove(at)),
        2 => bytes.insert(r.below(length + 1), byte(r)),
        3 if length > 0 => bytes.insert(at, bytes[at]),
        4..=8 => {
            let mut lines: Vec<Vec<u8>> = bytes.split(|&b| b == b'\n').map(<[u8]>::to_vec).collect();
            let (a, b) = (r.below(lines.len()), r.below(lines.len()));
            match sort {
                4 => drop(lines.remove(a)),
                5 => lines.insert(a, lines[a].clone()),
                6 => lines.swap(a, b),
                7 => lines.insert(a, Vec::new()),
                _ => {
                    let empty: Vec<usize> = (0..lines.len()).filter(|&i| lines[i].is_empty()).collect();
                    drop(lines.remove(empty.get(r.below(empty.len())).copied().unwrap_or(a)));
                }
            }
            *bytes = lines.join(&b'\n');
        }
        9 => drop(bytes.pop()),
        10 => {
            if let Some(at) = one(r, b'\n') {
                bytes.insert(at, b'\r');
            }
        }
        11 => *bytes = bytes.split(|&b| b == b'\n').collect::<Vec<_>>().join(&b"\r\n"[..]),
        12 => {
            let starts = fields(bytes, u8::is_ascii_digit);
            if !starts.is_empty() {
                bytes.insert(starts[r.below(starts.len())], b'0');
            }
        }
        13 => widen(r, bytes, u8::is_ascii_lowercase, 13),
        14 => {
            if let Some(at) = one(r, b' ') {
                bytes.insert(at, b' ');
            }
        }
        15 => {
            if let Some(at) = one(r, b'\n') {
                bytes.insert(at + r.below(2), b' ');
            }
        }
        16 => widen(r, bytes, u8::is_ascii_digit, 6),
        17 => {
            if let Some(at) = one(r, b' ') {
                let end = at + 1 + bytes[at + 1..].iter().take_while(|&&b| b != b' ' && b != b'\n').count();
                let field = bytes[at..end].to_vec();
                bytes.splice(at..end, if r.one_in(2) { field.repeat(2) } else { Vec::new() });
            }
        }
        18 => bytes.truncate(at),
        _ => {
            let more = MOST_BYTES + 1 + r.below(20) - length.min(MOST_BYTES);
            let line = b"a 1\n";
            bytes.extend((0..more).map(|i| line[i % 4]));
        }
    }
}
