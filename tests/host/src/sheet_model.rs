//! Document 01's sheet read a second time, in plain Rust and on its own: bytes to the words of a feed and of a drawing, or 14 with its line;
//! then the model's query, and the listing. A star behind a label's name says that the label is two-way (document 02, E1), a dash in a node's
//! fourth field that it may be any object (E4).

use crate::model::{self, Verdict, ACCEPTED};
use crate::search;

pub const MOST_BYTES: usize = 16_384;
pub const NAME_LINES: [&str; 4] = ["class object", "label from to", "node class pick fixed", "edge source target"];

/// Why a sheet gives 14.
#[derive(Clone, Copy, Debug)]
pub enum Breach {
    TooLong,
    /// no line where one must be
    Missing,
    /// a last line without its line feed
    Unended,
    /// an empty line where none may be
    Empty,
    NameLine,
    FieldCount,
    Name,
    Number,
    UnknownClass,
    UnknownLabel,
    UnknownNode,
    DoubledNode,
    /// a fourth field of a node that is neither a dash nor a number
    Fixed,
    /// "A label both with and without its star"
    Star,
    ManyClasses,
    ManyLabels,
    ManyNodes,
    ManyEdges,
}

use Breach::*;

pub const BREACHES: [Breach; 18] = [
    TooLong, Missing, Unended, Empty, NameLine, FieldCount, Name, Number, UnknownClass, UnknownLabel, UnknownNode, DoubledNode, Fixed, Star,
    ManyClasses, ManyLabels, ManyNodes, ManyEdges,
];

/// A class or a label: its name, without its star; whether it has one; the pairs of its lines.
struct Table {
    name: Vec<u8>,
    star: bool,
    pairs: Vec<(u32, u32)>,
}

#[derive(Default)]
pub struct Sheet {
    /// both by first appearance
    classes: Vec<Table>,
    labels: Vec<Table>,
    /// name; number of the class, pick, fixed object
    nodes: Vec<(Vec<u8>, [u32; 3])>,
    /// numbers of the label, the source and the target
    edges: Vec<[u32; 3]>,
}

// ---- lines

/// What the sheet holds, or why it gives 14, with the line.
pub fn read(bytes: &[u8]) -> Result<Sheet, (Breach, u32)> {
    if bytes.len() > MOST_BYTES {
        return Err((TooLong, 0));
    }
    let mut lines: Vec<&[u8]> = bytes.split(|&b| b == b'\n').collect();
    // what stands behind the last line feed is not a line
    let unended = lines.pop().map_or(false, |rest| !rest.is_empty());
    let after = lines.len() + 1;
    let at_end = if unended { Unended } else { Missing };

    let sections: Vec<&[&[u8]]> = lines.split(|line| line.is_empty()).collect();
    let mut sheet = Sheet::default();
    let mut line = 1;
    for (k, name_line) in NAME_LINES.iter().enumerate() {
        let Some(section) = sections.get(k) else { return Err((at_end, after as u32)) };
        match section.first() {
            Some(first) if *first == name_line.as_bytes() => {}
            Some(_) => return Err((NameLine, line as u32)),
            None if line == after => return Err((at_end, line as u32)),
            None => return Err((Empty, line as u32)),
        }
        for (i, values) in section.iter().enumerate().skip(1) {
            let fields: Vec<&[u8]> = values.split(|&b| b == b' ').collect();
            sheet.take(k, &fields).map_err(|breach| (breach, (line + i) as u32))?;
        }
        line += section.len() + 1;
    }
    if sections.len() > NAME_LINES.len() {
        // the empty line behind the last section
        return Err((Empty, line as u32 - 1));
    }
    if unended {
        return Err((at_end, after as u32));
    }
    Ok(sheet)
}

/// "Names are 1 to 12 lower-case letters."
fn name(field: &[u8]) -> Result<&[u8], Breach> {
    let right = !field.is_empty() && field.len() <= 12 && field.iter().all(u8::is_ascii_lowercase);
    if right { Ok(field) } else { Err(Name) }
}

/// A label's name: "a star follows its name on every line and in each edge that uses it", or none does.
fn starred(field: &[u8]) -> (&[u8], bool) {
    field.strip_suffix(b"*").map_or((field, false), |name| (name, true))
}

/// "Numbers are 1 to 5 digits without leading zeros": what a number up to 99,999 looks like when it is printed.
fn number(field: &[u8]) -> Result<u32, Breach> {
    let value = std::str::from_utf8(field).ok().and_then(|text| text.parse::<u32>().ok()).ok_or(Number)?;
    if value <= 99_999 && value.to_string().as_bytes() == field { Ok(value) } else { Err(Number) }
}

/// The fixed object of a node: "with `-` or 65536 for any" (document 02, E4).
fn number_or_dash(field: &[u8]) -> Result<u32, Breach> {
    if field == b"-" { Ok(model::ANY) } else { number(field).map_err(|_| Fixed) }
}

/// The number of the one with this name.
fn place<T>(all: &[T], name: impl Fn(&T) -> &[u8], field: &[u8], breach: Breach) -> Result<u32, Breach> {
    all.iter().position(|one| name(one) == field).map(|k| k as u32).ok_or(breach)
}

/// A line of a class or label; a class has no star.
fn add(tables: &mut Vec<Table>, (name, star): (&[u8], bool), pair: (u32, u32), most: usize, breach: Breach) -> Result<(), Breach> {
    match tables.iter().position(|table| table.name == name) {
        Some(k) if tables[k].star != star => return Err(Star),
        Some(k) => tables[k].pairs.push(pair),
        None if tables.len() == most => return Err(breach),
        None => tables.push(Table { name: name.to_vec(), star, pairs: vec![pair] }),
    }
    Ok(())
}

impl Sheet {
    /// A line of values of section k.
    fn take(&mut self, k: usize, fields: &[&[u8]]) -> Result<(), Breach> {
        match (k, fields) {
            (0, &[class, object]) => {
                let (class, object) = (name(class)?, number(object)?);
                add(&mut self.classes, (class, false), (object, object), 32, ManyClasses)
            }
            (1, &[label, from, to]) => {
                let (label, star) = starred(label);
                let (label, from, to) = (name(label)?, number(from)?, number(to)?);
                add(&mut self.labels, (label, star), (from, to), 64, ManyLabels)
            }
            (2, &[node, class, pick, fixed]) => self.node(node, class, pick, fixed),
            (3, &[label, source, target]) => self.edge(label, [source, target]),
            _ => Err(FieldCount),
        }
    }

    /// A line of the third section.
    fn node(&mut self, node: &[u8], class: &[u8], pick: &[u8], fixed: &[u8]) -> Result<(), Breach> {
        let node = name(node)?;
        let class = place(&self.classes, |c| &c.name, class, UnknownClass)?;
        let words = [class, number(pick)?, number_or_dash(fixed)?];
        if self.nodes.iter().any(|n| n.0 == node) {
            return Err(DoubledNode);
        }
        if self.nodes.len() == 12 {
            return Err(ManyNodes);
        }
        self.nodes.push((node.to_vec(), words));
        Ok(())
    }

    /// A line of the last section.
    fn edge(&mut self, label: &[u8], [source, target]: [&[u8]; 2]) -> Result<(), Breach> {
        let (label, star) = starred(label);
        let label = place(&self.labels, |l| &l.name, label, UnknownLabel)?;
        if self.labels[label as usize].star != star {
            return Err(Star);
        }
        let source = place(&self.nodes, |n| &n.0, source, UnknownNode)?;
        let target = place(&self.nodes, |n| &n.0, target, UnknownNode)?;
        if self.edges.len() == 24 {
            return Err(ManyEdges);
        }
        self.edges.push([label, source, target]);
        Ok(())
    }

    // ---- words

    pub fn feed(&self) -> Vec<u32> {
        let tables = || self.classes.iter().chain(&self.labels);
        let mut words = vec![self.classes.len() as u32, self.labels.len() as u32];
        words.extend(tables().map(|table| table.pairs.len() as u32 + if table.star { model::MARK } else { 0 }));
        words.extend(tables().flat_map(|table| &table.pairs).flat_map(|&(u, v)| [u, v]));
        words
    }

    pub fn drawing(&self) -> Vec<u32> {
        let mut words = vec![self.nodes.len() as u32, self.edges.len() as u32];
        words.extend(self.nodes.iter().flat_map(|node| node.1));
        words.extend(self.edges.iter().flatten());
        words
    }

    /// The names of the picked nodes, in node order.
    pub fn picked(&self) -> Vec<&[u8]> {
        self.nodes.iter().filter(|node| node.1[1] == 1).map(|node| &node.0[..]).collect()
    }
}

// ---- the listing

/// What the sheet query answers.
pub struct Answer {
    pub verdict: Verdict,
    /// why, where the verdict is 14
    pub breach: Option<Breach>,
    /// how many rows the listing has
    pub rows: usize,
    pub text: Vec<u8>,
}

fn refusal(verdict: Verdict, breach: Option<Breach>) -> Answer {
    Answer { verdict, breach, rows: 0, text: format!("refused {} {}\n", verdict.0, verdict.1).into_bytes() }
}

/// "16,384 work words, 4,096 row words and room for every instruction"
pub const LENT: [usize; 3] = [3 * 1_024, 16_384, 4_096];

/// The verdict and the words of the rows with slices of these lengths. The rows come from the embeddings, where these are not too many.
pub fn ask(feed: &[u32], drawing: &[u32]) -> (Verdict, Vec<u32>) {
    let plan = match model::plan(feed, drawing, LENT[1]) {
        Ok(plan) if plan.verdict == ACCEPTED => plan,
        Ok(plan) => return (plan.verdict, Vec::new()),
        Err(verdict) => return (verdict, Vec::new()),
    };
    let found = search::rows(&model::read_feed(feed), &model::read_drawing(drawing), 200_000);
    let rows = found.map_or(plan.rows, |rows| rows.into_iter().flatten().collect());
    if rows.len() > LENT[2] { ((12, 0), Vec::new()) } else { (ACCEPTED, rows) }
}

pub fn answer(bytes: &[u8]) -> Answer {
    let sheet = match read(bytes) {
        Ok(sheet) => sheet,
        Err((breach, line)) => return refusal((14, line), Some(breach)),
    };
    let (verdict, words) = ask(&sheet.feed(), &sheet.drawing());
    if verdict != ACCEPTED {
        return refusal(verdict, None);
    }
    let picked = sheet.picked();
    let mut text = picked.join(&b' ');
    text.push(b'\n');
    let rows = words.chunks(picked.len());
    let answer = Answer { verdict, breach: None, rows: rows.len(), text };
    rows.fold(answer, |mut answer, row| {
        let row: Vec<String> = row.iter().map(u32::to_string).collect();
        answer.text.extend(format!("{}\n", row.join(" ")).bytes());
        answer
    })
}

/// A slice after the call, and the length that it returns: "One that does not fit gives length 0 and a zeroed slice; otherwise the bytes
/// after the listing are untouched."
pub fn listed(text: &[u8], slice: &mut [u8]) -> usize {
    if text.len() > slice.len() {
        slice.fill(0);
        return 0;
    }
    slice[..text.len()].copy_from_slice(text);
    text.len()
}
