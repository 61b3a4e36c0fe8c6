//! The manual's table of limits: each is met, and passed by one (or by as little as there is) with the refusal that is named.

use crate::manual::{self, ask, file, listing, pages, says, Case};
use crate::model::{ANY, MARK};
use crate::Tally;

/// Words in a row.
fn repeated(words: &[u32], times: u32) -> Vec<u32> {
    words.repeat(times as usize)
}

/// A feed with tables of so many pairs, class pairs first; pair i of a table is (i,i).
fn counted(classes: u32, labels: u32, pairs: &[u32]) -> Vec<u32> {
    let mut feed = vec![classes, labels];
    feed.extend(pairs);
    feed.extend(pairs.iter().flat_map(|&n| (0..n).flat_map(|i| [i, i])));
    feed
}

/// The number of a call.
fn number(call: &str, feed: Vec<u32>, drawing: Vec<u32>, list: Vec<u32>) -> u32 {
    ask(call, &Case { feed, drawing, list, lengths: [0, 400_000, 0], ..Case::default() }).verdict.0
}

/// The number of a feed; of a drawing over a class and a label without pairs; of a list over this feed.
fn feed(words: Vec<u32>) -> u32 {
    number("matcher_check_feed", words, Vec::new(), Vec::new())
}

fn drawing(words: Vec<u32>) -> u32 {
    number("matcher_check_drawing", vec![1, 1, 0, 0], words, Vec::new())
}

fn list(feed: Vec<u32>, words: Vec<u32>) -> u32 {
    number("matcher_run", feed, Vec::new(), words)
}

/// A register of n pairs, 65,536 or more: 4,096 × 16 by composition, the others by union.
fn register(n: u32) -> u32 {
    let more = n.saturating_sub(65_536).min(4_096);
    let mut words = vec![0, 3, 4_096, 16, more];
    words.extend((0..4_096).flat_map(|i| [i, 7]));
    words.extend((0..16).flat_map(|i| [7, i]));
    words.extend((0..more).flat_map(|i| [65_535, i]));
    list(words, vec![1, 0, 0, 1, 1, 0, 3, 0, 1, 1, 2, 0, 5, 2, 3])
}

// ---- sheets

/// The number of a listing, 0 where it has rows.
fn listed(sheet: String) -> u32 {
    number_of(&listing(sheet.as_bytes()))
}

/// The number of a refusal's line, 0 where it is none.
fn number_of(text: &str) -> u32 {
    text.strip_prefix("refused ").map_or(0, |rest| rest.split(' ').next().unwrap().parse().unwrap())
}

/// A sheet of these class lines and node lines, without labels and edges.
fn sheet(classes: &str, nodes: &str) -> String {
    format!("class object\n{classes}\nlabel from to\n\nnode class pick fixed\n{nodes}\nedge source target\n")
}

/// Classes of so many objects, and picked nodes of these classes.
fn crossed(sizes: &[u32], nodes: &[usize]) -> String {
    let letter = |k: usize| (b'a' + k as u8) as char;
    let lines = sizes.iter().enumerate().flat_map(|(k, &n)| (0..n).map(move |i| format!("{} {i}\n", letter(k))));
    let nodes = nodes.iter().enumerate().map(|(k, &class)| format!("{} {} 1 -\n", letter(k), letter(class)));
    sheet(&lines.collect::<String>(), &nodes.collect::<String>())
}

/// An accepted sheet of n bytes: lines of 8 bytes, and a longer name for what is left.
fn bytes(n: usize) -> u32 {
    let rest = n.saturating_sub(sheet("", "x a 1 -\n").len());
    let lines: String = (0..rest / 8).map(|i| format!("a {}\n", 10_000 + i)).collect();
    let whole = sheet(&lines, &format!("{} a 1 -\n", "x".repeat(1 + rest % 8)));
    assert_eq!(whole.len(), n);
    listed(whole)
}

/// A class, and eight loops over a label of 1,023 pairs, none of them (u,u): all these loads live where the last is made. Nothing is found.
fn pairs(n: u32) -> u32 {
    let objects: String = (0..n.saturating_sub(8 * 1_023)).map(|u| format!("a {u}\n")).collect();
    let label: String = (0..1_023).map(|u| format!("l {u} {}\n", u + 1)).collect();
    let (nodes, edges) = ("node class pick fixed\nx a 1 -\n", "l x x\n".repeat(8));
    listed(format!("class object\n{objects}\nlabel from to\n{label}\n{nodes}\nedge source target\n{edges}"))
}

/// Four picks, classes of 1, a, a and b objects: so many words of rows.
fn row_words(n: u32) -> u32 {
    let rows = n / 4;
    let a = (2..9).rev().find(|a| rows % (a * a) == 0);
    a.map_or(99, |a| listed(crossed(&[1, a, rows / (a * a)], &[0, 1, 1, 2])))
}

/// The pages of a sheet with n picks.
fn paged(n: u32) -> u32 {
    number_of(&pages(crossed(&[1], &vec![0; n as usize]).as_bytes(), matcher::PAGES_BYTES))
}

/// A sheet whose label has a name of n letters and a star.
fn starred(n: usize) -> u32 {
    let label = "l".repeat(n);
    listed(format!("class object\na 1\n\nlabel from to\n{label}* 1 1\n\nnode class pick fixed\nx a 1 -\n\nedge source target\n{label}* x x\n"))
}

// ---- the table

/// The number that two probes have in common.
fn common(a: u32, b: u32) -> u32 {
    if a == b { a } else { 99 }
}

/// The refusal's number, or 0, of what has so much of this.
fn probe(limit: &str, n: u32) -> u32 {
    match limit {
        "classes of a feed" => feed(counted(n, 0, &repeated(&[0], n))),
        "labels of a feed" => feed(counted(0, n, &repeated(&[0], n))),
        // of a class, and of a two-way label
        "pairs of a table, as stored" => {
            let mut label = counted(0, 1, &[n]);
            label[2] += MARK;
            common(feed(counted(1, 0, &[n])), feed(label))
        }
        "an object" => feed(vec![1, 0, 1, n, n]),
        "nodes of a drawing" => drawing([vec![n, 0], repeated(&[0, 1, ANY], n)].concat()),
        "edges of a drawing" => drawing([vec![1, n, 0, 1, ANY], repeated(&[0, 0, 0], n)].concat()),
        "the third word of a node" => drawing(vec![1, 0, 0, 1, n]),
        "instructions of a list" => list(vec![1, 0, 0], repeated(&[0, 0, 0], n)),
        "pairs of a register" => register(n),
        "bytes of a sheet" => bytes(n as usize),
        "letters of a name, without a star" => {
            common(listed(sheet("a 1\n", &format!("{} a 1 -\n", "x".repeat(n as usize)))), starred(n as usize))
        }
        "digits of a number" => listed(sheet(&format!("a 1{}\n", "0".repeat(n as usize - 1)), "x a 1 -\n")),
        "pairs of a sheet's registers together" => pairs(n),
        "row words of a sheet" => row_words(n),
        "columns of a page, one for each picked node" => paged(n),
        _ => 99,
    }
}

/// Where else the manual names a limit of the table.
const SENTENCES: [(&str, &[&str]); 15] = [
    ("classes of a feed", &["C, the number of classes, 0 to {}", "a line past {} classes,", "| C over {} |"]),
    ("labels of a feed", &["L, the number of labels, 0 to {}", "classes, {} labels,", "| L over {} |"]),
    ("pairs of a table, as stored", &["how many pairs each table has, 0 to {}:", "a count over {} |", "a two-way label over {}, without its mark"]),
    ("an object", &["each a number from 0 to {}.", "No value is above {}.", "a value above {}, left"]),
    ("nodes of a drawing", &["n, the number of nodes, 1 to {}", "labels, {} nodes", "n not 1 to {},"]),
    ("edges of a drawing", &["e, the number of edges, 0 to {}", "nodes or {} edges", "or e over {} |"]),
    ("the third word of a node", &["or {} (`MATCHER_ANY_OBJECT`) where it may be any", "a fixed object above {} |"]),
    ("instructions of a list", &["A list is 1 to {} instructions", "no instruction, or over {} |"]),
    ("pairs of a register", &["a register of more than {} pairs"]),
    ("bytes of a sheet", &["At most {} bytes.", "A sheet of more than {} bytes is 14 at place 0", "| a sheet of more than {} bytes |"]),
    ("letters of a name, without a star", &["name = 1 to {} letters", "It is not one of the {} letters."]),
    ("digits of a number", &["number = 1 to {} digits"]),
    ("pairs of a sheet's registers together", &["16,384 work words ({} pairs)"]),
    ("row words of a sheet", &["and {} row words", "do not fit the {} row words"]),
    (
        "columns of a page, one for each picked node",
        &["where more than {} nodes are picked, the answer is 15", "more than {} picks, where pages", "on pages: more than {} picked nodes"],
    ),
];

pub fn table(tally: &mut Tally) {
    for row in manual::table("## 9. Limits") {
        let limit: u32 = row[1].replace(',', "").parse().unwrap();
        // rows of four words
        let next = limit + if row[0] == "row words of a sheet" { 4 } else { 1 };
        let past = row[2].split(',').next().unwrap().parse::<u32>();
        tally.same(&format!("the manual's limit, {}", row[0]), &probe(row[0], limit), &0, &[limit]);
        tally.same(&format!("past the manual's limit, {}", row[0]), &Ok(probe(row[0], next)), &past, &[next]);
        let sentences = SENTENCES.iter().find(|(name, _)| *name == row[0]).map_or(&["no limit of the table"][..], |(_, sentences)| sentences);
        sentences.iter().for_each(|sentence| says(tally, &sentence.replace("{}", row[1])));
    }
    // what no probe can show is at least the header's number, too
    let header = file("include/matcher.h").replace(',', "");
    let numbers = [
        ("No translation has more than", "876", "instructions"),
        ("No listing has more than", "24,732", "bytes"),
        ("No listing is longer than", "24,732", "bytes"),
        ("No pages have more than", "281,160", "bytes"),
        ("`MATCHER_PAGES_BYTES`,", "281,160", "bytes, always suffice"),
    ];
    for (before, number, after) in numbers {
        says(tally, &format!("{before} {number} {after}"));
        tally.same(&format!("the header says {number}"), &header.contains(&number.replace(',', "")), &true, &[]);
    }
}
