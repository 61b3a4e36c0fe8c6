//! The sheet query against a second reading of sheets: the returned length, and every byte of the lent slice and beside it.

use crate::checks::Causes;
use crate::dashes::{self, DASHES};
use crate::model::{self, Verdict, ACCEPTED};
use crate::queries;
use crate::random::Random;
use crate::reuse::all_registers;
use crate::sheet_cases::{self, free, Plan, Sheet, CAUSES, DAMAGES, NEAR};
use crate::sheet_model::{self, Answer, BREACHES, LENT, MOST_BYTES};
use crate::stars::{self, STARS};
use crate::Tally;

// ---- one call

/// No byte of a listing, and not 0.
fn pattern(i: usize) -> u8 {
    0x80 | (i as u8).wrapping_mul(29)
}

/// A call with a slice of so many bytes, and some on both sides that must stay as they are.
pub fn ask(tally: &mut Tally, what: &str, sheet: &[u8], text: &[u8], length: usize, beside: usize) {
    let mut wanted: Vec<u8> = (0..length + 2 * beside).map(pattern).collect();
    let mut lent = wanted.clone().into_boxed_slice();
    let returned = sheet_model::listed(text, &mut wanted[beside..beside + length]);
    let found = matcher::sheet_query(sheet, &mut lent[beside..beside + length]).map(<[u8]>::to_vec);
    // no listing is empty
    let given = (returned > 0).then(|| text[..returned].to_vec());
    if found == given && lent[..] == wanted[..] {
        tally.same(what, &true, &true, &[]);
        return;
    }
    let shown = |bytes: &[u8]| String::from_utf8_lossy(bytes).into_owned();
    let what = format!("{what}, {length} bytes lent, for {:?}", shown(sheet));
    tally.same(&what, &(found.map(|listing| shown(&listing)), shown(&lent)), &(given.map(|listing| shown(&listing)), shown(&wanted)), &[]);
}

/// What the sheets of a test met.
#[derive(Default)]
pub struct Met {
    numbers: [usize; 15],
    breaches: [usize; BREACHES.len()],
    /// accepted: no row, one, several
    rows: [usize; 3],
    longest: usize,
}

impl Met {
    fn note(&mut self, answer: &Answer) {
        self.numbers[answer.verdict.0 as usize] += 1;
        self.longest = self.longest.max(answer.text.len());
        match answer.breach {
            Some(breach) => self.breaches[breach as usize] += 1,
            None if answer.verdict == ACCEPTED => self.rows[answer.rows.min(2)] += 1,
            None => {}
        }
    }

    pub fn show(&self, tally: &mut Tally, what: &str, numbers: &[usize]) {
        tally.met_of(&format!("{what} by number"), &self.numbers, numbers);
        let others: Vec<usize> = (0..15).filter(|i| !numbers.contains(i) && self.numbers[*i] > 0).collect();
        tally.same(&format!("{what}: other numbers"), &others, &Vec::new(), &[]);
    }
}

/// A sheet with slices of four lengths: exact, one short, none, long. No listing is empty.
pub fn compare(tally: &mut Tally, met: &mut Met, r: &mut Random, what: &str, sheet: &[u8]) -> Answer {
    let answer = sheet_model::answer(sheet);
    met.note(&answer);
    let exact = answer.text.len();
    // a block of its own, so that valgrind sees its ends; then also those of the lent slice
    let sheet: Box<[u8]> = sheet.into();
    let beside = if tally.few { 0 } else { 8 };
    for length in [exact, exact - 1, 0, exact + 1 + r.below(40)] {
        ask(tally, what, &sheet, &answer.text, length, beside);
    }
    answer
}

/// The query over the words of a sheet that reads well, with slices as long as those that the sheet query lends itself.
pub fn query(tally: &mut Tally, sheet: &[u8]) {
    let Ok(sheet) = sheet_model::read(sheet) else { return };
    let (feed, drawing) = (sheet.feed(), sheet.drawing());
    queries::ask(tally, &feed, &drawing, &model::plan(&feed, &drawing, LENT[1]), LENT);
}

// ---- cases with names

pub const SAMPLE: &str = "class object\nregion 1\nregion 2\nregion 3\nregion 4\n\nlabel from to\ntouch 1 2\ntouch 2 3\ntouch 3 4\n\n\
    node class pick fixed\na region 1 -\nm region 0 -\nb region 1 -\n\nedge source target\ntouch a m\ntouch m b\n";

/// Sheets with the listings that document 01 fixes for them.
pub const CASES: [(&str, &str); 34] = [
    (SAMPLE, "a b\n1 3\n2 4\n"),
    // classes are numbered by first appearance, and their lines regrouped; no rows print the names only
    ("class object\nb 1\na 2\nb 3\n\nlabel from to\n\nnode class pick fixed\nx b 1 -\n\nedge source target\n", "x\n1\n3\n"),
    ("class object\na 1\n\nlabel from to\nl 2 2\n\nnode class pick fixed\nx a 1 -\n\nedge source target\nl x x\n", "x\n"),
    // a missing line is the one after the last; a last line without its line feed; a name line that is not the one shown
    ("", "refused 14 1\n"),
    ("class object", "refused 14 1\n"),
    ("class object\na 1\n\nlabel from to\n\nnode class pick fixed\nx a 1 -\n", "refused 14 8\n"),
    ("class object\n\nnode class pick fixed\n", "refused 14 3\n"),
    // a leading zero; a name of 13 letters; two spaces; an unknown class; a doubled node; an unknown label
    ("class object\na 01\n", "refused 14 2\n"),
    ("class object\nabcdefghijklm 1\n", "refused 14 2\n"),
    ("class object\na  1\n", "refused 14 2\n"),
    ("class object\na 1\n\nlabel from to\n\nnode class pick fixed\nx c 1 -\n", "refused 14 7\n"),
    ("class object\na 1\n\nlabel from to\n\nnode class pick fixed\nx a 1 -\nx a 0 -\n", "refused 14 8\n"),
    ("class object\na 1\n\nlabel from to\n\nnode class pick fixed\nx a 1 -\n\nedge source target\nl x x\n", "refused 14 10\n"),
    // what the derived feed and drawing refuse
    ("class object\na 2\na 1\n\nlabel from to\n\nnode class pick fixed\nx a 1 -\n\nedge source target\n", "refused 3 5\n"),
    ("class object\na 65536\n\nlabel from to\n\nnode class pick fixed\nx a 1 -\n\nedge source target\n", "refused 3 3\n"),
    ("class object\na 1\n\nlabel from to\n\nnode class pick fixed\nx a 2 -\n\nedge source target\n", "refused 6 3\n"),
    ("class object\na 1\n\nlabel from to\n\nnode class pick fixed\nx a 0 -\n\nedge source target\n", "refused 7 0\n"),
    // any section may lack value lines, and then there is no node
    ("class object\n\nlabel from to\n\nnode class pick fixed\n\nedge source target\n", "refused 5 0\n"),
    ("class object\n\nlabel from to\nl 2 1\nl 1 2\n\nnode class pick fixed\n\nedge source target\n", "refused 3 5\n"),
    // one name for a class, a label and a node; a name that begins another
    ("class object\na 1\n\nlabel from to\na 1 1\n\nnode class pick fixed\na a 1 -\n\nedge source target\na a a\n", "a\n1\n"),
    ("class object\nab 1\na 2\n\nlabel from to\n\nnode class pick fixed\nx a 1 -\nxy ab 1 -\n\nedge source target\n", "x xy\n2 1\n"),
    // the highest object; six digits; digits and a sign
    ("class object\na 65535\n\nlabel from to\n\nnode class pick fixed\nx a 1 -\n\nedge source target\n", "x\n65535\n"),
    ("class object\na 99999\n\nlabel from to\n\nnode class pick fixed\nx a 1 -\n\nedge source target\n", "refused 3 3\n"),
    ("class object\na 100000\n\nlabel from to\n\nnode class pick fixed\nx a 1 -\n\nedge source target\n", "refused 14 2\n"),
    ("class object\na +1\n\nlabel from to\n\nnode class pick fixed\nx a 1 -\n\nedge source target\n", "refused 14 2\n"),
    ("class object\na 0\n\nlabel from to\n\nnode class pick fixed\nx a 1 -\n\nedge source target\n", "x\n0\n"),
    ("class object\nabcdefghijkl 1\n\nlabel from to\n\nnode class pick fixed\nx abcdefghijkl 1 -\n\nedge source target\n", "x\n1\n"),
    // two empty lines; one behind the last section, or before the first; one within a section, which ends it
    ("class object\na 1\n\n\nlabel from to\n\nnode class pick fixed\nx a 1 -\n\nedge source target\n", "refused 14 4\n"),
    ("class object\na 1\n\nlabel from to\n\nnode class pick fixed\nx a 1 -\n\nedge source target\n\n", "refused 14 10\n"),
    ("\nclass object\na 1\n", "refused 14 1\n"),
    ("class object\na 1\n\na 2\n\nlabel from to\n", "refused 14 4\n"),
    // a whole sheet but for its last line feed; a name line without its own; a line of the next section
    ("class object\na 1\n\nlabel from to\n\nnode class pick fixed\nx a 1 -\n\nedge source target", "refused 14 9\n"),
    ("class object\na 1\nlabel from to\n", "refused 14 3\n"),
    ("class object\r\na 1\r\n", "refused 14 1\n"),
];

pub fn named(tally: &mut Tally) {
    let mut r = Random::new(20);
    let mut met = Met::default();
    for (sheet, listing) in CASES {
        let answer = compare(tally, &mut met, &mut r, "named sheet", sheet.as_bytes());
        tally.same(&format!("the listing of {sheet:?}"), &String::from_utf8_lossy(&answer.text), &listing.into(), &[]);
        query(tally, sheet.as_bytes());
    }
}

// ---- ceilings

fn line(fields: &[&str]) -> Vec<String> {
    fields.iter().map(|field| field.to_string()).collect()
}

/// So many classes, labels, nodes and edges over one object.
fn counted(classes: usize, labels: usize, nodes: usize, edges: usize) -> Vec<u8> {
    let name = |k: usize| [b'a' + k as u8 / 26, b'a' + k as u8 % 26].map(char::from).iter().collect::<String>();
    let sections = [
        (0..classes).map(|k| line(&[&name(k), "7"])).collect(),
        (0..labels).map(|k| line(&[&name(k), "7", "7"])).collect(),
        (0..nodes).map(|k| line(&[&name(k), "aa", "1", "-"])).collect(),
        (0..edges).map(|k| line(&["aa", &name(k % 12), &name(k / 3)])).collect(),
    ];
    Sheet { sections }.bytes()
}

/// The most lines that there can be, where all are this one.
fn repeated(section: usize, fields: &[&str]) -> Vec<u8> {
    let mut sheet = Sheet::default();
    let lines = (MOST_BYTES - sheet.bytes().len()) / (fields.join(" ").len() + 1);
    sheet.sections[section] = vec![line(fields); lines];
    sheet.bytes()
}

/// Classes of so many objects, and picked nodes of these classes; no edge.
pub fn crossed(classes: &[usize], nodes: &[usize]) -> Vec<u8> {
    let plan = Plan {
        classes: classes.iter().map(|&count| (0..count as u32).collect()).collect(),
        nodes: nodes.iter().map(|&class| free(class, 1)).collect(),
        ..Plan::default()
    };
    sheet_cases::written(&mut Random::new(21), &plan).bytes()
}

/// A class of so many objects, a two-way label of so many pairs, none of them (u,u), and four loops at a picked node: nothing is found.
fn looped(objects: u32, pairs: u32) -> Vec<u8> {
    let plan = Plan {
        classes: vec![(0..objects).collect()],
        labels: vec![(100..100 + pairs).map(|u| (u, 9_999 - u)).collect()],
        two_way: [0].into(),
        nodes: vec![free(0, 1)],
        edges: vec![[0; 3]; 4],
    };
    sheet_cases::written(&mut Random::new(25), &plan).bytes()
}

pub struct Ceiling {
    pub what: &'static str,
    pub sheet: Vec<u8>,
    pub verdict: Verdict,
    rows: usize,
}

/// Ceilings met and passed by one: sheets with their verdicts, and how many rows they give.
pub fn at_ceilings() -> Vec<Ceiling> {
    // one picked node x of class a, which has as many objects as there is room for
    let mut full = Sheet::default();
    full.sections[2].push(line(&["x", "a", "1", "-"]));
    let full = sheet_cases::filled(full, MOST_BYTES);
    let objects = full.sections[0].len() - 1;
    let mut over = full.clone();
    over.sections[2][0][0] = "xx".to_string();

    let case = |what, sheet, verdict, rows| Ceiling { what, sheet, verdict, rows };
    vec![
        case("32 classes, 64 labels, 12 nodes, 24 edges", counted(32, 64, 12, 24), ACCEPTED, 1),
        case("33 classes", counted(33, 64, 12, 24), (14, 34), 0),
        case("65 labels", counted(32, 65, 12, 24), (14, 100), 0),
        case("13 nodes", counted(32, 64, 13, 24), (14, 114), 0),
        case("25 edges", counted(32, 64, 12, 25), (14, 140), 0),
        case("16,384 bytes", full.bytes(), ACCEPTED, objects),
        case("16,385 bytes", over.bytes(), (14, 0), 0),
        case("16,384 line feeds", vec![b'\n'; MOST_BYTES], (14, 1), 0),
        case("16,385 line feeds", vec![b'\n'; MOST_BYTES + 1], (14, 0), 0),
        case("a million bytes", vec![b'a'; 1_000_000], (14, 0), 0),
        case("the most class lines", repeated(0, &["a", "1"]), (3, 5), 0),
        case("the most label lines", repeated(1, &["a", "1", "2"]), (3, 5), 0),
        // two classes of a and b objects crossed: in the end the cross, its two tags and its tau live, 4ab pairs
        case("8,192 pairs", crossed(&[8, 256], &[0, 1]), ACCEPTED, 8 * 256),
        case("8,196 pairs", crossed(&[3, 683], &[0, 1]), (10, 5), 0),
        // each load of the label gives it twice, and all live where the last is made
        case("8,192 pairs with a two-way label", looped(8, 1_023), ACCEPTED, 0),
        case("8,193 pairs with a two-way label", looped(9, 1_023), (10, 4), 0),
        case("a register of 65,536 pairs", crossed(&[256], &[0, 0]), (10, 2), 0),
        case("a register of 65,792 pairs", crossed(&[256, 257], &[0, 1]), (11, 2), 0),
        case("4,096 words of rows", crossed(&[2, 128], &[0, 0, 0, 1]), ACCEPTED, 1_024),
        case("4,100 words of rows", crossed(&[1, 5, 41], &[0, 1, 1, 2]), (12, 0), 0),
    ]
}

pub fn ceilings(tally: &mut Tally) {
    let mut r = Random::new(22);
    let mut met = Met::default();
    for Ceiling { what, sheet, verdict, rows } in at_ceilings() {
        let answer = compare(tally, &mut met, &mut r, what, &sheet);
        tally.same(what, &(answer.verdict, answer.rows), &(verdict, rows), &[]);
        query(tally, &sheet);
    }
    println!("sheets at ceilings: longest listing {} bytes", met.longest);
    used_again(tally, &mut met, &mut r);
}

/// A chain of 12 nodes over so many objects in a ring, both ends picked.
fn chain(objects: u32) -> Vec<u8> {
    let plan = Plan {
        classes: vec![(0..objects).collect()],
        labels: vec![(0..objects).map(|u| (u, (u + 1) % objects)).collect()],
        nodes: (0..12).map(|k| free(0, (k % 11 == 0) as u32)).collect(),
        edges: (0..11).map(|k| [0, k, k + 1]).collect(),
        ..Plan::default()
    };
    sheet_cases::written(&mut Random::new(26), &plan).bytes()
}

/// Sheets whose registers all together have more than 8,192 pairs, so that they were 10 before registers were given up; now they have rows.
fn used_again(tally: &mut Tally, met: &mut Met, r: &mut Random) {
    for (what, sheet, rows) in [
        ("two classes crossed, 8,193 pairs", crossed(&[3, 630], &[0, 1]), 3 * 630),
        ("three classes crossed", crossed(&[2, 3, 225], &[0, 1, 2]), 2 * 3 * 225),
        ("a chain of 12 nodes", chain(300), 300),
    ] {
        let answer = compare(tally, met, r, what, &sheet);
        tally.same(what, &(answer.verdict, answer.rows), &(ACCEPTED, rows), &[]);
        query(tally, &sheet);
        let words = sheet_model::read(&sheet).map(|sheet| model::plan(&sheet.feed(), &sheet.drawing(), LENT[1]));
        let all = words.map_or(0, |plan| plan.map_or(0, |plan| all_registers(&plan.trace)));
        tally.same(&format!("{what}: 10 before"), &(all > LENT[1]), &true, &[all as u32]);
    }
}

// ---- the sample, damaged at every place

/// A byte changed to each of these, deleted, doubled, inserted or exchanged with the next, two deleted, and the sheet cut off: each at every
/// place.
pub fn damaged(tally: &mut Tally, met: &mut Met, what: &str, sample: &[u8], bytes: &[u8]) {
    let mut r = Random::new(23);
    for at in 0..sample.len() {
        let (before, after) = (&sample[..at], &sample[at + 1..]);
        let mut check = |middle: &[u8]| drop(compare(tally, met, &mut r, what, &[before, middle, after].concat()));
        bytes.iter().filter(|&&byte| byte != sample[at]).for_each(|&byte| check(&[byte]));
        check(&[]);
        check(&[sample[at]; 2]);
        NEAR.iter().for_each(|&byte| check(&[byte, sample[at]]));
        if let Some(&next) = after.first() {
            let rest = &after[1..];
            for middle in [&[next, sample[at]][..], &[]] {
                compare(tally, met, &mut r, what, &[before, middle, rest].concat());
            }
        }
        compare(tally, met, &mut r, &format!("{what}, cut off"), before);
    }
}

pub fn mutations(tally: &mut Tally) {
    let mut met = Met::default();
    let all: Vec<u8> = (0..=255).collect();
    damaged(tally, &mut met, "sample", SAMPLE.as_bytes(), &all);
    // 5 and 7 take more than a byte
    met.show(tally, "samples with a byte damaged", &[0, 3, 6, 14]);
}

// ---- random sheets

/// The numbers that a sheet can give. The others cannot come up: 1, for the feed's length follows its counts; 2, for classes and labels past
/// the ceilings are 14, and 16,384 bytes hold fewer than 4,096 lines; 4, for a class line has one object; 8, 9, 16 and 17, for the list is a
/// translation; 13, for every translation has room.
const NUMBERS: [usize; 9] = [0, 3, 5, 6, 7, 10, 11, 12, 14];

/// How many causes of a later refusal, misplaced stars, misplaced dashes and damages of the bytes a random sheet gets, in turn.
const CHANGES: [[usize; 4]; 12] = [
    [0, 0, 0, 0],
    [0, 0, 0, 0],
    [1, 0, 0, 0],
    [2, 0, 0, 0],
    [0, 0, 0, 1],
    [0, 0, 0, 1],
    [0, 0, 0, 2],
    [1, 0, 0, 1],
    [0, 1, 0, 0],
    [1, 1, 0, 0],
    [0, 0, 1, 0],
    [1, 0, 1, 0],
];

/// A change of one sort to the lines of a sheet.
type Change = fn(&mut Random, &mut Sheet, usize);

/// How often each change was made.
struct Changes {
    stars: [usize; STARS.len()],
    dashes: [usize; DASHES.len()],
    damages: [usize; DAMAGES.len()],
}

impl Changes {
    /// A valid sheet with so many changes of each sort; and its bytes without any change, and with each alone.
    fn make(&mut self, r: &mut Random, valid: &Sheet, [of_sheet, of_stars, of_dashes, of_bytes]: [usize; 4]) -> (Vec<u8>, Vec<Vec<u8>>) {
        let mut alone = vec![valid.bytes()];
        let mut changed = valid.clone();
        let changes: [(usize, Change, &mut [usize]); 3] = [
            (of_sheet, sheet_cases::cause, &mut [0; CAUSES]),
            (of_stars, stars::misplace, &mut self.stars),
            (of_dashes, dashes::misplace, &mut self.dashes),
        ];
        for (times, change, met) in changes {
            for _ in 0..times {
                let (sort, seed) = (r.below(met.len()), r.next());
                met[sort] += 1;
                change(&mut Random::new(seed), &mut changed, sort);
                let mut one = valid.clone();
                change(&mut Random::new(seed), &mut one, sort);
                alone.push(one.bytes());
            }
        }
        let mut bytes = changed.bytes();
        for _ in 0..of_bytes {
            let (sort, seed) = (r.below(DAMAGES.len()), r.next());
            self.damages[sort] += 1;
            sheet_cases::damage(&mut Random::new(seed), &mut bytes, sort);
            let mut one = valid.bytes();
            sheet_cases::damage(&mut Random::new(seed), &mut one, sort);
            alone.push(one);
        }
        (bytes, alone)
    }
}

/// Random sheets: as they are, with one or two causes of a later refusal, with misplaced stars or dashes, with their bytes damaged once or
/// twice, and with two of these.
pub fn random(tally: &mut Tally, cases: usize) {
    let mut r = Random::new(24);
    let mut met = Met::default();
    let mut causes = Causes::default();
    let mut changes = Changes { stars: [0; STARS.len()], dashes: [0; DASHES.len()], damages: [0; DAMAGES.len()] };
    for i in 0..cases {
        let valid = sheet_cases::sheet(&mut r);
        let numbers = CHANGES[i % CHANGES.len()];
        let (bytes, alone) = changes.make(&mut r, &valid, numbers);
        compare(tally, &mut met, &mut r, "random sheet", &bytes);
        if i % 16 == 0 {
            query(tally, &bytes);
        }
        // now and then, and for large sheets: the verdict of the sheet without any change, and with each alone
        let large = valid.sections[0].len() > 150;
        if (large || i % 48 < 12) && numbers != [0; 4] {
            let numbers: Vec<u32> = alone.iter().map(|bytes| sheet_model::answer(bytes).verdict.0).collect();
            for (k, &a) in numbers.iter().enumerate() {
                numbers[..k].iter().for_each(|&b| causes.note(a.max(b), a.min(b)));
            }
        }
    }
    met.show(tally, "random sheets", &NUMBERS);
    tally.met_by_name("random sheets accepted", &["no row", "one row", "several rows"].map(String::from), &met.rows);
    tally.met_by_name("random sheets: reasons for 14", &BREACHES.map(|breach| format!("{breach:?}")), &met.breaches);
    tally.met_by_name("random sheets: misplaced stars", &STARS.map(String::from), &changes.stars);
    tally.met_by_name("random sheets: misplaced dashes", &DASHES.map(String::from), &changes.dashes);
    tally.met_by_name("random sheets: damages of the bytes", &DAMAGES.map(String::from), &changes.damages);
    println!("random sheets: longest listing {} bytes", met.longest);
    causes.show_pairs(tally, "a sheet's 14 and a later cause", &[14], &[3, 5, 6, 7, 10, 11, 12]);
    causes.show_pairs(tally, "run or rows, and a cause before", &[10, 11, 12], &[3, 6, 7]);
    causes.show_pairs(tally, "drawing and feed", &[5, 6, 7], &[3]);
    causes.show_pairs(tally, "no pick and a pick over 1", &[7], &[6]);
}
