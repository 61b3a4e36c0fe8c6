//! The operators, each on ordinary operands and on those that are worst for it.

use crate::measure::{Bench, Times, PASSES};
use crate::operands::{objects, ordinary, over, pairs, renumbered, shuffled, spread, Pairs, Program};
use crate::random::Random;
use std::collections::BTreeSet;

pub const SIZES: [usize; 3] = [1_000, 8_000, 65_536];

pub const NAMES: [&str; 16] = [
    "class table",
    "label table",
    "inverse",
    "composition",
    "intersection",
    "union",
    "difference",
    "left tag",
    "right tag",
    "tau",
    "cross",
    "equal sides",
    "left values",
    "right values",
    "with a left",
    "with a right",
];

// Why an operator is slower than its peer, where it is.
const LOAD: &str = "the room is tested at each pair; the peer tests it once and copies the table as a whole";
const ROOM: &str = "the room is tested at each pair; the peer tests it once, so that its loop takes several pairs at a time";
const GROUPS: &str = "each left value of the first table is a call of its own, which tests the room and then writes its pairs";
const PAIRS: &str = "two pairs are compared by left and then by right; the peer compares them as one number each";
const CALLS: &str = "nothing is moved, so what counts is the calls, down to halves of one pair, and one comparison at each";
const WAYS: &str = "the way of finding is asked at each look-up; the peer has a loop for each way";
const INDEX: &str = "the index is zeroed before it is filled, and the way of finding is asked at each look-up; the peer keeps its index, and has a loop for \
    each way";
const PART: &str = "a part of the other table is copied word by word; the peer copies it as a whole";
pub const OPEN: &str = "both take the same steps; where the time goes was not looked into";
const FORETOLD: &str = "the merge picks and does not branch, so each step waits for the one before; the peer branches, which is faster where \
    the branch is foretold and slower where it is not, and copies the rest of a table as a whole";
const LAST: &str = "a left value is written where it stands for the last time, so each step looks at two pairs and for the end of the table";
const GROUP: &str = "the group is copied pair by pair; the peer copies it as a whole";
const TURNED: &str = "both tables are merged as numbers in the scratch and then written as pairs; the peer writes the pairs as it merges";
const SHORT: &str = "a loop of one or two cycles a pair, for which the place that the linker gives it counts as much as its text";

/// Adds the operands of about so many pairs to a program, and gives the operator's two words.
type Make = fn(&mut Program, &mut Random, usize) -> (u32, u32);

struct Case {
    kind: u32,
    operands: &'static str,
    /// why it is slower than its peer, where it is
    why: &'static str,
    make: Make,
}

pub struct Row {
    pub kind: u32,
    pub operands: &'static str,
    pub why: &'static str,
    pub times: Vec<(usize, Times)>,
}

fn case(kind: u32, operands: &'static str, why: &'static str, make: Make) -> Case {
    Case { kind, operands, why, make }
}

fn one(p: &mut Program, pairs: &[(u32, u32)]) -> (u32, u32) {
    (p.table(pairs), 0)
}

fn two(p: &mut Program, a: &[(u32, u32)], b: &[(u32, u32)]) -> (u32, u32) {
    (p.table(a), p.table(b))
}

/// (0, f(0)), (1, f(1)) and so on.
fn graph(n: usize, f: impl FnMut(u32) -> u32) -> Pairs {
    let mut f = f;
    (0..n as u32).map(|i| (i, f(i))).collect()
}

/// Each of these numbers with one at random.
fn function(r: &mut Random, lefts: &[u32]) -> Pairs {
    lefts.iter().map(|&u| (u, r.below(65_536) as u32)).collect()
}

/// u × v, for u below x and v below y.
fn block(x: u32, y: u32) -> Pairs {
    (0..x).flat_map(|u| (0..y).map(move |v| (u, v))).collect()
}

/// The identity of about half of the numbers below n, at random.
fn half(r: &mut Random, n: usize) -> Pairs {
    graph(n, |i| i).into_iter().filter(|_| r.one_in(2)).collect()
}

/// n pairs of objects and tags: the right tags of two tables, read from the right.
fn two_tags(p: &mut Program, r: &mut Random, n: usize) -> (u32, u32) {
    let [a, b] = [(); 2].map(|()| {
        let t = p.table(&over(r, n / 2, objects(n)));
        let tag = p.then(8, t, 0);
        p.then(2, tag, 0)
    });
    (p.then(5, a, b), 0)
}

/// Two sides whose product is about n.
fn sides(n: usize) -> (u32, u32) {
    match n {
        1_000 => (25, 40),
        8_000 => (80, 100),
        _ => (256, 256),
    }
}

fn loaded(p: &mut Program, n: usize, kind: u32) -> (u32, u32) {
    match kind {
        0 => (p.class(0..n as u32), 0),
        _ => (p.label(graph(n, |i| i)), 0),
    }
}

/// n pairs over about n / 2 objects, at random: some four neighbours for each; each pair in one of its two directions.
fn once(r: &mut Random, n: usize) -> Pairs {
    let mut all: BTreeSet<(u32, u32)> = BTreeSet::new();
    while all.len() < n {
        let (u, v) = (r.below(n / 2) as u32, r.below(n / 2) as u32);
        if u != v && !all.contains(&(v, u)) {
            all.insert((u, v));
        }
    }
    all.into_iter().collect()
}

/// n pairs, each only in the first table, only in the second, or in both.
fn thirds(p: &mut Program, r: &mut Random, n: usize) -> (u32, u32) {
    let all: Vec<((u32, u32), usize)> = ordinary(r, n).into_iter().map(|x| (x, r.below(3))).collect();
    let of = |not: usize| all.iter().filter(|x| x.1 != not).map(|x| x.0).collect::<Pairs>();
    two(p, &of(1), &of(0))
}

/// n pairs, of which sixteen are in the second table and the others in the first.
fn few(p: &mut Program, r: &mut Random, n: usize) -> (u32, u32) {
    let all = ordinary(r, n);
    let of = |few: bool| all.iter().enumerate().filter(|(i, _)| (i % (n / 16 + 1) == 7) == few).map(|(_, &x)| x).collect::<Pairs>();
    two(p, &of(false), &of(true))
}

/// n pairs, all in the first table, and one in so many in the second, too.
fn some_too(p: &mut Program, r: &mut Random, n: usize, often: usize) -> (u32, u32) {
    let all = ordinary(r, n);
    let some: Pairs = all.iter().copied().filter(|_| r.one_in(often)).collect();
    two(p, &all, &some)
}

/// n pairs, the lower half in the first table, the other in the second.
fn behind(p: &mut Program, r: &mut Random, n: usize) -> (u32, u32) {
    let all = ordinary(r, n);
    two(p, &all[..n / 2], &all[n / 2..])
}

fn cases() -> Vec<Case> {
    vec![
        case(0, "a class", LOAD, |p, _, n| loaded(p, n, 0)),
        case(1, "a label", LOAD, |p, _, n| loaded(p, n, 1)),
        case(1, "two-way, each pair once, at random", TURNED, |p, r, n| (p.two_way(once(r, n)), 0)),
        case(1, "two-way, both directions stored", TURNED, |p, r, n| {
            let half = once(r, n / 2);
            let both: BTreeSet<(u32, u32)> = half.iter().copied().chain(half.iter().map(|&(u, v)| (v, u))).collect();
            (p.two_way(both.into_iter().collect()), 0)
        }),
        case(2, "four rights a left, at random", OPEN, |p, r, n| one(p, &ordinary(r, n))),
        case(2, "rights descend", OPEN, |p, _, n| one(p, &graph(n, |i| n as u32 - 1 - i))),
        case(2, "rights ascend with the lefts", OPEN, |p, _, n| one(p, &graph(n, |i| i))),
        case(2, "rights spread wide, as tags of two tables", PAIRS, two_tags),
        case(3, "identity with a table", PART, |p, r, n| two(p, &graph(objects(n), |i| i), &ordinary(r, n))),
        case(3, "identity with gaps with a table, spread wide", WAYS, |p, r, n| {
            let to = spread(r, objects(n));
            two(p, &renumbered(&graph(objects(n), |i| i), &to), &renumbered(&ordinary(r, n), &to))
        }),
        case(3, "table with an identity", SHORT, |p, r, n| two(p, &ordinary(r, n), &graph(objects(n), |i| i))),
        case(3, "table with an identity of half of its rights", SHORT, |p, r, n| two(p, &ordinary(r, n), &graph(objects(n) / 2, |i| i))),
        case(3, "table with an identity with gaps", OPEN, |p, r, n| two(p, &ordinary(r, n), &half(r, objects(n)))),
        case(3, "table with an identity with gaps, spread wide", OPEN, |p, r, n| {
            let to = spread(r, objects(n));
            two(p, &renumbered(&ordinary(r, n), &to), &renumbered(&half(r, objects(n)), &to))
        }),
        case(3, "left tag with a function", WAYS, |p, r, n| {
            let t = p.table(&ordinary(r, n));
            (p.then(7, t, 0), p.table(&graph(objects(n), |_| r.below(65_536) as u32)))
        }),
        case(3, "right tag with a function", WAYS, |p, r, n| {
            let t = p.table(&ordinary(r, n));
            (p.then(8, t, 0), p.table(&graph(objects(n), |_| r.below(65_536) as u32)))
        }),
        case(3, "right tag with a function, spread wide", WAYS, |p, r, n| {
            let to = spread(r, objects(n));
            let t = p.table(&renumbered(&ordinary(r, n), &to));
            (p.then(8, t, 0), p.table(&function(r, &to)))
        }),
        // a quarter of the pairs in a, so that the result has about n
        case(3, "right tag with four rights a value", WAYS, |p, r, n| {
            let t = p.table(&over(r, n / 4, objects(n)));
            (p.then(8, t, 0), p.table(&ordinary(r, n)))
        }),
        case(3, "right tag with four rights a value, spread wide", WAYS, |p, r, n| {
            let to = spread(r, objects(n));
            let t = p.table(&renumbered(&over(r, n / 4, objects(n)), &to));
            (p.then(8, t, 0), p.table(&renumbered(&ordinary(r, n), &to)))
        }),
        case(3, "four rights a middle value, at random", INDEX, |p, r, n| two(p, &ordinary(r, n / 4), &ordinary(r, n))),
        case(3, "four middle values a left, one right each", OPEN, |p, r, n| {
            two(p, &pairs(n, || (r.below(n / 4) as u32, r.below(n) as u32)), &graph(n, |_| r.below(n) as u32))
        }),
        case(3, "one left, rights shuffled", OPEN, |p, r, n| {
            let to = shuffled(r, n);
            two(p, &block(1, n as u32), &graph(n, |i| to[i as usize]))
        }),
        case(3, "block with block", OPEN, |p, _, n| {
            let (x, y) = sides(n);
            two(p, &block(x, y), &block(y, x))
        }),
        case(4, "thirds, at random", OPEN, thirds),
        case(4, "sixteen pairs in the second", OPEN, few),
        case(4, "one in twenty, at random, in the second, too", OPEN, |p, r, n| some_too(p, r, n, 20)),
        case(4, "one in twelve, at random, in the second, too", OPEN, |p, r, n| some_too(p, r, n, 12)),
        case(4, "the second behind the first", OPEN, behind),
        case(5, "thirds, at random", FORETOLD, thirds),
        case(5, "sixteen pairs in the second", FORETOLD, few),
        case(5, "the second behind the first", FORETOLD, behind),
        case(6, "thirds, at random", FORETOLD, thirds),
        case(6, "sixteen pairs in the second", FORETOLD, few),
        case(6, "the second behind the first", FORETOLD, behind),
        case(7, "any", ROOM, |p, r, n| one(p, &ordinary(r, n))),
        case(8, "any", ROOM, |p, r, n| one(p, &ordinary(r, n))),
        case(9, "any", ROOM, |p, r, n| one(p, &ordinary(r, n))),
        case(10, "about as many lefts in both", GROUPS, |p, _, n| {
            let (x, y) = sides(n);
            two(p, &graph(x as usize, |i| i), &graph(y as usize, |i| i))
        }),
        case(10, "one left in the first", GROUPS, |p, _, n| two(p, &[(7, 7)], &graph(n, |i| i))),
        case(10, "one left in the second", GROUPS, |p, _, n| two(p, &graph(n, |i| i), &[(7, 7)])),
        case(11, "half of the pairs, at random", SHORT, |p, r, n| one(p, &graph(n, |i| i ^ r.below(2) as u32))),
        case(11, "none of the pairs", SHORT, |p, _, n| one(p, &graph(n, |i| i ^ 1))),
        case(12, "four rights a left, at random", LAST, |p, r, n| one(p, &ordinary(r, n))),
        case(12, "one right a left", LAST, |p, _, n| one(p, &graph(n, |i| i))),
        case(12, "one left", LAST, |p, _, n| one(p, &block(1, n as u32))),
        case(13, "four lefts a right, at random", OPEN, |p, r, n| one(p, &ordinary(r, n))),
        case(13, "rights shuffled", OPEN, |p, r, n| {
            let to = shuffled(r, n);
            one(p, &graph(n, |i| to[i as usize]))
        }),
        case(13, "rights ascend with the lefts", OPEN, |p, _, n| one(p, &graph(n, |i| i))),
        case(13, "sixteen rights", OPEN, |p, r, n| one(p, &graph(n, |_| r.below(16) as u32))),
        case(13, "rights spread wide, as tags of two tables", CALLS, two_tags),
        case(14, "half of the pairs", GROUP, |p, _, n| (one(p, &block(2, n as u32 / 2)).0, 1)),
        case(14, "all of the pairs", GROUP, |p, _, n| (one(p, &block(1, n as u32)).0, 0)),
        case(15, "half of the pairs, at random", SHORT, |p, r, n| (one(p, &graph(n, |_| r.below(2) as u32)).0, 1)),
        case(15, "none of the pairs", SHORT, |p, r, n| (one(p, &ordinary(r, n)).0, 99_999)),
    ]
}

/// A feed, the list that makes operands of about so many pairs, and the operator on each of them. Several operands, so that no branch is
/// learned by heart; as many as the feed has labels for.
fn program(case: &Case, size: usize) -> (Program, Vec<u32>) {
    let variants = match size {
        1_000 => 16,
        4_096 | 8_000 => 8,
        _ => 1,
    };
    let mut program = Program::default();
    let mut r = Random::new(size as u64);
    let mut operators = Vec::new();
    for _ in 0..variants {
        let (a, b) = (case.make)(&mut program, &mut r, size);
        operators.extend([case.kind, a, b]);
    }
    (program, operators)
}

/// The sizes at which a case is measured: a table of a feed holds at most 4,096 pairs.
fn sizes(case: &Case) -> Vec<usize> {
    if case.kind < 2 { vec![1_000, 4_096] } else { SIZES.to_vec() }
}

pub fn measured(bench: &mut Bench) -> Vec<Row> {
    let cases = cases();
    let empty = |case: &Case| Row {
        kind: case.kind,
        operands: case.operands,
        why: case.why,
        times: sizes(case).into_iter().map(|size| (size, Times::default())).collect(),
    };
    let mut rows: Vec<Row> = cases.iter().map(empty).collect();
    for pass in 0..PASSES {
        for (case, row) in cases.iter().zip(&mut rows) {
            for (size, times) in &mut row.times {
                let (program, operators) = program(case, *size);
                let feed = program.feed();
                if pass == 0 {
                    bench.compare(&feed, &program.list, &operators);
                }
                times.add(bench.time(&feed, &program.list, &operators));
            }
        }
        eprintln!("pass {} of {PASSES}", pass + 1);
    }
    rows
}

/// A composition of operands of 65,536 pairs at most: lefts × middle values, and so many rights for each middle value.
pub struct Worst {
    pub lefts: usize,
    pub middles: usize,
    pub rights: usize,
    pub drawn: &'static str,
    pub times: Times,
}

/// The rights of middle value v in b: so many of those below `all`.
fn some(r: &mut Random, v: usize, all: usize, rights: usize, drawn: &str) -> Vec<u32> {
    match drawn {
        // every so many-th, the first one place further for each middle value
        "in turn" => (0..rights).map(|j| (v % (all / rights) + all / rights * j) as u32).collect(),
        // as far apart as objects can be
        "all, spread wide" | "at random, spread wide" => some(r, v, all, rights, "").into_iter().map(|w| w * (65_536 / all as u32)).collect(),
        _ => pairs(rights, || (0, r.below(all) as u32)).into_iter().map(|p| p.1).collect(),
    }
}

/// The compositions that gather most: each left leads to all middle values, and the rights of each are some of those 65,536 / lefts that the
/// result may have for a left.
pub fn worst_compositions(bench: &mut Bench) -> Vec<Worst> {
    let shapes = [
        (256, 256, 256, "all"),
        (181, 362, 181, "in turn"),
        (128, 512, 128, "in turn"),
        (128, 512, 128, "at random"),
        (64, 1024, 64, "in turn"),
        (16, 4096, 16, "at random"),
        (1, 65_536, 1, "at random"),
        (700, 93, 93, "all, spread wide"),
        (1024, 64, 64, "all, spread wide"),
        (1024, 64, 32, "at random, spread wide"),
    ];
    let mut rows = shapes.map(|(lefts, middles, rights, drawn)| Worst { lefts, middles, rights, drawn, times: Times::default() });
    for pass in 0..PASSES {
        for row in &mut rows {
            let mut r = Random::new(6);
            let rights = |v| some(&mut r, v, 65_536 / row.lefts, row.rights, row.drawn).into_iter().map(move |w| (v as u32, w));
            let b: Pairs = (0..row.middles).flat_map(rights).collect();
            let mut program = Program::default();
            let (a, b) = two(&mut program, &block(row.lefts as u32, row.middles as u32), &b);
            let feed = program.feed();
            if pass == 0 {
                bench.compare(&feed, &program.list, &[3, a, b]);
            }
            row.times.add(bench.time(&feed, &program.list, &[3, a, b]));
        }
    }
    rows.into()
}
