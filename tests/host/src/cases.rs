//! Random feeds, drawings and instruction lists: valid ones, and the same damaged.

use crate::model;
use crate::random::Random;
use std::collections::BTreeSet;

/// Which of so many labels are two-way: none, or every other one.
pub fn marks(r: &mut Random, labels: usize) -> Vec<bool> {
    let any = !r.one_in(3);
    (0..labels).map(|_| any && r.one_in(2)).collect()
}

/// A valid feed of small tables over few objects, now and then with a high object, some of its labels two-way.
pub fn feed(r: &mut Random) -> Vec<u32> {
    let (classes, labels) = (r.below(5), r.below(5));
    let objects = 1 + r.below(7);
    let object = |r: &mut Random| if r.one_in(60) { 65_535 } else { r.below(objects) as u32 };
    let pair = |r: &mut Random, is_class: bool| {
        let u = object(r);
        (u, if is_class { u } else { object(r) })
    };
    let mut table = |is_class: bool| {
        let most = if r.one_in(6) { 0 } else { 1 + r.below(10) };
        (0..most).map(|_| pair(r, is_class)).collect::<model::Table>()
    };
    let classes: Vec<_> = (0..classes).map(|_| table(true)).collect();
    let labels: Vec<_> = (0..labels).map(|_| table(false)).collect();
    feed_with(&classes, &labels, &marks(r, labels.len()))
}

/// A feed with at least one class and one label, so that every drawing can be asked.
pub fn full_feed(r: &mut Random) -> Vec<u32> {
    loop {
        let feed = feed(r);
        if feed[0] > 0 && feed[1] > 0 {
            return feed;
        }
    }
}

/// A drawing over the classes and labels of an accepted feed, valid where it has any; in every other one some nodes are fixed.
pub fn drawing(r: &mut Random, feed: &[u32], most_nodes: usize, most_edges: usize) -> Vec<u32> {
    let mut words = unfixed(r, [feed[0] as usize, feed[1] as usize], most_nodes, most_edges);
    fix_some(r, feed, &mut words);
    words
}

/// A drawing over so many classes and labels, no node of it fixed.
fn unfixed(r: &mut Random, [classes, labels]: [usize; 2], most_nodes: usize, most_edges: usize) -> Vec<u32> {
    let n = 1 + r.below(most_nodes);
    let e = if labels == 0 { 0 } else { r.below(most_edges + 1) };
    let mut words = vec![n as u32, e as u32];
    let picked = r.below(n);
    let often = 1 + r.below(4);
    for i in 0..n {
        words.extend([r.below(classes) as u32, (i == picked || r.one_in(often + 1)) as u32, model::ANY]);
    }
    let shape = r.below(4);
    for i in 0..e {
        let (s, t) = match shape {
            // a chain, a star, or anything
            0 => (i % n, (i + 1) % n),
            1 => (0, i % n),
            _ => (r.below(n), r.below(n)),
        };
        let (s, t) = if r.one_in(3) { (t, s) } else { (s, t) };
        words.extend([r.below(labels) as u32, s as u32, t as u32]);
    }
    words
}

/// The third word of a fixed node: mostly one of these objects, now and then any low one or the highest.
pub fn fixed(r: &mut Random, objects: &[u32]) -> u32 {
    match r.below(24) {
        0 => 65_535,
        1 => r.below(9) as u32,
        _ => objects.get(r.below(objects.len())).copied().unwrap_or(7),
    }
}

/// Fixes some nodes of every other drawing, or all, each by the objects that are given for it.
fn fix(r: &mut Random, drawing: &mut [u32], objects: &[Vec<u32>]) {
    if r.one_in(2) {
        return;
    }
    let often = 1 + r.below(4);
    for (k, of) in objects.iter().enumerate() {
        if r.one_in(often) {
            drawing[4 + 3 * k] = fixed(r, of);
        }
    }
}

/// The same with the objects of its class in an accepted feed.
pub fn fix_some(r: &mut Random, feed: &[u32], drawing: &mut [u32]) {
    let classes = model::read_feed(feed).classes;
    let objects = |class: u32| classes.get(class as usize).map_or(Vec::new(), |table| table.iter().map(|pair| pair.0).collect());
    let nodes: Vec<Vec<u32>> = drawing[2..].chunks(3).take(drawing[0] as usize).map(|node| objects(node[0])).collect();
    fix(r, drawing, &nodes);
}

/// The drawing with no node picked.
pub fn unpick(drawing: &mut [u32]) {
    let nodes = drawing[0] as usize;
    drawing.iter_mut().skip(3).step_by(3).take(nodes).for_each(|pick| *pick = 0);
}

/// A feed and a drawing that is mostly found in it: each node has its object first, and the tables hold what these need, and some pairs more.
/// The pair of an edge of a two-way label stands either way round. A fixed node is mostly fixed to its object.
pub fn found(r: &mut Random, most_nodes: usize, most_edges: usize) -> (Vec<u32>, Vec<u32>) {
    let (c, l, objects) = (1 + r.below(4), 1 + r.below(4), 1 + r.below(6));
    let mut words = unfixed(r, [c, l], most_nodes, most_edges);
    let n = words[0] as usize;
    let at: Vec<u32> = (0..n).map(|_| if r.one_in(60) { 65_535 } else { r.below(objects) as u32 }).collect();
    let (mut classes, mut labels) = (vec![BTreeSet::new(); c], vec![BTreeSet::new(); l]);
    let two_way = marks(r, l);
    let (nodes, edges) = words[2..].split_at(3 * n);
    for (node, &object) in nodes.chunks(3).zip(&at) {
        classes[node[0] as usize].insert((object, object));
    }
    for edge in edges.chunks(3) {
        let [label, source, target] = [0, 1, 2].map(|k| edge[k] as usize);
        let turned = two_way[label] && r.one_in(2);
        labels[label].insert(if turned { (at[target], at[source]) } else { (at[source], at[target]) });
    }
    for _ in 0..r.below(6) {
        let (u, v) = (r.below(objects) as u32, r.below(objects) as u32);
        classes[r.below(c)].insert((u, u));
        labels[r.below(l)].insert((u, v));
    }
    fix(r, &mut words, &at.iter().map(|&object| vec![object]).collect::<Vec<_>>());
    (feed_with(&classes, &labels, &two_way), words)
}

/// One word changed, or a word more or less.
pub fn damage(r: &mut Random, words: &mut Vec<u32>) {
    match r.below(8) {
        0 => {
            words.pop();
        }
        1 => words.push(r.word()),
        2 => words.truncate(r.below(4)),
        3 if words.len() > 3 => {
            // two neighbouring pairs exchanged, or a pair repeated
            let at = r.below(words.len() - 3);
            words[at + 2] = words[at];
            words[at + 3] = words[at + 1];
        }
        _ if !words.is_empty() => {
            let at = if r.one_in(3) { r.below(words.len().min(12)) } else { r.below(words.len()) };
            // one more; a mark put on or taken off; any word
            words[at] = match r.below(8) {
                0..=2 => words[at].wrapping_add(1),
                3 => words[at] ^ model::MARK,
                _ => r.word(),
            };
        }
        _ => words.push(r.word()),
    }
}

/// One random instruction, number i of a list over a feed: valid where the feed has tables. `near` is the first register of a few among
/// which half of the operands are drawn.
fn instruction(r: &mut Random, feed: &[u32], i: usize, near: usize) -> [u32; 3] {
    let (classes, labels) = (feed.first().copied().unwrap_or(0) as usize, feed.get(1).copied().unwrap_or(0) as usize);
    let kind = if i == 0 || r.one_in(5) {
        if labels > 0 && (classes == 0 || r.one_in(2)) { 1 } else { 0 }
    } else {
        2 + r.below(14)
    };
    let earlier = |r: &mut Random| if r.one_in(2) { r.below(i) as u32 } else { (near + r.below(i - near)) as u32 };
    let (a, b) = match kind {
        0 => (r.below(classes) as u32, 0),
        1 => (r.below(labels) as u32, 0),
        3 | 4 | 5 | 6 | 10 => (earlier(r), earlier(r)),
        // a number of the feed, a tag of an early register, a tag of any
        14 | 15 => {
            let tag = 65_536 * (1 + if r.one_in(2) { r.below(i.min(3)) } else { r.below(i) }) + r.below(9);
            (earlier(r), if r.one_in(2) { tag as u32 } else { r.below(8) as u32 })
        }
        _ => (earlier(r), 0),
    };
    [kind as u32, a, b]
}

/// An instruction list over a feed, valid where the feed has tables.
pub fn list(r: &mut Random, feed: &[u32], most: usize) -> Vec<u32> {
    let n = 1 + r.below(most);
    (0..n).flat_map(|i| instruction(r, feed, i, i.saturating_sub(4))).collect()
}

/// A list over an accepted feed whose registers are seldom empty and seldom over `cap` pairs; one that is over ends the list.
pub fn lively_list(r: &mut Random, feed: &[u32], most: usize, cap: usize) -> Vec<u32> {
    let tables = model::read_feed(feed);
    let mut done: Vec<model::Table> = Vec::new();
    let mut words = Vec::new();
    let n = 1 + r.below(most);
    while done.len() < n {
        let mut draw = || {
            let w = instruction(r, feed, done.len(), done.len().saturating_sub(4));
            let table = model::result(&tables, &done, &w, 65_536);
            (w, table)
        };
        let mut drawn = draw();
        for _ in 0..4 {
            if drawn.1.is_empty() || drawn.1.len() > cap {
                drawn = draw();
            }
        }
        words.extend(drawn.0);
        if drawn.1.len() > cap {
            break;
        }
        done.push(drawn.1);
    }
    words
}

/// A list that grows fast: tables, then crosses of their tags, over and over, to more than 65,536 pairs where the first have some.
pub fn growing_list(r: &mut Random, feed: &[u32]) -> Vec<u32> {
    let mut words = lively_list(r, feed, 4, 400);
    for _ in 0..3 + r.below(3) {
        let i = words.len() as u32 / 3;
        let tag = 7 + r.below(3) as u32;
        words.extend([tag, i - 1, 0, 10, i, if r.one_in(3) { r.below(i as usize) as u32 } else { i }]);
    }
    words
}

// ---- large ones

/// The words of a feed with these tables.
pub fn feed_of(classes: &[model::Table], labels: &[model::Table]) -> Vec<u32> {
    feed_with(classes, labels, &vec![false; labels.len()])
}

/// The same with these marks on the labels.
pub fn feed_with(classes: &[model::Table], labels: &[model::Table], two_way: &[bool]) -> Vec<u32> {
    let mut feed = vec![classes.len() as u32, labels.len() as u32];
    feed.extend(classes.iter().map(|t| t.len() as u32));
    feed.extend(labels.iter().zip(two_way).map(|(t, &marked)| t.len() as u32 + if marked { model::MARK } else { 0 }));
    feed.extend(classes.iter().chain(labels).flatten().flat_map(|&(u, v)| [u, v]));
    feed
}

/// A class of the objects from `low` on, so many.
pub fn class(low: u32, count: u32) -> model::Table {
    (low..low + count).map(|u| (u, u)).collect()
}

/// Up to 4,096 pairs of one of eight shapes.
pub fn large_table(r: &mut Random, shape: usize) -> model::Table {
    let most = if r.one_in(3) { 4096 } else { 1 + r.below(4096) } as u32;
    let hub = r.below(300) as u32;
    let low = if r.one_in(4) { 61_440 } else { r.below(300) as u32 };
    match shape {
        // hubs: one left value, one right value, both
        0 => (0..most).map(|i| (hub, low + i)).collect(),
        1 => (0..most).map(|i| (low + i, hub)).collect(),
        2 => (0..most).map(|i| if i % 2 == 0 { (hub, low + i) } else { (low + i, hub) }).collect(),
        // anything, among many objects or few
        3 => (0..most).map(|_| (r.below(65_536) as u32, r.below(65_536) as u32)).collect(),
        4 => (0..most).map(|_| (r.below(80) as u32, r.below(80) as u32)).collect(),
        // each left value once, and few right values
        5 => (0..most).map(|i| (low + i, i % (1 + hub))).collect(),
        // a block, and pairs with equal sides
        6 => (0..most).map(|i| (low + i / 64, hub + i % 64)).collect(),
        _ => (0..most).map(|i| (low + i, low + i)).collect(),
    }
}

/// A feed of some large labels, some of them two-way, and two classes.
pub fn large_feed(r: &mut Random) -> Vec<u32> {
    let one = r.below(8);
    let mixed = r.one_in(2);
    let labels: Vec<model::Table> = (0..2 + r.below(5))
        .map(|_| {
            let shape = if mixed { r.below(8) } else { one };
            large_table(r, shape)
        })
        .collect();
    // two classes, now and then such that their cross has exactly 65,536 pairs
    let mut objects = |low: usize, most: usize| if r.one_in(3) { 256 } else { low + r.below(most) } as u32;
    let counts = [objects(1, 300), objects(200, 60)];
    let classes = [class(r.below(300) as u32, counts[0]), class(r.below(40) as u32, counts[1])];
    feed_with(&classes, &labels, &marks(r, labels.len()))
}

/// A feed with one table of about 4,096 pairs, a class or a label, whose count word is at a ceiling; mostly it is the number of its pairs.
pub fn feed_at_ceiling(r: &mut Random) -> Vec<u32> {
    let most = 4_095 + r.below(3) as u32;
    let is_class = r.one_in(3);
    let step = r.below(16) as u32;
    let large: model::Table = (0..most).map(|i| (i, if is_class { i } else { i * step })).collect();
    let small: model::Table = [(3, 3)].into();
    let (mut classes, mut labels) = (vec![small.clone(); r.below(3)], vec![small; r.below(3)]);
    let tables = if is_class { &mut classes } else { &mut labels };
    let at = r.below(tables.len() + 1);
    tables.insert(at, large);
    let mut feed = feed_with(&classes, &labels, &marks(r, labels.len()));
    let word = 2 + at + if is_class { 0 } else { classes.len() };
    feed[word] = match r.below(12) {
        0 => [0, 4_096, 4_097, 32_767, 32_768, 36_864, 36_865, u32::MAX][r.below(8)],
        1..=5 => most,
        _ => most + model::MARK,
    };
    feed
}

/// A list over a large feed: every table is loaded, then crosses, unions and tags, then anything, mostly of the largest registers.
pub fn large_list(r: &mut Random, feed: &[u32]) -> Vec<u32> {
    let tables = model::read_feed(feed);
    let mut words: Vec<u32> = (0..feed[0]).flat_map(|k| [0, k, 0]).chain((0..feed[1]).flat_map(|k| [1, k, 0])).collect();
    let mut done = model::tables(&tables, &words);
    let mut pairs: usize = done.iter().map(|t| t.len()).sum();
    let n = done.len() + 4 + r.below(10);
    while done.len() < n && pairs < 400_000 {
        let i = done.len();
        let mut by_size: Vec<usize> = (0..i).collect();
        by_size.sort_by_key(|&k| std::cmp::Reverse(done[k].len()));
        let largest = |r: &mut Random| by_size[r.below(i.min(3))] as u32;
        let any = |r: &mut Random| if r.one_in(2) { largest(r) } else { r.below(i) as u32 };
        let kind = if i < n - 6 && r.one_in(2) { [5, 5, 5, 3, 7, 8][r.below(6)] } else { 2 + r.below(14) } as u32;
        // of a cross mostly the small ones, which are large enough; of a union rather the large ones
        let operand = |r: &mut Random| match kind {
            10 if !r.one_in(4) => by_size[i - 1 - r.below(i.min(3))] as u32,
            5 if r.one_in(2) => largest(r),
            _ => any(r),
        };
        let a = operand(r);
        let b = match kind {
            3 | 4 | 5 | 6 | 10 => operand(r),
            // a value that stands in the table
            14 | 15 => {
                let at = r.below(done[a as usize].len());
                done[a as usize].iter().nth(at).map_or(7, |p| if kind == 14 { p.0 } else { p.1 })
            }
            _ => 0,
        };
        let table = model::result(&tables, &done, &[kind, a, b], 65_536);
        if table.is_empty() && !r.one_in(5) {
            continue;
        }
        words.extend([kind, a, b]);
        if table.len() > 65_536 {
            break;
        }
        pairs += table.len();
        done.push(table);
    }
    words
}
