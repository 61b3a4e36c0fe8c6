//! Cases by name, with the answers that are published for them: document 01's belt cases, and the worked examples of the source documents.

use crate::cases;
use crate::model::{self, Plan, Verdict, ACCEPTED};
use crate::queries::ask;
use crate::runs;
use crate::search;
use crate::Tally;

pub fn feed(classes: &[&[u32]], labels: &[&[(u32, u32)]]) -> Vec<u32> {
    let classes: Vec<_> = classes.iter().map(|class| class.iter().map(|&u| (u, u)).collect()).collect();
    let labels: Vec<_> = labels.iter().map(|label| label.iter().copied().collect()).collect();
    cases::feed_of(&classes, &labels)
}

/// Nodes are (class, pick), each any object of its class; edges are (label, source, target).
pub fn drawing(nodes: &[(u32, u32)], edges: &[(u32, u32, u32)]) -> Vec<u32> {
    fixed_drawing(&nodes.iter().map(|&(class, pick)| (class, pick, model::ANY)).collect::<Vec<_>>(), edges)
}

/// Nodes are (class, pick, fixed).
pub fn fixed_drawing(nodes: &[(u32, u32, u32)], edges: &[(u32, u32, u32)]) -> Vec<u32> {
    let mut words = vec![nodes.len() as u32, edges.len() as u32];
    words.extend(nodes.iter().chain(edges).flat_map(|&(a, b, c)| [a, b, c]));
    words
}

/// The slices' lengths that a query just needs.
fn exact(plan: &Result<Plan, Verdict>) -> [usize; 3] {
    plan.as_ref().map_or([9, 9, 9], |p| [p.translation.list.len(), p.work_words(), p.rows.len()])
}

/// The query gives these rows, with exact slices and with longer ones; so do the search and the model.
pub fn rows(tally: &mut Tally, name: &str, feed: &[u32], drawing: &[u32], expected: &[&[u32]]) {
    let words = expected.concat();
    let plan = model::plan(feed, drawing, 600_000);
    let embedded = search::rows(&model::read_feed(feed), &model::read_drawing(drawing), 1_000_000);
    let embedded: Option<Vec<u32>> = embedded.map(|rows| rows.into_iter().flatten().collect());
    tally.same(name, &embedded, &Some(words.clone()), drawing);
    let [list, work, out] = exact(&plan);
    for lengths in [[list, work, out], [list + 1, work + 1, out + 1], [list + 10, work + 8, out + 6]] {
        let answer = ask(tally, feed, drawing, &plan, lengths);
        tally.same(name, &answer.verdict, &ACCEPTED, drawing);
        tally.same(name, &answer.rows[..answer.extent], &words[..], drawing);
    }
}

/// The query gives this verdict with these slices.
pub fn verdict(tally: &mut Tally, name: &str, feed: &[u32], drawing: &[u32], lengths: [usize; 3], expected: Verdict) {
    let plan = model::plan(feed, drawing, lengths[1]);
    let answer = ask(tally, feed, drawing, &plan, lengths);
    tally.same(name, &answer.verdict, &expected, drawing);
}

/// The work slice after a query with exact slices: these registers, then zeros.
fn standing(tally: &mut Tally, name: &str, feed: &[u32], drawing: &[u32], expected: &[&[(u32, u32)]]) {
    let plan = model::plan(feed, drawing, 600_000);
    let answer = ask(tally, feed, drawing, &plan, exact(&plan));
    let mut words: Vec<u32> = expected.concat().into_iter().flat_map(|(u, v)| [u, v]).collect();
    words.resize(answer.work.len(), 0);
    tally.same(name, &answer.work, &words, drawing);
}

/// The run of a translation cut after instruction i leaves just this register.
fn register(tally: &mut Tally, name: &str, feed: &[u32], drawing: &[u32], i: usize, expected: &[(u32, u32)]) {
    let list = model::translate(&model::read_drawing(drawing)).list;
    runs::check(tally, &format!("{name}: register {i}"), feed, &list[..3 * (i + 1)], 99, ACCEPTED, expected);
}

/// Document 01's belt cases, starred or not.
pub fn belt(tally: &mut Tally) {
    let one = feed(&[&[5, 9]], &[&[(5, 5), (5, 9)]]);
    rows(tally, "one node", &one, &drawing(&[(0, 1)], &[]), &[&[5], &[9]]);
    rows(tally, "a loop edge", &one, &drawing(&[(0, 1)], &[(0, 0, 0)]), &[&[5]]);
    let five = feed(&[&[5]], &[&[(5, 5)]]);
    rows(tally, "two nodes, one object", &five, &drawing(&[(0, 1), (0, 1)], &[(0, 0, 1)]), &[&[5, 5]]);
    let crossed = feed(&[&[1, 2], &[7], &[]], &[]);
    rows(tally, "no edge", &crossed, &drawing(&[(0, 1), (1, 1)], &[]), &[&[1, 7], &[2, 7]]);
    rows(tally, "an unpicked node of an empty class", &crossed, &drawing(&[(0, 1), (1, 1), (2, 0)], &[]), &[]);
    let opposite = feed(&[&[1, 2, 3]], &[&[(1, 2), (2, 1), (2, 3)]]);
    rows(tally, "opposite edges", &opposite, &drawing(&[(0, 1), (0, 1)], &[(0, 0, 1), (0, 1, 0)]), &[&[1, 2], &[2, 1]]);
    tags(tally);
    sheet(tally);
    ceilings(tally);
}

/// The belt's tables as they arise in a query: the tagged one is register 4 there, so its tags begin at 5 × 65,536.
fn tags(tally: &mut Tally) {
    let t = 5 * 65_536;
    let pair = drawing(&[(0, 1), (0, 1)], &[(0, 0, 1)]);
    let belt = feed(&[&[1, 2, 3]], &[&[(1, 2), (1, 3)]]);
    register(tally, "tags", &belt, &pair, 4, &[(1, 2), (1, 3)]);
    standing(tally, "tags", &belt, &pair, &[&[(t, 1), (t + 1, 1)], &[(t, 2), (t + 1, 3)], &[(t, t), (t + 1, t + 1)]]);
    // 001, Figure 6 (and 000, Figure 3), with a = 1, b = 2, c = 4, d = 3
    let printed = [(1, 2), (1, 4), (2, 4), (4, 3), (4, 4)];
    let figure = feed(&[&[1, 2, 3, 4]], &[&printed]);
    let left: Vec<_> = printed.iter().zip(t..).map(|(p, tag)| (tag, p.0)).collect();
    let right: Vec<_> = printed.iter().zip(t..).map(|(p, tag)| (tag, p.1)).collect();
    let tau: Vec<_> = (t..t + 5).map(|tag| (tag, tag)).collect();
    register(tally, "001, Figure 6", &figure, &pair, 4, &printed);
    standing(tally, "001, Figure 6", &figure, &pair, &[&left, &right, &tau]);
    // {(1,2),(1,3)} composed with {(2,9),(3,9)}: (1,9) once
    let composed = feed(&[&[1], &[2, 3], &[9]], &[&[(1, 2), (1, 3)], &[(2, 9), (3, 9)]]);
    let chain = drawing(&[(0, 1), (1, 0), (2, 1)], &[(0, 0, 1), (1, 1, 2)]);
    register(tally, "composed once", &composed, &chain, 5, &[(1, 2), (1, 3)]);
    (6..9).for_each(|i| register(tally, "composed once", &composed, &chain, i, &[(1, 9)]));
    let t = 9 * 65_536;
    standing(tally, "composed once", &composed, &chain, &[&[(t, 1)], &[(t, 9)], &[(t, t)]]);
    rows(tally, "composed once", &composed, &chain, &[&[1, 9]]);
}

/// "The sheet above: 12 instructions, 33 pairs; 66 work words suffice"; it "passes with 42 words and stops at instruction 5 with 41" (document 02, E5).
fn sheet(tally: &mut Tally) {
    let feed = feed(&[&[1, 2, 3, 4]], &[&[(1, 2), (2, 3), (3, 4)]]);
    let drawing = drawing(&[(0, 1), (0, 0), (0, 1)], &[(0, 0, 1), (0, 1, 2)]);
    rows(tally, "the sheet", &feed, &drawing, &[&[1, 3], &[2, 4]]);
    let plan = model::plan(&feed, &drawing, 66);
    let loads = [0, 0, 0, 0, 0, 0, 0, 0, 0, 1, 0, 0, 1, 0, 0];
    let steps = [3, 3, 1, 3, 5, 4, 3, 0, 6, 3, 7, 2, 7, 8, 0, 8, 8, 0, 9, 8, 0];
    let answer = ask(tally, &feed, &drawing, &plan, [36, 66, 4]);
    tally.same("the sheet's list", &answer.list, &[&loads[..], &steps[..]].concat(), &drawing);
    let (work_words, all) = plan.as_ref().map_or((0, 0), |p| (p.work_words(), p.trace.tables.iter().map(|table| table.len()).sum()));
    tally.same("the sheet's work words, and its pairs", &(work_words, all), &(42, 33), &drawing);
    // the paths of the two picked nodes, registers 9 and 10, and the last node's register
    let t = 9 * 65_536;
    standing(tally, "the sheet", &feed, &drawing, &[&[(t, 1), (t + 1, 2)], &[(t, 3), (t + 1, 4)], &[(t, t), (t + 1, t + 1)]]);
    // the loads: three times the class, twice the label
    let (class, label) = ([1, 1, 2, 2, 3, 3, 4, 4], [1, 2, 2, 3, 3, 4]);
    let stopped = ask(tally, &feed, &drawing, &plan, [36, 41, 4]);
    let standing = [&class[..], &class, &class, &label, &label, &[0; 5]].concat();
    tally.same("the sheet with 41 work words", &(stopped.verdict, stopped.work), &((10, 5), standing), &drawing);
    for (lengths, expected) in [
        ([36, 66, 4], ACCEPTED),
        ([36, 65, 4], ACCEPTED),
        ([36, 42, 4], ACCEPTED),
        ([36, 40, 4], (10, 5)),
        ([36, 42, 3], (12, 0)),
        ([36, 41, 3], (10, 5)),
        ([35, 41, 4], (13, 12)),
    ] {
        verdict(tally, &format!("the sheet with slices of {lengths:?} words"), &feed, &drawing, lengths, expected);
    }
}

fn ceilings(tally: &mut Tally) {
    let objects: Vec<u32> = (0..257).collect();
    let wide = feed(&[&objects[..256], &objects], &[]);
    let products = |a, b| drawing(&[(a, 1), (b, 1)], &[]);
    let plan = model::plan(&wide, &products(0, 0), 600_000);
    // at the last instruction the cross, its tags and its tau stand
    let answer = ask(tally, &wide, &products(0, 0), &plan, [18, 8 * 65_536, 2 * 65_536]);
    tally.same("256 with 256", &(answer.verdict, answer.extent), &(ACCEPTED, 2 * 65_536), &[]);
    let all: Vec<u32> = (0..65_536).flat_map(|i| [i / 256, i % 256]).collect();
    tally.same("rows of 256 with 256", &(answer.rows == all), &true, &[]);
    verdict(tally, "256 with 256, a word short", &wide, &products(0, 0), [18, 8 * 65_536 - 1, 2 * 65_536], (10, 5));
    verdict(tally, "256 with 257", &wide, &products(0, 1), [18, 2 * 400_000, 2 * 65_792], (11, 2));
    verdict(tally, "257 with 256", &wide, &products(1, 0), [18, 2 * 400_000, 2 * 65_792], (11, 2));
    // 11 comes before 10: there is room for the classes only
    verdict(tally, "256 with 257 in a short slice", &wide, &products(0, 1), [18, 2 * 513, 0], (11, 2));
    verdict(tally, "256 with 257 in a shorter slice", &wide, &products(0, 1), [18, 2 * 512, 0], (10, 1));
    let one = feed(&[&[1]], &[]);
    rows(tally, "12 nodes", &one, &drawing(&[(0, 1); 12], &[]), &[&[1; 12]]);
    verdict(tally, "13 nodes", &one, &drawing(&[(0, 1); 13], &[]), [999, 999, 999], (5, 0));
    let many: Vec<u32> = (0..4_096).map(|i| 16 * i).collect();
    rows(tally, "4,096 objects", &feed(&[&many], &[]), &drawing(&[(0, 1)], &[]), &many.chunks(1).collect::<Vec<_>>());
    rows(tally, "object 65,535", &feed(&[&[65_535]], &[]), &drawing(&[(0, 1)], &[]), &[&[65_535]]);
    verdict(tally, "object 65,536", &feed(&[&[65_536]], &[]), &drawing(&[(0, 1)], &[]), [9, 9, 9], (3, 3));
}

/// The worked examples of the source documents, objects numbered anew.
pub fn sources(tally: &mut Tally) {
    vehicles(tally);
    family(tally);
    university(tally);
    cities(tally);
    department(tally);
}

/// A source's drawing: rows, and how often it says each step was done.
fn traced(tally: &mut Tally, name: &str, feed: &[u32], drawing: &[u32], expected: &[&[u32]], steps: [usize; 5]) {
    rows(tally, name, feed, drawing, expected);
    tally.same(name, &model::translate(&model::read_drawing(drawing)).steps, &steps, drawing);
}

/// 001: persons and vehicles. Cars 1 to 3, vehicles 11 to 13, Ford 31, Chevy 32.
fn vehicles(tally: &mut Tally) {
    let isac = [(1, 11), (2, 12), (3, 13)];
    let man = [(11, 31), (12, 31), (13, 32)];
    let (different, v_ne, c_ne) = ([(1, 2), (1, 3), (2, 1), (2, 3), (3, 1), (3, 2)], [(11, 12), (11, 13), (12, 13)], [(1, 2), (1, 3), (2, 3)]);
    let feed = feed(&[&[1, 2, 3], &[11, 12, 13], &[31, 32], &[31]], &[&isac, &man, &different, &v_ne, &c_ne]);
    // car, vehicle, maker, vehicle, car
    let same_maker = [(0, 0, 1), (1, 1, 2), (1, 3, 2), (0, 4, 3)];
    let pattern = |picks: [u32; 5], more: &[(u32, u32, u32)]| {
        let nodes: Vec<_> = [0, 1, 2, 1, 0].into_iter().zip(picks).collect();
        drawing(&nodes, &[&same_maker[..], more].concat())
    };
    let quintuples: [&[u32]; 5] = [&[1, 11, 31, 11, 1], &[1, 11, 31, 12, 2], &[2, 12, 31, 11, 1], &[2, 12, 31, 12, 2], &[3, 13, 32, 13, 3]];
    traced(tally, "001, Figures 4 and 16: the five embeddings", &feed, &pattern([1; 5], &[]), &quintuples, [0, 0, 0, 4, 0]);
    let cars: [&[u32]; 5] = [&[1, 1], &[1, 2], &[2, 1], &[2, 2], &[3, 3]];
    rows(tally, "001, Figure 16: pairs of cars", &feed, &pattern([1, 0, 0, 0, 1], &[]), &cars);
    rows(tally, "001, Figure 4: makers", &feed, &pattern([0, 0, 1, 0, 0], &[]), &[&[31], &[32]]);
    rows(tally, "001, Figure 17: no identical pairs", &feed, &pattern([1, 0, 0, 0, 1], &[(2, 0, 4)]), &[&[1, 2], &[2, 1]]);
    rows(tally, "001, Figure 28: different vehicles", &feed, &pattern([1, 0, 0, 0, 1], &[(3, 1, 3)]), &[&[1, 2]]);
    traced(tally, "001, Figure 30: different cars", &feed, &pattern([1, 0, 0, 0, 1], &[(4, 0, 4)]), &[&[1, 2]], [0, 1, 3, 1, 0]);
    let maker = |class, picks: [u32; 3]| drawing(&[(0, picks[0]), (1, picks[1]), (class, picks[2])], &[(0, 0, 1), (1, 1, 2)]);
    rows(tally, "001, Figures 18 and 19: make", &feed, &maker(2, [1, 0, 1]), &[&[1, 31], &[2, 31], &[3, 32]]);
    rows(tally, "001, Figures 20 and 21: Ford's cars", &feed, &maker(3, [1, 0, 0]), &[&[1], &[2]]);
    rows(tally, "001, Figures 22 and 23: Ford's vehicles", &feed, &drawing(&[(1, 1), (3, 1)], &[(1, 0, 1)]), &[&[11, 31], &[12, 31]]);
}

/// 000: persons 1 to 7, sets of persons 11 to 16, names Brian 21, Glenda 22, Jim 23, Cindy 24. The steps are those of its sample runs.
fn family(tally: &mut Tally) {
    let c = [(11, 1), (11, 2), (11, 3), (11, 4), (11, 5), (11, 6), (11, 7), (12, 3), (12, 4), (14, 5), (14, 6), (15, 7)];
    let ch = [(1, 12), (2, 12), (3, 13), (4, 14), (5, 15), (6, 16)];
    let n = [(1, 21), (2, 22), (4, 23), (5, 24), (6, 23), (7, 24)];
    let feed = feed(&[&[1, 2, 3, 4, 5, 6, 7], &[11, 12, 13, 14, 15, 16], &[21, 22, 23, 24]], &[&c, &ch, &n]);
    let same_name = drawing(&[(0, 1), (1, 0), (0, 1), (2, 0)], &[(1, 0, 1), (0, 1, 2), (2, 0, 3), (2, 2, 3)]);
    traced(tally, "000, section 7.3: parent and child of one name", &feed, &same_name, &[&[4, 6], &[5, 7]], [0, 1, 2, 1, 0]);
    let grandparents: [&[u32]; 5] = [&[1, 5], &[1, 6], &[2, 5], &[2, 6], &[4, 7]];
    let walk = drawing(&[(0, 1), (1, 0), (0, 0), (1, 0), (0, 1)], &[(1, 0, 1), (0, 1, 2), (1, 2, 3), (0, 3, 4)]);
    traced(tally, "000, section 7.4: grandparents", &feed, &walk, &grandparents, [0, 0, 3, 1, 0]);
    let child = |set| drawing(&[(0, 1), (1, set), (0, 0)], &[(1, 0, 1), (0, 1, 2)]);
    traced(tally, "000, section 7.5: parents", &feed, &child(0), &[&[1], &[2], &[4], &[5]], [0, 0, 1, 1, 0]);
    let sets: [&[u32]; 4] = [&[1, 12], &[2, 12], &[4, 14], &[5, 15]];
    traced(tally, "000, section 7.6: parents and their children's set", &feed, &child(1), &sets, [0, 0, 0, 2, 0]);
}

/// 002: the university, numbered as printed. Its tables of matchings, of those that leave no variable out.
fn university(tally: &mut Tally) {
    let (university, departments, names, math): (&[u32], &[u32], &[u32], &[u32]) = (&[1], &[3, 4, 5], &[6, 7, 8], &[7]);
    let (courses, titles, labs): (&[u32], &[u32], &[u32]) = (&[9, 11, 12, 14], &[16, 21, 22], &[10, 13]);
    let (persons, words): (&[u32], &[u32]) = (&[17, 19, 20, 23], &[26, 27, 28, 29, 30, 31, 32, 33]);
    let labels: [&[(u32, u32)]; 11] = [
        &[(1, 3), (1, 4), (1, 5)],                      // 0 department
        &[(3, 6), (4, 7), (5, 8)],                      // 1 its name
        &[(3, 9), (4, 11), (4, 12), (5, 12), (5, 14)],  // 2 course
        &[(9, 16), (11, 21), (12, 22)],                 // 3 its name
        &[(9, 17), (11, 20), (12, 23)],                 // 4 teacher
        &[(20, 30), (23, 32)],                          // 5 first
        &[(17, 26), (19, 28), (20, 31), (23, 33)],      // 6 last
        &[(3, 10), (5, 13)],                            // 7 lab
        &[(10, 19), (13, 23)],                          // 8 instructor
        &[(3, 17), (5, 23)],                            // 9 chairman
        &[(17, 27), (19, 29)],                          // 10 the third child of a person
    ];
    let feed = feed(&[university, departments, names, courses, titles, labs, persons, words, math], &labels);
    let tutorial = |name| {
        let nodes = [(0, 1), (1, 1), (name, 1), (3, 1), (4, 1), (6, 1), (7, 1), (7, 1)];
        drawing(&nodes, &[(0, 0, 1), (1, 1, 2), (2, 1, 3), (3, 3, 4), (4, 3, 5), (5, 5, 6), (6, 5, 7)])
    };
    let answers: [&[u32]; 3] = [&[1, 4, 7, 11, 21, 20, 30, 31], &[1, 4, 7, 12, 22, 23, 32, 33], &[1, 5, 8, 12, 22, 23, 32, 33]];
    rows(tally, "002, tutorial: teachers of Math", &feed, &tutorial(8), &answers[..2]);
    rows(tally, "002, tutorial: teachers with a first name", &feed, &tutorial(2), &answers);
    // university, department, course, lab, person, first, last, third
    let both = [(0, 0, 1), (2, 1, 2), (7, 1, 3), (4, 2, 4), (8, 3, 4), (5, 4, 5), (6, 4, 6), (10, 4, 7)];
    let nodes = [(0, 1), (1, 1), (3, 1), (5, 1), (6, 1), (7, 1), (7, 1), (7, 1)];
    rows(tally, "002, Figure 2: no strong matching", &feed, &drawing(&nodes, &both), &[]);
    rows(tally, "002, Table 1: teacher and instructor", &feed, &drawing(&nodes[..7], &both[..7]), &[&[1, 5, 12, 13, 23, 32, 33]]);
    // university, department, course, person, last, first
    let chair = [(0, 0, 1), (2, 1, 2), (4, 2, 3), (9, 1, 3), (6, 3, 4), (5, 3, 5)];
    let nodes = [(0, 1), (1, 1), (3, 1), (6, 1), (7, 1), (7, 1)];
    rows(tally, "002, Table 2: teacher and chairman", &feed, &drawing(&nodes, &chair), &[&[1, 5, 12, 23, 33, 32]]);
    let solutions: [&[u32]; 2] = [&[1, 3, 9, 17, 26], &[1, 5, 12, 23, 33]];
    rows(tally, "002, Table 3: teacher and chairman", &feed, &drawing(&nodes[..5], &chair[..5]), &solutions);
    let last = [(0, 0), (1, 0), (3, 0), (6, 0), (7, 1)];
    rows(tally, "002, Table 4: their last names", &feed, &drawing(&last, &chair[..5]), &[&[26], &[33]]);
}

/// 003: Passau 1, Graz 2, Assuan 3, Edinburgh 4, Paris 5, Mombasa 6. The edges are fewest for its tables.
fn cities(tally: &mut Tally) {
    let train = [(1, 2), (1, 5)];
    let out = [(1, 2), (1, 5), (2, 3), (4, 1), (4, 4), (5, 2), (5, 4), (5, 6), (6, 2), (6, 3)];
    let feed_ = feed(&[&[1, 2, 3, 4, 5, 6], &[1], &[5], &[6]], &[&train, &out]);
    rows(tally, "003, Table 2.1: from Passau by train", &feed_, &drawing(&[(1, 0), (0, 1)], &[(0, 0, 1)]), &[&[2], &[5]]);
    let walk = |start, steps: u32| {
        let mut nodes = vec![(0, 0); steps as usize + 1];
        nodes[0].0 = start;
        nodes[steps as usize].1 = 1;
        drawing(&nodes, &(0..steps).map(|i| (1, i, i + 1)).collect::<Vec<_>>())
    };
    let paris: [&[u32]; 5] = [&[2, 4, 6], &[1, 2, 3, 4], &[1, 2, 3, 4, 5], &[1, 2, 3, 4, 5, 6], &[1, 2, 3, 4, 5, 6]];
    let mombasa: [&[u32]; 4] = [&[2, 3], &[3], &[], &[]];
    for (name, start, reached) in [("003, Table 4.12: from Paris", 2, &paris[..]), ("003, Table 4.11: from Mombasa", 3, &mombasa[..])] {
        for (i, ends) in reached.iter().enumerate() {
            rows(tally, name, &feed_, &walk(start, i as u32 + 1), &ends.chunks(1).collect::<Vec<_>>());
        }
    }
    // R = (a, b, c) and S = (x, y) by their first columns, the others one edge away
    let product = feed(
        &[&[1, 2, 3], &[11, 12, 13], &[21, 22, 23], &[31, 32], &[41, 42]],
        &[&[(1, 11), (2, 12), (3, 13)], &[(1, 21), (2, 22), (3, 23)], &[(31, 41), (32, 42)]],
    );
    let tuples = drawing(&[(0, 1), (1, 1), (2, 1), (3, 1), (4, 1)], &[(0, 0, 1), (1, 0, 2), (2, 3, 4)]);
    let printed: Vec<[u32; 5]> = (1..4).flat_map(|r| (1..3).map(move |s| [r, 10 + r, 20 + r, 30 + s, 40 + s])).collect();
    rows(tally, "003, Figure 4.14: cartesian product", &product, &tuples, &printed.iter().map(|row| &row[..]).collect::<Vec<_>>());
}

/// 004, appendix A. Courses comp651 1, comp646 2, comp248 3, comp218 4; 4881177 11, 4125785 12, css001 13, cs0001 14, cs0002 15; 3345167 16,
/// 3511786 17, 3788947 18, ce0001 19, ce1005 20, cs0003 21; the departments cs 31, gm 32, edu 33, eg 34.
fn department(tally: &mut Tally) {
    let prerequisites = [(1, 2), (2, 3), (3, 4)];
    let works_in = [(12, 32), (13, 31), (14, 31), (15, 31), (19, 34), (20, 34)];
    let majors_in = [(11, 31), (12, 31), (13, 31), (16, 32), (17, 34), (18, 33)];
    let staff: [u32; 7] = [12, 13, 14, 15, 19, 20, 21];
    let student: [u32; 6] = [11, 12, 13, 16, 17, 18];
    let dept_people = [(31, 11), (31, 12), (31, 13), (31, 14), (31, 15), (32, 12), (32, 16), (34, 17), (34, 19), (34, 20)];
    let classes: [&[u32]; 6] = [&[1], &[1, 2, 3, 4], &staff, &student, &[31, 32, 33, 34], &[31]];
    let feed = feed(&classes, &[&prerequisites, &works_in, &majors_in, &dept_people]);
    // Table 12 lists what one, two or three steps reach from DB4
    for (steps, reached) in [(1, &[2u32][..]), (2, &[3]), (3, &[4]), (4, &[])] {
        let mut nodes = vec![(1, 0); steps as usize + 1];
        nodes[0].0 = 0;
        nodes[steps as usize].1 = 1;
        let edges: Vec<_> = (0..steps).map(|i| (0, i, i + 1)).collect();
        rows(tally, "004, Table 12: prerequisites of DB4", &feed, &drawing(&nodes, &edges), &reached.chunks(1).collect::<Vec<_>>());
    }
    // Table 10: the two rules of dept_people together make its table
    let rule = |staff_picked| drawing(&[(4, 1), (2, staff_picked), (3, 1 - staff_picked)], &[(1, 1, 0), (2, 2, 0)]);
    let by_staff: [&[u32]; 6] = [&[31, 13], &[31, 14], &[31, 15], &[32, 12], &[34, 19], &[34, 20]];
    rows(tally, "004, Table 10: first rule", &feed, &rule(1), &by_staff);
    let by_student: [&[u32]; 5] = [&[31, 11], &[31, 12], &[31, 13], &[32, 16], &[34, 17]];
    rows(tally, "004, Table 10: second rule", &feed, &rule(0), &by_student);
    // Figure 45: 12 answers, three students with four of the staff
    let pairs: Vec<[u32; 2]> = [11, 12, 13].into_iter().flat_map(|id| [12, 13, 14, 15].map(|sid| [id, sid])).collect();
    let people = drawing(&[(5, 0), (3, 1), (2, 1)], &[(3, 0, 1), (3, 0, 2)]);
    rows(tally, "004, Figure 45: staff and students of Computing Science", &feed, &people, &pairs.iter().map(|row| &row[..]).collect::<Vec<_>>());
}
