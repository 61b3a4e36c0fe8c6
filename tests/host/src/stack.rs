//! How deep each call of the header goes into the stack, measured on a thread whose stack is filled with a pattern first, against the
//! header's table; and that the calls run on threads with little more than that.

use crate::cases;
use crate::examples::{drawing, fixed_drawing};
use crate::model::Table;
use crate::pages;
use crate::sheets;
use crate::{said, Tally};
use std::alloc::{alloc, dealloc, Layout};
use std::ffi::{c_int, c_void};

const KIB: usize = 1024;

// ---- measuring

extern "C" {
    fn pthread_attr_init(attributes: *mut Attributes) -> c_int;
    fn pthread_attr_setstack(attributes: *mut Attributes, stack: *mut c_void, bytes: usize) -> c_int;
    fn pthread_attr_destroy(attributes: *mut Attributes) -> c_int;
    fn pthread_create(thread: *mut usize, attributes: *const Attributes, start: Start, with: *mut c_void) -> c_int;
    fn pthread_join(thread: usize, result: *mut *mut c_void) -> c_int;
}

type Start = extern "C" fn(*mut c_void) -> *mut c_void;

/// At least as large as the C library's type.
#[repr(C, align(16))]
struct Attributes([u64; 32]);

/// A call, and where the stack stood before it.
struct Job<'a> {
    call: &'a mut dyn FnMut(),
    top: usize,
}

extern "C" fn start(job: *mut c_void) -> *mut c_void {
    let job = unsafe { &mut *(job as *mut Job) };
    let here = 0u8;
    job.top = &here as *const u8 as usize;
    (job.call)();
    std::ptr::null_mut()
}

/// How many bytes of the stack a call has touched.
fn depth(call: &mut dyn FnMut()) -> usize {
    const BYTES: usize = 4 * KIB * KIB;
    const FILL: u8 = 0xa5;
    let layout = Layout::from_size_align(BYTES, 64 * KIB).unwrap();
    let mut job = Job { call, top: 0 };
    unsafe {
        let stack = alloc(layout);
        assert!(!stack.is_null());
        stack.write_bytes(FILL, BYTES);
        let (mut attributes, mut thread) = (Attributes([0; 32]), 0);
        let with = &mut job as *mut Job as *mut c_void;
        assert_eq!(pthread_attr_init(&mut attributes), 0);
        assert_eq!(pthread_attr_setstack(&mut attributes, stack as *mut c_void, BYTES), 0);
        assert_eq!(pthread_create(&mut thread, &attributes, start, with), 0);
        assert_eq!(pthread_join(thread, std::ptr::null_mut()), 0);
        pthread_attr_destroy(&mut attributes);
        let touched = (0..BYTES).find(|&i| *stack.add(i) != FILL).unwrap();
        let deepest = stack as usize + touched;
        dealloc(stack, layout);
        job.top - deepest
    }
}

// ---- the calls

/// A feed, and a list or a drawing.
type Words = (Vec<u32>, Vec<u32>);

/// 4,096 pairs whose right values descend.
fn descending() -> Table {
    (0..4_096).map(|i| (i, 9_999 - i)).collect()
}

/// Registers of 65,536 pairs by composition and by cross; of these the inverse, the right values, another composition, tags; and a two-way
/// label of 4,096 pairs. A composition by groups, by an index of its own.
fn large_runs() -> Vec<Words> {
    let hub: Table = (0..4_096).map(|i| (i, 7)).collect();
    let spokes: Table = (0..16).map(|i| (7, i)).collect();
    let feed = cases::feed_with(&[cases::class(0, 256)], &[hub, spokes, descending()], &[false, false, true]);
    let then = [2, 2, 0, 13, 2, 0, 3, 2, 2, 7, 2, 0, 8, 2, 0, 9, 2, 0, 1, 2, 0];
    let lists = [[1, 0, 0, 1, 1, 0, 3, 0, 1], [0, 0, 0, 0, 0, 0, 10, 0, 1]].map(|first| [&first[..], &then].concat());
    lists.map(|list| (feed.clone(), list)).into_iter().chain([(ring_query().0, vec![1, 0, 0, 3, 0, 0])]).collect()
}

/// So many objects in a ring, the numbers of neighbours so far apart: each leads to the next ones.
fn ring(objects: u32, apart: u32, next: u32) -> Table {
    let to = |k: u32| (1..=next).map(move |d| (apart * k, apart * ((k + d) % objects)));
    (0..objects).flat_map(to).collect()
}

/// A chain over a ring, with its middle not picked: a composition by groups, by an index of its own.
fn ring_query() -> Words {
    let class: Table = (0..1_024).map(|k| (16 * k, 16 * k)).collect();
    let feed = cases::feed_with(&[class], &[ring(1_024, 16, 4)], &[false]);
    (feed, drawing(&[(0, 1), (0, 0), (0, 1)], &[(0, 0, 1), (0, 1, 2)]))
}

/// The same as a sheet.
fn ring_sheet() -> Vec<u8> {
    let class: String = (0..300).map(|k| format!("c {}\n", 20 * k)).collect();
    let label: String = ring(300, 20, 3).iter().map(|(u, v)| format!("l {u} {v}\n")).collect();
    format!("class object\n{class}\nlabel from to\n{label}\nnode class pick fixed\na c 1 -\nb c 0 -\nd c 1 -\n\nedge source target\nl a b\nl b d\n").into_bytes()
}

/// 65,536 rows by cross; the same by a chain whose ends come out in the other order, so that they must be sorted; 12 nodes with 24 edges, and the
/// same with every node fixed; an edge of a two-way label of 4,096 pairs; a chain over a ring.
fn large_queries() -> Vec<Words> {
    let spokes: Table = (0..256).map(|i| (7, i)).collect();
    let all: Table = [(0, 0), (0, 1), (1, 0), (1, 1)].into();
    let classes = [cases::class(0, 256), cases::class(7, 1), cases::class(0, 2)];
    let feed = cases::feed_with(&classes, &[spokes, all, descending()], &[false, false, true]);
    let around: Vec<(u32, u32, u32)> = (0..24).map(|k| (1, k % 12, (5 * k + 1) % 12)).collect();
    let drawings = [
        drawing(&[(0, 1), (0, 1)], &[]),
        drawing(&[(0, 1), (1, 0), (0, 1)], &[(0, 1, 2), (0, 1, 0)]),
        drawing(&[(2, 1); 12], &around),
        fixed_drawing(&[(2, 1, 1); 12], &around),
        drawing(&[(0, 1), (0, 1)], &[(2, 0, 1)]),
    ];
    drawings.map(|drawing| (feed.clone(), drawing)).into_iter().chain([ring_query()]).collect()
}

/// The number of a check.
fn check_feed((feed, _): &Words) -> usize {
    said(&matcher::check_feed(feed)).0 as usize
}

/// The number of a check.
fn check_drawing((feed, drawing): &Words) -> usize {
    said(&matcher::check_drawing(feed, drawing)).0 as usize
}

/// How many instructions a translation has.
fn translate((feed, drawing): &Words) -> usize {
    matcher::translate(feed, drawing, &mut vec![0; 3_072]).unwrap_or(0)
}

/// The numbers of a run in a work slice that takes the longest scratch at once, and in one whose length alone does not tell which scratch it takes.
fn run((feed, list): &Words) -> usize {
    let [long, short] = [900_000, 60_000].map(|words| said(&matcher::run(feed, list, &mut vec![0; words])).0 as usize);
    100 * long + short
}

/// The row words of a query in two such work slices, together.
fn query((feed, drawing): &Words) -> usize {
    let found = |room: usize| {
        let [mut list, mut work, mut rows] = [3_072, room, 140_000].map(|words| vec![0; words]);
        matcher::query(feed, drawing, &mut list, &mut work, &mut rows).map_or(0, <[u32]>::len)
    };
    found(1_600_000) + found(60_000)
}

/// The length of a listing.
fn sheet_query(sheet: &Vec<u8>) -> usize {
    matcher::sheet_query(sheet, &mut vec![0; 30_000]).map_or(0, <[u8]>::len)
}

/// The length of pages.
fn sheet_pages(sheet: &Vec<u8>) -> usize {
    matcher::sheet_pages(sheet, &mut vec![0; matcher::PAGES_BYTES]).map_or(0, <[u8]>::len)
}

// ---- the header's table

const HEADER: &str = include_str!("../../../include/matcher.h");

/// The calls that the header declares.
fn declared() -> Vec<&'static str> {
    let call = |line: &'static str| line.strip_prefix("uint32_t ").or(line.strip_prefix("size_t "))?.split_once('(');
    HEADER.lines().filter_map(call).map(|(name, _)| name).collect()
}

/// The calls of its table, each with the stack that it needs, in bytes.
fn table() -> Vec<(&'static str, usize)> {
    let entry = |line: &'static str| {
        let fields: Vec<&str> = line.strip_prefix(" * ")?.split_whitespace().collect();
        let [call, figure] = fields[..] else { return None };
        Some((call.strip_prefix("matcher_").map(|_| call)?, figure.parse::<usize>().ok()? * KIB))
    };
    HEADER.lines().filter_map(entry).collect()
}

/// All cases of a call, measured against the header's figure, and then on a thread with little more.
fn check<T: Sync>(tally: &mut Tally, name: &'static str, cases: &[T], call: fn(&T) -> usize) -> &'static str {
    let mut answers = vec![0; cases.len()];
    let depths = cases.iter().zip(&mut answers).map(|(case, answer)| depth(&mut || *answer = call(case)));
    let deepest = depths.max().unwrap();
    let stated = table().iter().find(|entry| entry.0 == name).map_or(0, |entry| entry.1);
    println!("stack of {name}: {deepest} bytes, stated {stated}");
    // a figure may be high by what rounding and another compiler take, not more
    let within = deepest <= stated && stated <= deepest + deepest / 16 + 4 * KIB;
    tally.same(&format!("{name}: the header's figure"), &within, &true, &[deepest as u32, stated as u32]);
    if within {
        // a thread's own data stands on its stack, too
        let bytes = stated + 16 * KIB;
        let again: Vec<usize> = std::thread::scope(|scope| {
            let thread = std::thread::Builder::new().stack_size(bytes);
            thread.spawn_scoped(scope, || cases.iter().map(call).collect()).unwrap().join().unwrap()
        });
        tally.same(&format!("{name} on a stack of {bytes} bytes"), &again, &answers, &[]);
    }
    name
}

pub fn all(tally: &mut Tally) {
    let sheets: Vec<Vec<u8>> = sheets::at_ceilings().into_iter().map(|case| case.sheet).chain([ring_sheet()]).collect();
    let paged: Vec<Vec<u8>> = pages::in_order().into_iter().map(|case| case.1).chain(sheets.clone()).collect();
    let (runs, queries) = (large_runs(), large_queries());
    let measured = vec![
        check(tally, "matcher_check_feed", &queries, check_feed),
        check(tally, "matcher_check_drawing", &queries, check_drawing),
        check(tally, "matcher_translate", &queries, translate),
        check(tally, "matcher_run", &runs, run),
        check(tally, "matcher_query", &queries, query),
        check(tally, "matcher_sheet_query", &sheets, sheet_query),
        check(tally, "matcher_sheet_pages", &paged, sheet_pages),
    ];
    tally.same("calls measured, and those of the header", &measured, &declared(), &[]);
    let stated: Vec<&str> = table().iter().map(|entry| entry.0).collect();
    tally.same("calls of the header's table, and those of the header", &stated, &declared(), &[]);
}
