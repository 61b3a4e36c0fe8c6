//! The C calls themselves: each writes its place and its count always, 0 where the header says so. The crate does not show that, for it gives no
//! place where it accepts and no count where it refuses.

use crate::cases;
use crate::model::{self, Verdict};
use crate::random::Random;
use crate::Tally;

// the crate's own declarations; the sheet query has neither place nor count, and the pages are asked for by `pages.rs`
#[allow(dead_code)]
#[path = "../../../bindings/rust/src/calls.rs"]
mod calls;

/// What stands in a place and in a count before a call, and what no call writes there.
const PLACE: u32 = u32::MAX;
const COUNT: usize = usize::MAX;

/// Number, place and count; the calls without a count leave it out.
type Said = (Verdict, Option<usize>);

fn check_feed(feed: &[u32]) -> Said {
    let mut place = PLACE;
    // SAFETY: here and below: slices with their lengths, of which those that are written overlap no other
    let number = unsafe { calls::matcher_check_feed(feed.as_ptr(), feed.len(), &mut place) };
    ((number, place), None)
}

fn check_drawing(feed: &[u32], drawing: &[u32]) -> Said {
    let mut place = PLACE;
    // SAFETY: as above
    let number = unsafe { calls::matcher_check_drawing(feed.as_ptr(), feed.len(), drawing.as_ptr(), drawing.len(), &mut place) };
    ((number, place), None)
}

fn translate(feed: &[u32], drawing: &[u32], list: &mut [u32]) -> Said {
    let (mut place, mut count) = (PLACE, COUNT);
    let (f, d, l) = (feed.as_ptr(), drawing.as_ptr(), list.as_mut_ptr());
    // SAFETY: as above
    let number = unsafe { calls::matcher_translate(f, feed.len(), d, drawing.len(), l, list.len(), &mut place, &mut count) };
    ((number, place), Some(count))
}

fn run(feed: &[u32], list: &[u32], work: &mut [u32]) -> Said {
    let mut place = PLACE;
    let (f, l, w) = (feed.as_ptr(), list.as_ptr(), work.as_mut_ptr());
    // SAFETY: as above
    let number = unsafe { calls::matcher_run(f, feed.len(), l, list.len(), w, work.len(), &mut place) };
    ((number, place), None)
}

fn query(feed: &[u32], drawing: &[u32], [list, work, rows]: [&mut [u32]; 3]) -> Said {
    let (mut place, mut count) = (PLACE, COUNT);
    let (f, d) = (feed.as_ptr(), drawing.as_ptr());
    let (l, w, r) = (list.as_mut_ptr(), work.as_mut_ptr(), rows.as_mut_ptr());
    // SAFETY: as above
    let number = unsafe {
        calls::matcher_query(f, feed.len(), d, drawing.len(), l, list.len(), w, work.len(), r, rows.len(), &mut place, &mut count)
    };
    ((number, place), Some(count))
}

/// Number and place, and the length of the pages.
pub fn sheet_pages(sheet: &[u8], pages: &mut [u8]) -> (Verdict, usize) {
    let (mut place, mut length) = (PLACE, COUNT);
    // SAFETY: as above
    let number =
        unsafe { calls::matcher_sheet_pages(sheet.as_ptr(), sheet.len(), pages.as_mut_ptr(), pages.len(), &mut place, &mut length) };
    ((number, place), length)
}

/// The numbers that were met.
type Met = [usize; 18];

fn compare(tally: &mut Tally, met: &mut Met, what: &str, found: Said, expected: Said, input: &[u32]) {
    met[expected.0 .0 as usize] += 1;
    tally.same(what, &found, &expected, input);
}

/// A feed and a drawing, both now and then damaged, with slices that are long enough or too short.
fn drawn(tally: &mut Tally, met: &mut Met, r: &mut Random) {
    let (mut feed, mut drawing) = cases::found(r, 6, 8);
    match r.below(12) {
        0 => cases::damage(r, &mut feed),
        1 => cases::damage(r, &mut drawing),
        2 => cases::unpick(&mut drawing),
        _ => {}
    }
    compare(tally, met, "raw check_feed", check_feed(&feed), (model::check_feed(&feed), None), &feed);
    compare(tally, met, "raw check_drawing", check_drawing(&feed, &drawing), (model::check_drawing(&feed, &drawing), None), &drawing);

    const MOST: usize = 8_000;
    let [list, work, rows] = [(30, 1_200), (60, MOST), (6, 600)].map(|(short, long)| vec![7; if r.one_in(4) { r.below(short) } else { long }]);
    let (translated, answer) = match model::plan(&feed, &drawing, MOST) {
        Ok(plan) => (plan.list(&list), plan.answer(&list, &work, &rows)),
        Err(verdict) => ((verdict, 0, Vec::new()), model::refusal(verdict, &list, &work, &rows)),
    };
    let found = translate(&feed, &drawing, &mut list.clone());
    compare(tally, met, "raw translate", found, (translated.0, Some(translated.1)), &drawing);
    let found = query(&feed, &drawing, [&mut list.clone(), &mut work.clone(), &mut rows.clone()]);
    compare(tally, met, "raw query", found, (answer.verdict, Some(answer.extent)), &drawing);
}

/// A list over a feed, both now and then damaged; every tenth makes a register over 65,536 pairs.
fn listed(tally: &mut Tally, met: &mut Met, r: &mut Random, case: usize) {
    let mut feed = cases::full_feed(r);
    let mut list = if case % 10 == 0 { cases::growing_list(r, &feed) } else { cases::lively_list(r, &feed, 20, 400) };
    match r.below(12) {
        0 => cases::damage(r, &mut feed),
        1 => cases::damage(r, &mut list),
        2 => list.truncate(3 * r.below(2)),
        _ => {}
    }
    let work = vec![7; if case % 10 == 0 { 200_000 } else { r.below(1_200) }];
    let expected = model::run(&feed, &list, &work).0;
    compare(tally, met, "raw run", run(&feed, &list, &mut work.clone()), (expected, None), &list);
}

pub fn all(tally: &mut Tally, cases: usize) {
    let mut r = Random::new(30);
    let mut met = Met::default();
    for case in 0..cases {
        drawn(tally, &mut met, &mut r);
        if case % 4 == 0 {
            listed(tally, &mut met, &mut r, case / 4);
        }
    }
    // 14 and 15 are for sheets
    tally.met_of("raw calls by number", &met, &[0, 1, 2, 3, 4, 5, 6, 7, 8, 9, 10, 11, 12, 13, 16, 17]);
}
