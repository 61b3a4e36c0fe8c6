//! The whole query on frames of several sizes, with dense numbers and with others, beside SQLite, a backtracking matcher and the unproved algebra,
//! in one process. Writes a page of figures and a plot to the two files that its arguments name; a third argument is the number of seconds for each
//! figure. `bench/query` builds and runs it.

mod algebra;
mod alike;
mod backtracking;
mod contest;
mod drawings;
mod frame;
mod index;
mod numbers;
mod page;
mod plot;
mod proved;
mod reduction;
mod sqlite;
mod text;
mod turns;
mod two_way;
mod work;

// shared with the operators' bench and the tests
#[path = "../clock.rs"]
mod clock;
#[path = "../figures.rs"]
mod figures;
#[path = "../peer/mod.rs"]
mod peer;
#[allow(dead_code)]
#[path = "../../../tests/host/src/random.rs"]
mod random;
#[path = "../room.rs"]
mod room;

use contest::{Cell, Ready};
use drawings::Drawing;
use frame::{Frame, Numbers, SIZES};
use turns::{Ways, PASSES};
use two_way::Feeds;

/// The part of a figure's time that is spent on a frame whose numbers are not dense.
const RENUMBERED: f64 = 0.4;

/// For each drawing, a cell for each frame.
type Cells = Vec<Vec<Cell>>;

/// All that the page and the plot tell.
pub struct Results {
    frames: Vec<Frame>,
    drawings: Vec<Drawing>,
    /// on dense numbers: for each drawing, a cell for each frame
    cells: Cells,
    /// the same on shuffled numbers, and on spread ones
    shuffled: Cells,
    spread: Cells,
    /// each drawing where every table is empty
    bare: Cells,
    /// for each frame: the feed's check, SQLite's load, the index
    preparation: Vec<[f64; 3]>,
    touching: Touching,
}

/// The frames with both directions of each touching pair, and the same with each pair once.
pub struct Touching {
    /// for each frame: its words with both directions and with each pair once; the checks of both
    feeds: Vec<(usize, [usize; 2], [f64; 2])>,
    /// for each drawing, the times on each of these frames
    times: Vec<Vec<Ways<2>>>,
}

fn stored_once(frames: &[Frame], drawings: &[Drawing], seconds: f64) -> Touching {
    let feeds: Vec<Feeds> = frames.iter().filter(|frame| frame.both).map(Feeds::new).collect();
    let mut times: Vec<Vec<Ways<2>>> = drawings.iter().map(|_| feeds.iter().map(|_| Ways::default()).collect()).collect();
    for _ in 0..PASSES {
        for (drawing, times) in drawings.iter().zip(&mut times) {
            feeds.iter().zip(times).for_each(|(feeds, ways)| two_way::measure(ways, feeds, drawing, seconds / PASSES as f64));
        }
    }
    let words = |feeds: &Feeds| (feeds.frame.regions, [feeds.frame.feed.len(), feeds.once.len()], feeds.checks());
    Touching { feeds: feeds.iter().map(words).collect(), times }
}

/// Measures every drawing on every one of these frames once more.
fn measure(frames: &[Frame], drawings: &[Drawing], cells: &mut Cells, seconds: f64) {
    for (j, frame) in frames.iter().enumerate() {
        let ready = Ready::new(frame);
        for (drawing, cells) in drawings.iter().zip(&mut *cells) {
            cells[j].measure(&ready, drawing, seconds);
        }
    }
}

fn measured(seconds: f64) -> Results {
    let (frames, drawings) = (SIZES.map(Frame::new), drawings::drawings());
    let numbered = |numbers| frames.each_ref().map(|frame| frame.numbered(numbers));
    let [shuffled_frames, spread_frames] = [Numbers::Shuffled, Numbers::Spread].map(numbered);
    let nothing = [Frame::empty()];
    let blank = |frames: usize| drawings.iter().map(|_| (0..frames).map(|_| Cell::default()).collect()).collect();
    let [mut cells, mut shuffled, mut spread, mut bare]: [Cells; 4] = [SIZES.len(), SIZES.len(), SIZES.len(), 1].map(blank);
    let each = seconds / PASSES as f64;
    for pass in 1..=PASSES {
        eprintln!("pass {pass} of {PASSES}");
        measure(&frames, &drawings, &mut cells, each);
        measure(&shuffled_frames, &drawings, &mut shuffled, each * RENUMBERED);
        measure(&spread_frames, &drawings, &mut spread, each * RENUMBERED);
        measure(&nothing, &drawings, &mut bare, each / 10.0);
        for numbered in [&shuffled, &spread] {
            let alike = cells.iter().flatten().zip(numbered.iter().flatten()).all(|(a, b)| a.is_like(b));
            assert!(alike, "other numbers give other sizes of rows or registers");
        }
    }
    let preparation = frames.iter().map(contest::preparation).collect();
    let touching = stored_once(&frames, &drawings, seconds / 4.0);
    Results { frames: frames.into(), drawings, cells, shuffled, spread, bare, preparation, touching }
}

fn main() {
    let mut arguments = std::env::args().skip(1);
    let (page, plot) = (arguments.next().expect("the page to write"), arguments.next().expect("the plot to write"));
    let seconds = arguments.next().map_or(2.4, |s| s.parse().expect("a number of seconds"));
    let results = measured(seconds);
    std::fs::write(&page, page::page(&results)).expect("the page can be written");
    std::fs::write(&plot, plot::plot(&results)).expect("the plot can be written");
}
