//! Asks one drawing on one frame of `bench/query` so many times, for a profiler. The arguments are the drawing's name, the regions of the frame and
//! the number of times; without them it lists the drawings. `bench/profile` builds and runs it.

// shared with the other benches and the tests
#[allow(dead_code)]
#[path = "../query/algebra.rs"]
mod algebra;
#[allow(dead_code)]
#[path = "../clock.rs"]
mod clock;
#[allow(dead_code)]
#[path = "../query/drawings.rs"]
mod drawings;
#[allow(dead_code)]
#[path = "../query/frame.rs"]
mod frame;
#[path = "../peer/mod.rs"]
mod peer;
#[allow(dead_code)]
#[path = "../query/proved.rs"]
mod proved;
#[allow(dead_code)]
#[path = "../../../tests/host/src/random.rs"]
mod random;
#[path = "../query/reduction.rs"]
mod reduction;
#[allow(dead_code)]
#[path = "../room.rs"]
mod room;
#[allow(dead_code)]
#[path = "../query/turns.rs"]
mod turns;

use algebra::Algebra;
use frame::Frame;
use proved::Proved;
use turns::{Matcher, AMPLE};

fn main() {
    let arguments: Vec<String> = std::env::args().skip(1).collect();
    let [name, regions, times] = &arguments[..] else {
        drawings::drawings().iter().for_each(|drawing| println!("{}", drawing.name));
        return;
    };
    let number = |text: &String| text.parse::<usize>().expect("a number");
    let frame = Frame::new(number(regions));
    let drawing = drawings::drawings().into_iter().find(|drawing| drawing.name == name).expect("a drawing's name");
    let words = drawing.on(&frame).words();
    // the unproved algebra tells what is to be lent
    let mut algebra = Algebra::new(&frame.feed, &words, AMPLE);
    let rows = algebra.ask().expect("the drawing is not refused on this frame").len();
    let (list, work) = (algebra.reduction.list.len(), algebra.room().words());
    let mut proved = Proved::new(&frame.feed, &words, list, work, rows);
    for _ in 0..number(times) {
        assert_eq!(proved.ask().map(<[u32]>::len), Ok(rows), "the proved query and the unproved algebra differ");
    }
}
