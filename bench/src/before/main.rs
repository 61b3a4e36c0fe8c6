//! The whole query of this library beside that of an earlier one, in one process, for every drawing and frame of `bench/query`. Writes a page of
//! figures to the file that its first argument names. The second is `alike` where both libraries need the same words of work, and `reuse` where the
//! earlier one keeps every register; a third is the number of seconds for each figure. `bench/before` builds and runs it.

mod earlier;
mod means;
mod page;
mod reuse;
mod ways;

// shared with the other benches and the tests
#[path = "../query/algebra.rs"]
mod algebra;
#[path = "../query/alike.rs"]
mod alike;
#[path = "../clock.rs"]
mod clock;
#[allow(dead_code)]
#[path = "../query/drawings.rs"]
mod drawings;
#[path = "../figures.rs"]
mod figures;
#[allow(dead_code)]
#[path = "../query/frame.rs"]
mod frame;
#[path = "../peer/mod.rs"]
mod peer;
#[path = "../query/proved.rs"]
mod proved;
#[allow(dead_code)]
#[path = "../../../tests/host/src/random.rs"]
mod random;
#[path = "../query/reduction.rs"]
mod reduction;
#[path = "../room.rs"]
mod room;
#[path = "../query/text.rs"]
mod text;
#[allow(dead_code)]
#[path = "../query/turns.rs"]
mod turns;

use drawings::Drawing;
use frame::{Frame, Numbers, SIZES};
use turns::{Ways, PASSES};

/// One drawing on one frame, with dense, shuffled and spread numbers.
type Query<const N: usize> = [Ways<N>; 3];

/// All that a page tells: for each drawing and each size, the times in so many ways.
pub struct Results<const N: usize> {
    drawings: Vec<Drawing>,
    times: Vec<Vec<Query<N>>>,
}

impl<const N: usize> Results<N> {
    /// Each query with its drawing's name.
    fn queries(&self) -> impl Iterator<Item = (&'static str, &Query<N>)> {
        let named = self.drawings.iter().zip(&self.times);
        named.flat_map(|(drawing, sizes)| sizes.iter().map(|query| (drawing.name, query)))
    }

    /// The same for a table, where only the first of a drawing has its name.
    fn rows(&self) -> impl Iterator<Item = (&'static str, &Query<N>)> {
        self.queries().enumerate().map(|(i, (name, query))| (if i % SIZES.len() == 0 { name } else { "" }, query))
    }
}

/// Every drawing on every frame, each asked by `measure`, which adds times for so many seconds.
fn measured<const N: usize>(seconds: f64, measure: impl Fn(&mut Ways<N>, &Frame, &Drawing, f64)) -> Results<N> {
    let frames = SIZES.map(|regions| {
        let dense = Frame::new(regions);
        let [shuffled, spread] = [Numbers::Shuffled, Numbers::Spread].map(|numbers| dense.numbered(numbers));
        [dense, shuffled, spread]
    });
    let drawings = drawings::drawings();
    let mut times: Vec<Vec<Query<N>>> = drawings.iter().map(|_| SIZES.map(|_| Default::default()).into()).collect();
    for pass in 1..=PASSES {
        eprintln!("pass {pass} of {PASSES}");
        for (drawing, times) in drawings.iter().zip(&mut times) {
            for (frame, ways) in frames.iter().flatten().zip(times.iter_mut().flatten()) {
                measure(ways, frame, drawing, seconds / PASSES as f64);
            }
        }
    }
    Results { drawings, times }
}

fn main() {
    let mut arguments = std::env::args().skip(1);
    let (path, mode) = (arguments.next().expect("the file to write"), arguments.next().expect("alike or reuse"));
    let seconds = arguments.next().map_or(0.9, |s| s.parse().expect("a number of seconds"));
    let page = match mode.as_str() {
        "alike" => page::page(&measured(seconds, ways::measure)),
        "reuse" => reuse::page(&measured(seconds, ways::measure_reuse)),
        _ => panic!("alike or reuse"),
    };
    std::fs::write(&path, page).expect("the page can be written");
}
