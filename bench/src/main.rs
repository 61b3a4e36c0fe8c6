//! Each operator of the proved run beside an unproved one of the same algorithms, in one process. Writes a page of figures to the file that its
//! first argument names; the second, if there is one, is the number of seconds for each figure. `bench/run` builds and runs it.

mod clock;
mod figures;
mod measure;
mod operands;
mod operators;
mod peer;
mod report;
#[allow(dead_code)]
mod room;

// shared with the tests: random feeds and lists
#[allow(dead_code)]
#[path = "../../tests/host/src/cases.rs"]
mod cases;
#[allow(dead_code)]
#[path = "../../tests/host/src/living.rs"]
mod living;
#[allow(dead_code)]
#[path = "../../tests/host/src/model.rs"]
mod model;
#[path = "../../tests/host/src/random.rs"]
mod random;
#[allow(dead_code)]
#[path = "../../tests/host/src/reduction.rs"]
mod reduction;

fn main() {
    let mut arguments = std::env::args().skip(1);
    let path = arguments.next().expect("the file to write");
    let seconds = arguments.next().map_or(0.6, |s| s.parse().expect("a number of seconds"));
    let mut bench = measure::Bench::new(seconds);
    bench.compare_random(40_000);
    let rows = operators::measured(&mut bench);
    let worst = operators::worst_compositions(&mut bench);
    std::fs::write(&path, report::page(&rows, &worst)).expect("the page can be written");
}
