//! Tests of the proved matcher from outside: each call against a plain Rust reading of document 01, on many random inputs.
//! Prints how often each number was met; the last line is 'N passed, M failed'. With `--few` only some hundred cases, for valgrind.

#[allow(dead_code)]
mod cases;
mod checks;
mod dashes;
mod examples;
mod fixed;
mod listings;
mod lists;
mod living;
mod manual;
mod manual_limits;
mod manual_pages;
mod manual_sheets;
mod manual_slices;
mod misreadings;
#[allow(dead_code)]
mod model;
mod page_cases;
mod page_model;
mod pages;
mod queries;
mod random;
mod raw;
mod reduction;
mod refusals;
mod reuse;
mod reuse_queries;
mod runs;
mod search;
mod sheet_cases;
mod sheet_model;
mod sheets;
mod stack;
mod stars;
mod two_way;

use matcher::Refusal;
use std::fmt::Debug;

#[derive(Default)]
pub struct Tally {
    passed: usize,
    failed: usize,
    few: bool,
}

impl Tally {
    /// One comparison; the first few that fail are shown with their input.
    pub fn same<T: PartialEq + Debug + ?Sized>(&mut self, what: &str, found: &T, expected: &T, input: &[u32]) {
        if found == expected {
            self.passed += 1;
            return;
        }
        self.failed += 1;
        if self.failed <= 10 {
            println!("{what}: found {found:?}, expected {expected:?}, for {input:?}");
        }
    }

    /// How often each number was met; one that was never met is a failure, for then the test shows nothing of it.
    pub fn met(&mut self, what: &str, counts: &[usize]) {
        let all: Vec<usize> = (0..counts.len()).collect();
        self.met_of(what, counts, &all);
    }

    /// The same for some of the numbers.
    pub fn met_of(&mut self, what: &str, counts: &[usize], numbers: &[usize]) {
        let shown: Vec<String> = numbers.iter().map(|&i| format!("{i}: {}", counts[i])).collect();
        println!("{what}: {}", shown.join(", "));
        self.covers(what, numbers.iter().all(|&i| counts[i] > 0));
    }

    /// How often each was met, by name.
    pub fn met_by_name(&mut self, what: &str, names: &[String], counts: &[usize]) {
        let shown: Vec<String> = names.iter().zip(counts).map(|(name, count)| format!("{name} {count}")).collect();
        println!("{what}: {}", shown.join(", "));
        self.covers(what, counts.iter().all(|&count| count > 0));
    }

    /// Whether the cases met what they are there for; not asked of a few.
    pub fn covers(&mut self, what: &str, met: bool) {
        if !self.few {
            self.same(&format!("{what}: all met"), &met, &true, &[]);
        }
    }

    fn end(&self) -> ! {
        println!("{} passed, {} failed", self.passed, self.failed);
        std::process::exit((self.failed > 0) as i32)
    }
}

/// The number and the place that an answer says, both 0 where it is no refusal.
pub fn said<T>(answer: &Result<T, Refusal>) -> model::Verdict {
    match answer {
        Ok(_) => model::ACCEPTED,
        Err(refusal) => (refusal.number, refusal.place),
    }
}

/// Some hundred cases of every call.
fn few(tally: &mut Tally) {
    checks::feeds(tally, 100);
    checks::drawings(tally, 100);
    checks::ceilings(tally);
    runs::belt(tally);
    runs::random(tally, 100);
    runs::long(tally, 2);
    lists::few(tally);
    reuse::all(tally, 40);
    reuse_queries::all(tally, 20);
    examples::sources(tally);
    manual::examples(tally);
    queries::few(tally, 100);
    two_way::all(tally, 20);
    fixed::all(tally, 20);
    sheets::named(tally);
    stars::named(tally);
    dashes::named(tally);
    sheets::ceilings(tally);
    sheets::random(tally, 300);
    listings::longest(tally);
    pages::named(tally);
    pages::longest(tally);
    pages::random(tally, 300);
    raw::all(tally, 100);
    refusals::words(tally);
}

/// All cases.
fn all(tally: &mut Tally) {
    checks::feeds(tally, 200_000);
    checks::drawings(tally, 200_000);
    checks::ceilings(tally);
    runs::belt(tally);
    runs::edges(tally);
    runs::random(tally, 300_000);
    runs::long(tally, 1_000);
    runs::large(tally, 800);
    lists::all(tally);
    reuse::all(tally, 15_000);
    reuse_queries::all(tally, 4_000);
    examples::belt(tally);
    examples::sources(tally);
    manual::all(tally);
    queries::all(tally, 66_000);
    two_way::all(tally, 5_000);
    fixed::all(tally, 5_000);
    sheets::named(tally);
    stars::named(tally);
    dashes::named(tally);
    sheets::ceilings(tally);
    sheets::mutations(tally);
    stars::mutations(tally);
    dashes::mutations(tally);
    sheets::random(tally, 100_000);
    listings::lengths(tally);
    listings::longest(tally);
    pages::named(tally);
    pages::every_length(tally);
    pages::longest(tally);
    pages::random(tally, 100_000);
    raw::all(tally, 20_000);
    refusals::words(tally);
    stack::all(tally);
}

fn main() {
    let mut tally = Tally::default();
    tally.few = std::env::args().any(|argument| argument == "--few");
    let cases = if tally.few { few } else { all };
    cases(&mut tally);
    tally.end();
}
