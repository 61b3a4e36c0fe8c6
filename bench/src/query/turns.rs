//! Matchers that take turns, so that what disturbs a turn mostly disturbs all.

use crate::clock::{median, now};

/// The rows, one behind the other; or number and place of a refusal.
pub type Rows<'r> = Result<&'r [u32], (u32, u32)>;

pub trait Matcher {
    fn ask(&mut self) -> Rows<'_>;
}

/// How often all is measured.
pub const PASSES: usize = 3;

/// More words of work than any drawing of the bench needs.
pub const AMPLE: usize = 1 << 22;

/// Seconds of so many queries.
pub fn timed(matcher: &mut dyn Matcher, times: usize) -> f64 {
    let start = now();
    for _ in 0..times {
        std::hint::black_box(matcher.ask().map_or(0, |rows| rows.len()));
    }
    now() - start
}

/// Turns for so many seconds, three at least. Each matcher is asked as often as takes about a millisecond, and each goes first in its turn.
pub fn take_turns<const N: usize>(mut matchers: [&mut dyn Matcher; N], seconds: f64) -> Vec<[f64; N]> {
    let often = |matcher: &mut dyn Matcher| ((1e-3 / timed(matcher, 1).max(1e-7)) as usize).max(1);
    let times = matchers.each_mut().map(|matcher| often(*matcher));
    let start = now();
    let mut turns: Vec<[f64; N]> = Vec::new();
    while turns.len() < 3 || now() - start < seconds {
        let mut turn = [0.0; N];
        for k in 0..N {
            let which = (k + turns.len()) % N;
            turn[which] = timed(matchers[which], times[which]) / times[which] as f64;
        }
        turns.push(turn);
    }
    turns
}

/// What is known of one drawing on one frame that is answered in so many ways.
#[derive(Default)]
pub struct Ways<const N: usize> {
    pub regions: usize,
    pub rows: usize,
    pub refused: Option<(u32, u32)>,
    turns: Vec<[f64; N]>,
}

impl<const N: usize> Ways<N> {
    /// Seconds of a query in each way.
    pub fn times(&self) -> [f64; N] {
        std::array::from_fn(|way| median(self.turns.iter().map(|turn| turn[way]).collect()))
    }

    /// One way's time to another's: the median of the turns.
    pub fn ratio(&self, way: usize, to: usize) -> f64 {
        median(self.turns.iter().map(|turn| turn[way] / turn[to]).collect())
    }

    /// Adds times for so many seconds.
    pub fn add(&mut self, ways: [&mut dyn Matcher; N], seconds: f64) {
        self.turns.extend(take_turns(ways, seconds));
    }
}

/// Seconds of something that is done so often.
pub fn usual<T>(times: usize, f: impl Fn() -> T) -> f64 {
    let once = |_| {
        let start = now();
        std::hint::black_box(f());
        now() - start
    };
    median((0..times).map(once).collect())
}
