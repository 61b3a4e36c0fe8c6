//! Times of one operator: the difference of a list that repeats it and one that has it once. Checks, loads, the making of the operands and the giving
//! up of these cancel so, and what is zeroed at the end, since both lists have the same work slice. The matcher and its peer take turns, and all is
//! measured in several passes, so that a busy minute of the machine does not decide a figure.

use crate::cases;
use crate::clock::{median, now};
use crate::peer;
use crate::random::Random;
use crate::room::Room;

/// The proved run; its verdict as its peer gives it, 0 and 0 where it accepts.
fn proved_run(feed: &[u32], list: &[u32], work: &mut [u32]) -> (u32, u32) {
    matcher::run(feed, list, work).map_or_else(|refusal| (refusal.number, refusal.place), |()| (0, 0))
}

fn timed(f: impl FnOnce() -> (u32, u32)) -> f64 {
    let start = now();
    let verdict = f();
    let time = now() - start;
    assert_eq!(verdict, (0, 0), "a list of the bench is refused");
    time
}

/// What a bare list keeps to its end: the last register.
fn last_of(list: &[u32]) -> [u32; 1] {
    [(list.len() as u32 / 3).saturating_sub(1)]
}

/// The unproved run.
fn peer_run(feed: &[u32], list: &[u32], work: &mut [u32], scratch: &mut peer::Scratch) -> (u32, u32) {
    peer::run(feed, list, last_of(list), work, scratch)
}

/// Seconds of one operation, of the matcher and of its peer, turn by turn.
#[derive(Default)]
pub struct Times {
    turns: Vec<(f64, f64)>,
}

impl Times {
    pub fn add(&mut self, more: Times) {
        self.turns.extend(more.turns);
    }

    pub fn proved(&self) -> f64 {
        median(self.turns.iter().map(|t| t.0).collect())
    }

    /// Proved to peer, in hundredths: the median of the turns, since what disturbs a turn mostly disturbs both.
    pub fn ratio(&self) -> f64 {
        (median(self.turns.iter().map(|t| t.0 / t.1).collect()) * 100.0).round() / 100.0
    }
}

/// More words of work than any list of the bench needs, and than most random lists do.
const AMPLE: usize = 1 << 23;
const AMPLE_AT_RANDOM: usize = 1 << 14;

/// So many words more than a list needs are lent where it is timed: room for any register. Some operators are slower where there is room for the
/// result only.
const SPARE: usize = 2 * 65_536;

pub struct Bench {
    scratch: peer::Scratch,
    work: Vec<u32>,
    other: Vec<u32>,
    /// seconds for one figure in a pass
    budget: f64,
}

/// How often all is measured.
pub const PASSES: usize = 3;

impl Bench {
    pub fn new(seconds: f64) -> Self {
        Bench { scratch: peer::Scratch::new(), work: Vec::new(), other: Vec::new(), budget: seconds / PASSES as f64 }
    }

    /// The verdict of the peer with so many words, and the words that the list needs as far as it came.
    fn need_of(&mut self, feed: &[u32], list: &[u32], words: usize) -> ((u32, u32), usize) {
        self.work.resize(words, 0);
        let verdict = peer_run(feed, list, &mut self.work, &mut self.scratch);
        (verdict, Room::of(list, &last_of(list), &self.scratch.sizes).words())
    }

    /// The words that a list of the bench needs.
    fn need(&mut self, feed: &[u32], list: &[u32]) -> usize {
        let (verdict, words) = self.need_of(feed, list, AMPLE);
        assert_eq!(verdict, (0, 0), "a list of the bench is refused");
        words
    }

    /// Both say the same of this list and write the same words into a slice of so many.
    fn compare_with(&mut self, feed: &[u32], list: &[u32], words: usize) -> (u32, u32) {
        for work in [&mut self.work, &mut self.other] {
            work.clear();
            work.resize(words, 7);
        }
        let found = proved_run(feed, list, &mut self.work);
        let peers = peer_run(feed, list, &mut self.other, &mut self.scratch);
        assert_eq!(found, peers, "the matcher and its peer differ in the verdict");
        assert!(self.work == self.other, "the matcher and its peer differ in the words");
        found
    }

    /// The same with the words that the list needs, and with one less, for `operators` behind a list that makes their operands.
    pub fn compare(&mut self, feed: &[u32], operands: &[u32], operators: &[u32]) {
        let list = [operands, operators, operators].concat();
        let words = self.need(feed, &list);
        assert_eq!(self.compare_with(feed, &list, words), (0, 0), "a list is refused with the words that it needs");
        assert_eq!(self.compare_with(feed, &list, words - 1).0, 10, "a list is not refused with fewer words than it needs");
    }

    /// Compares the two on random lists over random feeds, some of them damaged, with any number of words or about as many as are needed.
    pub fn compare_random(&mut self, lists: usize) {
        let mut r = Random::new(7);
        for _ in 0..lists {
            let mut feed = cases::full_feed(&mut r);
            let mut list = if r.one_in(2) { cases::list(&mut r, &feed, 20) } else { cases::lively_list(&mut r, &feed, 20, 400) };
            if r.one_in(8) {
                cases::damage(&mut r, &mut feed);
            }
            if r.one_in(8) {
                cases::damage(&mut r, &mut list);
            }
            let (verdict, need) = self.need_of(&feed, &list, AMPLE_AT_RANDOM);
            let words = if r.one_in(2) { r.below(600) } else { (need + 1).saturating_sub(r.below(4)) };
            let found = self.compare_with(&feed, &list, words);
            if verdict == (0, 0) {
                assert_eq!(found.0, if words < need { 10 } else { 0 }, "a list needs other words than were computed");
            }
        }
    }

    /// Times of an operator on several operands, one after the other: `operators` behind a list that makes all operands.
    pub fn time(&mut self, feed: &[u32], operands: &[u32], operators: &[u32]) -> Times {
        let list = |times: usize| [operands, &operators.repeat(times)].concat();
        let variants = operators.len() / 3;
        // a result is given up at once, so more repetitions need no more words
        let words = self.need(feed, &list(2)) + SPARE;
        self.work.truncate(words);
        // how often: what takes some milliseconds, within the instructions that there are
        let most = (1024 - operands.len() / 3) / variants - 1;
        let round = self.turn(feed, &list(1), &list(2), 1).1.max(1e-8);
        let more = ((4e-3 / round) as usize).clamp(1, most);
        let (short, long) = (list(1), list(1 + more));
        let mut times = Times::default();
        let start = std::time::Instant::now();
        while times.turns.len() < 5 || start.elapsed().as_secs_f64() < self.budget {
            let (proved, peer) = self.turn(feed, &short, &long, times.turns.len());
            times.turns.push((proved / (more * variants) as f64, peer / (more * variants) as f64));
        }
        times
    }

    /// Seconds by which the second list takes longer than the first: the matcher's and the peer's, who is first in every other turn.
    fn turn(&mut self, feed: &[u32], short: &[u32], long: &[u32], turn: usize) -> (f64, f64) {
        let Bench { scratch, work, .. } = self;
        let mut taken = [0.0; 2];
        for which in [turn % 2, (turn + 1) % 2] {
            let mut run = |list: &[u32]| match which {
                0 => timed(|| proved_run(feed, list, work)),
                _ => timed(|| peer_run(feed, list, work, scratch)),
            };
            let first = run(short);
            taken[which] = run(long) - first;
        }
        (taken[0], taken[1])
    }
}
