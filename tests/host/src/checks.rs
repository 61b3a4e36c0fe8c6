//! The checks of feeds and drawings against the model: valid ones, and damaged in one and in two places.

use crate::cases;
use crate::model;
use crate::random::Random;
use crate::{said, Tally};

/// Two changes of one valid input, alone and together: the verdicts of the two causes, and the words with both.
pub fn twice_damaged(r: &mut Random, valid: &[u32], check: impl Fn(&[u32]) -> model::Verdict) -> (u32, u32, Vec<u32>) {
    let (first, second) = (r.next(), r.next());
    let damaged = |seeds: &[u64]| {
        let mut words = valid.to_vec();
        for &seed in seeds {
            cases::damage(&mut Random::new(seed), &mut words);
        }
        words
    };
    let both = damaged(&[first, second]);
    (check(&damaged(&[first])).0, check(&damaged(&[second])).0, both)
}

/// Which pairs of causes were met, in either order.
#[derive(Default)]
pub struct Causes {
    met: std::collections::BTreeSet<(u32, u32)>,
}

impl Causes {
    pub fn note(&mut self, a: u32, b: u32) {
        if a != 0 && b != 0 && a != b {
            self.met.insert((a, b));
        }
    }

    /// Every ordered pair of different numbers from low to high must have been met.
    fn show(&self, tally: &mut Tally, what: &str, low: u32, high: u32) {
        let all: Vec<u32> = (low..=high).collect();
        self.show_pairs(tally, what, &all, &all);
    }

    /// Every pair of a number of the first list and another of the second must have been met.
    pub fn show_pairs(&self, tally: &mut Tally, what: &str, first: &[u32], second: &[u32]) {
        let wanted = first.iter().flat_map(|&a| second.iter().map(move |&b| (a, b))).filter(|(a, b)| a != b);
        let (met, missed): (Vec<_>, Vec<_>) = wanted.partition(|pair| self.met.contains(pair));
        println!("{what}: {} of {} orders of two causes", met.len(), met.len() + missed.len());
        tally.covers(&format!("{what}, without {missed:?}"), missed.is_empty());
    }
}

/// What a feed can show of marks: four sorts of two-way labels where it is accepted, three of counts where it is refused with 2.
const MARKS: [&str; 7] =
    ["two-way", "without pairs", "both directions stored", "a pair (u,u)", "a marked class", "marked, over 4,096", "unmarked, over 4,096"];

fn marks(feed: &[u32], verdict: model::Verdict) -> [bool; 7] {
    let mut shown = [false; 7];
    match verdict {
        model::ACCEPTED => {
            for table in model::read_feed(feed).labels.into_iter().filter(|label| label.two_way).map(|label| label.stored) {
                shown[0] = true;
                shown[1] |= table.is_empty();
                shown[2] |= table.iter().any(|&(u, v)| u != v && table.contains(&(v, u)));
                shown[3] |= table.iter().any(|&(u, v)| u == v);
            }
        }
        (2, place @ 2..) => {
            let (word, is_class) = (feed[place as usize], place < 2 + feed[0]);
            shown[4] = is_class && (model::MARK..=model::MARK + 4_096).contains(&word);
            shown[5] = !is_class && word > model::MARK + 4_096;
            shown[6] = word < model::MARK;
        }
        _ => {}
    }
    shown
}

pub fn feeds(tally: &mut Tally, cases: usize) {
    let mut r = Random::new(1);
    let mut met = [0usize; 5];
    let mut marked = [0usize; 7];
    let mut causes = Causes::default();
    for i in 0..cases {
        let valid = if i % 100 == 99 { cases::feed_at_ceiling(&mut r) } else { cases::feed(&mut r) };
        let feed = match i % 3 {
            0 => valid,
            1 => {
                let mut feed = valid;
                cases::damage(&mut r, &mut feed);
                feed
            }
            _ => {
                let (a, b, both) = twice_damaged(&mut r, &valid, model::check_feed);
                causes.note(a, b);
                both
            }
        };
        let expected = model::check_feed(&feed);
        met[expected.0 as usize] += 1;
        marks(&feed, expected).iter().zip(&mut marked).for_each(|(&shown, count)| *count += shown as usize);
        tally.same("check_feed", &said(&matcher::check_feed(&feed)), &expected, &feed);
    }
    tally.met("feeds by number", &met);
    tally.met_by_name("feeds: labels and counts", &MARKS.map(String::from), &marked);
    causes.show(tally, "feeds", 1, 4);
}

/// What a 6 can be about, by the word at its place.
const WORDS: [&str; 6] = ["class", "pick", "fixed object", "label", "source", "target"];

/// Which of these it is.
fn word_of(drawing: &[u32], place: usize) -> usize {
    let edge = place >= 2 + 3 * drawing[0] as usize;
    (place - 2) % 3 + if edge { 3 } else { 0 }
}

pub fn drawings(tally: &mut Tally, cases: usize) {
    let mut r = Random::new(2);
    let mut met = [0usize; 8];
    let mut words = [0usize; WORDS.len()];
    let mut causes = Causes::default();
    for i in 0..cases {
        let mut feed = cases::feed(&mut r);
        let mut valid = cases::drawing(&mut r, &feed, 13, 26);
        if r.one_in(8) {
            cases::damage(&mut r, &mut feed);
        }
        if r.one_in(20) {
            cases::unpick(&mut valid);
        }
        let drawing = match i % 3 {
            0 => valid,
            1 => {
                let mut drawing = valid;
                cases::damage(&mut r, &mut drawing);
                drawing
            }
            _ => {
                let (a, b, both) = twice_damaged(&mut r, &valid, |d| model::check_drawing(&feed, d));
                causes.note(a, b);
                both
            }
        };
        let expected = model::check_drawing(&feed, &drawing);
        met[expected.0 as usize] += 1;
        if let (6, place) = expected {
            words[word_of(&drawing, place as usize)] += 1;
        }
        tally.same("check_drawing", &said(&matcher::check_drawing(&feed, &drawing)), &expected, &drawing);
    }
    tally.met("drawings by number", &met);
    tally.met_by_name("drawings: the word of a 6", &WORDS.map(String::from), &words);
    causes.show(tally, "drawings", 5, 6);
}

/// Every ceiling, met and passed by one.
pub fn ceilings(tally: &mut Tally) {
    let mut full = vec![32, 64];
    full.extend([0; 96]);
    tally.same("32 classes, 64 labels", &said(&matcher::check_feed(&full)), &(0, 0), &full);
    let mut many = vec![1, 0, 4096];
    many.extend((0..4096).flat_map(|i| [i, i]));
    tally.same("4,096 pairs", &said(&matcher::check_feed(&many)), &(0, 0), &[]);
    many[2] = 4097;
    many.extend([4096, 4096]);
    tally.same("4,097 pairs", &said(&matcher::check_feed(&many)), &(2, 2), &[]);
    for (object, verdict) in [(65_535, (0, 0)), (65_536, (3, 3))] {
        tally.same("object ceiling", &said(&matcher::check_feed(&[1, 0, 1, object, object])), &verdict, &[object]);
    }
    let feed = [1, 0, 0];
    for (n, verdict) in [(12u32, (0, 0)), (13, (5, 0))] {
        let mut drawing = vec![n, 0];
        drawing.extend((0..n).flat_map(|_| [0, 1, model::ANY]));
        tally.same("12 nodes pass, 13 give 5", &said(&matcher::check_drawing(&feed, &drawing)), &verdict, &drawing);
    }
}
