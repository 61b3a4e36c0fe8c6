//! Touching pairs stored once, under a two-way label, beside the same frame with both directions stored: the same rows from a shorter feed, and
//! the proved query's times on both.

use crate::algebra::Algebra;
use crate::drawings::Drawing;
use crate::frame::{Frame, TOUCH};
use crate::proved::Proved;
use crate::turns::{usual, Matcher, Ways, AMPLE};

/// A frame as both feeds tell it: both directions stored, and each pair once.
pub struct Feeds<'f> {
    pub frame: &'f Frame,
    pub once: Vec<u32>,
}

impl<'f> Feeds<'f> {
    pub fn new(frame: &'f Frame) -> Self {
        let once = frame.stored_once();
        let touching = frame.labels[TOUCH].len();
        assert_eq!(frame.feed.len() - once.len(), touching, "the touching part is not half as long");
        Feeds { frame, once }
    }

    /// Seconds of a check of each feed.
    pub fn checks(&self) -> [f64; 2] {
        [&self.frame.feed, &self.once].map(|feed| usual(99, || matcher::check_feed(feed)))
    }
}

/// The ways of `measure`: with both directions stored, and with each pair once.
pub const BOTH: usize = 0;
pub const ONCE: usize = 1;

/// Asks over both feeds, compares rows, instructions and every register, and adds times for so many seconds.
pub fn measure(ways: &mut Ways<2>, feeds: &Feeds, drawing: &Drawing, seconds: f64) {
    let (name, words) = (drawing.name, drawing.on(feeds.frame).words());
    let mut unproved = [&feeds.frame.feed, &feeds.once].map(|feed| Algebra::new(feed, &words, AMPLE));
    let answers = unproved.each_mut().map(|algebra| algebra.ask().map(<[u32]>::to_vec));
    assert!(answers[0] == answers[1], "{name}: the two feeds give different rows");
    let [both, once] = &mut unproved;
    assert!(both.reduction.list == once.reduction.list, "{name}: the two feeds give different instructions");
    assert!(both.all_registers() == once.all_registers(), "{name}: the two feeds give different registers");

    let (answer, list, work) = (&answers[0], both.reduction.list.len(), both.room().words());
    let row_words = answer.as_ref().map_or(0, Vec::len);
    let mut proved = [&feeds.frame.feed, &feeds.once].map(|feed| Proved::new(feed, &words, list, work, row_words));
    for one in &mut proved {
        assert!(one.ask().map(<[u32]>::to_vec) == *answer, "{name}: the proved query and the unproved algebra differ");
    }
    let [first, second] = &mut proved;
    assert!(first.work == second.work, "{name}: the two feeds give different words in the work slice");
    ways.add([first, second], seconds);
    (ways.regions, ways.rows, ways.refused) = (feeds.frame.regions, row_words / drawing.picks().len(), answer.as_ref().err().copied());
}
