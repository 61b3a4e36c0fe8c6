//! One drawing on one frame: both libraries asked, their answers compared, then their times, turn by turn.

use crate::algebra::Algebra;
use crate::alike::{ask_both, ask_both_with_need, Answer};
use crate::drawings::Drawing;
use crate::earlier;
use crate::frame::Frame;
use crate::proved::Proved;
use crate::turns::{Matcher, Ways, AMPLE};

/// The ways of `measure`: the earlier library and this one, both lent just the words that are needed.
pub const BEFORE: usize = 0;
pub const NOW: usize = 1;
/// And of `measure_reuse`: both lent the words of all registers, then this one just those that it needs.
pub const SAME_WORDS: usize = 1;
pub const NEEDED_WORDS: usize = 2;

/// A drawing as it is asked on a frame. The unproved algebra has been asked, and tells what is to be lent.
struct Asked<'f> {
    name: &'static str,
    feed: &'f [u32],
    drawing: &'f [u32],
    algebra: Algebra<'f>,
    row_words: usize,
}

impl<'f> Asked<'f> {
    fn new(name: &'static str, feed: &'f [u32], drawing: &'f [u32]) -> Self {
        let mut algebra = Algebra::new(feed, drawing, AMPLE);
        let row_words = algebra.ask().map_or(0, <[u32]>::len);
        Asked { name, feed, drawing, algebra, row_words }
    }

    /// This library's query, lent so many words of work.
    fn now(&self, work: usize) -> Proved<'f> {
        Proved::new(self.feed, self.drawing, self.algebra.reduction.list.len(), work, self.row_words)
    }

    /// The earlier library's.
    fn before(&self, work: usize) -> Proved<'f> {
        let mut before = self.now(work);
        before.query = earlier::query;
        before
    }

    /// The earlier library answers so, with this list and these words of work.
    fn compare(&self, before: &mut Proved, answer: &Answer, list: &[u32], work: &[u32]) {
        let name = self.name;
        assert!(before.ask().map(<[u32]>::to_vec) == *answer, "{name}: the earlier library answers differently");
        assert!(before.list == list, "{name}: the earlier library gives other instructions");
        assert!(before.work == work, "{name}: the earlier library leaves other words in the work slice");
    }
}

/// Asks both libraries, compares rows, instructions and every word of the work slice, and adds times for so many seconds.
pub fn measure(ways: &mut Ways<2>, frame: &Frame, drawing: &Drawing, seconds: f64) {
    let words = drawing.on(frame).words();
    let mut asked = Asked::new(drawing.name, &frame.feed, &words);
    let work = asked.algebra.room().words();
    let [mut before, mut now] = [asked.before(work), asked.now(work)];
    let answer = ask_both_with_need(drawing.name, &mut now, &mut asked.algebra);
    asked.compare(&mut before, &answer, &now.list, &now.work);

    ways.add([&mut before, &mut now], seconds);
    note(ways, frame, drawing, &answer);
}

/// The same where the earlier library gives up no register: lent the words of all, it leaves all of them, and with one word less it refuses with 10.
pub fn measure_reuse(ways: &mut Ways<3>, frame: &Frame, drawing: &Drawing, seconds: f64) {
    let (name, words) = (drawing.name, drawing.on(frame).words());
    let mut asked = Asked::new(name, &frame.feed, &words);
    let room = asked.algebra.room();
    let [mut before, mut same, mut needed] = [asked.before(room.words_of_all()), asked.now(room.words_of_all()), asked.now(room.words())];
    let registers = asked.algebra.all_registers().to_vec();
    let answer = ask_both(name, &mut same, &mut asked.algebra, room.words_of_all());
    assert!(ask_both_with_need(name, &mut needed, &mut asked.algebra) == answer, "{name}: fewer words give another answer");
    asked.compare(&mut before, &answer, &same.list, &registers);
    let short = asked.before(room.words_of_all() - 1).ask().err();
    assert!(matches!(short, Some((10, _))), "{name}: the earlier library does not keep all registers");

    ways.add([&mut before, &mut same, &mut needed], seconds);
    note(ways, frame, drawing, &answer);
}

fn note<const N: usize>(ways: &mut Ways<N>, frame: &Frame, drawing: &Drawing, answer: &Answer) {
    let rows = answer.as_ref().map_or(0, |rows| rows.len() / drawing.picks().len());
    (ways.regions, ways.rows, ways.refused) = (frame.regions, rows, answer.as_ref().err().copied());
}
