//! The five matchers side by side: their rows compared, then their times, turn by turn.

use crate::algebra::Algebra;
use crate::alike::ask_both_with_need;
use crate::backtracking;
use crate::clock::median;
use crate::drawings::Drawing;
use crate::frame::Frame;
use crate::index::Index;
use crate::proved::Proved;
use crate::room::Room;
use crate::sqlite::{Database, Statement};
use crate::turns::{take_turns, timed, usual, Matcher, AMPLE};

pub const NAMES: [&str; 5] = ["proved query", "SQLite", "backtracking", "unproved algebra", "backtracking, from the words"];
pub const PROVED: usize = 0;
pub const SQLITE: usize = 1;
pub const BACKTRACKING: usize = 2;
pub const UNPROVED: usize = 3;
pub const FROM_WORDS: usize = 4;

/// A frame as each matcher wants it.
pub struct Ready<'f> {
    frame: &'f Frame,
    /// the second with statistics of its tables
    databases: [Database; 2],
    index: Index,
    /// of which the search from the words builds what it needs whenever it is asked
    anew: Index,
}

impl<'f> Ready<'f> {
    pub fn new(frame: &'f Frame) -> Self {
        let [index, anew] = [(); 2].map(|()| Index::new(&frame.feed));
        [&index, &anew].iter().for_each(|index| index.read(&frame.feed, &index.parts()));
        Ready { frame, databases: [false, true].map(|statistics| Database::new(frame, statistics)), index, anew }
    }

    /// The query prepared in both databases; the one that is quicker.
    fn prepare(&self, drawing: &Drawing) -> Statement<'_> {
        let [mut plain, mut informed] = self.databases.each_ref().map(|database| database.prepare(drawing));
        let least = |statement: &mut Statement| timed(statement, 1).min(timed(statement, 1));
        if least(&mut plain) < least(&mut informed) {
            plain
        } else {
            informed
        }
    }
}

/// What is known of one drawing on one frame.
#[derive(Default)]
pub struct Cell {
    pub regions: usize,
    pub rows: usize,
    pub instructions: usize,
    /// up to a refusal
    pub room: Room,
    pub refused: Option<(u32, u32)>,
    turns: Vec<[f64; NAMES.len()]>,
}

impl Cell {
    /// Seconds of a query.
    pub fn time(&self, which: usize) -> f64 {
        median(self.turns.iter().map(|turn| turn[which]).collect())
    }

    /// The other's time to the proved query's: the median of the turns, since what disturbs a turn mostly disturbs all.
    pub fn ratio(&self, which: usize) -> f64 {
        median(self.turns.iter().map(|turn| turn[which] / turn[PROVED]).collect())
    }

    /// Whether all that does not depend on the objects' numbers is the same.
    pub fn is_like(&self, other: &Cell) -> bool {
        let all = |cell: &Cell| (cell.regions, cell.rows, cell.instructions, cell.room, cell.refused);
        all(self) == all(other)
    }

    /// Asks all five, compares what they answer, and adds times for so many seconds.
    pub fn measure(&mut self, ready: &Ready, drawing: &Drawing, seconds: f64) {
        let drawing = drawing.on(ready.frame);
        let (feed, words) = (&ready.frame.feed, drawing.words());
        let mut search = backtracking::search(&ready.index, None, &drawing);
        let mut from_words = backtracking::search(&ready.anew, Some(feed), &drawing);
        let mut sqlite = ready.prepare(&drawing);
        let mut algebra = Algebra::new(feed, &words, AMPLE);
        let rows = search.ask().expect("a search refuses nothing").to_vec();
        let refused = algebra.ask().err();
        let (room, list) = (algebra.room(), algebra.reduction.list.len());
        let mut proved = Proved::new(feed, &words, list, room.words(), rows.len());

        let name = drawing.name;
        let answer = ask_both_with_need(name, &mut proved, &mut algebra);
        assert!(sqlite.ask() == Ok(&rows), "{name}: SQLite and the search differ");
        assert!(from_words.ask() == Ok(&rows), "{name}: the two searches differ");
        assert!(answer.as_deref() == refused.as_ref().map_or(Ok(&rows[..]), Err), "{name}: the algebras and the search differ");

        let (regions, rows, instructions) = (ready.frame.regions, rows.len() / drawing.picks().len(), list / 3);
        let mut turns = std::mem::take(&mut self.turns);
        turns.extend(take_turns([&mut proved, &mut sqlite, &mut *search, &mut algebra, &mut *from_words], seconds));
        *self = Cell { regions, rows, instructions, room, refused, turns };
    }
}

/// Seconds that it takes to make a frame ready, before any query: the check of the feed, which each proved query makes, a database, an index.
pub fn preparation(frame: &Frame) -> [f64; 3] {
    let index = Index::new(&frame.feed);
    let parts = index.parts();
    [usual(99, || matcher::check_feed(&frame.feed)), usual(5, || Database::new(frame, true)), usual(99, || index.read(&frame.feed, &parts))]
}
