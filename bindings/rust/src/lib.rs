//! The region matcher: safe calls over the proved library.
//!
//! A *feed* is what the cameras saw: classes of regions, and labelled pairs of regions. A *drawing* is what is asked: nodes, edges, some nodes
//! picked, some fixed to one object. [`query`] gives one row for each list of objects that the drawing finds at its picked nodes, ascending, each
//! once. Feeds, drawings and instruction lists are slices of words, whose formats `docs/MANUAL.md` of the repository describes; [`sheet_query`] takes
//! both as text instead, and [`sheet_pages`] sets the rows of such a text on pages to be printed.
//!
//! Every call takes any words: it answers, or gives a [`Refusal`]. No call keeps anything or shares anything with another, so threads may call at
//! once. What a call takes of the stack stands in `include/matcher.h`; it is less than 1 MiB.

mod calls;

use std::error::Error;
use std::fmt;

/// An instruction list of so many words has room for every translation: 876 instructions.
pub const LIST_WORDS: usize = 2_628;

/// By how much the count word of a two-way label is raised, whose pairs count in either direction.
pub const TWO_WAY: u32 = 32_768;

/// The third word of a node that may be any object of its class; a lower word is the one object that the node must be.
pub const ANY_OBJECT: u32 = 65_536;

/// A listing of so many bytes has room for the answer to every sheet.
pub const LISTING_BYTES: usize = 24_732;

/// A page buffer of so many bytes has room for the pages of every sheet: 4,096 rows, 82 pages.
pub const PAGES_BYTES: usize = 281_160;

// ---- refusals

/// Why a call gives no answer: the number of the refusal, and the place that it is about.
#[derive(Clone, Copy, PartialEq, Eq, Hash, Debug)]
pub struct Refusal {
    /// From 1 to 17.
    pub number: u32,
    /// A word, an instruction or a count, as the number wants it, counted from 0; a line of a sheet, counted from 1; 0 where there is none.
    pub place: u32,
}

impl Refusal {
    /// What the number means.
    fn meaning(self) -> &'static str {
        match self.number {
            1 => "the feed is too short, or not exactly as long as its counts say",
            2 => "over 32 classes, 64 labels or 4,096 pairs in a table, or a class with the mark of a two-way label",
            3 => "a value above 65,535, or a pair not above the one before it",
            4 => "a class pair with unequal sides",
            5 => "a drawing of the wrong length, or with too few or too many nodes or edges",
            6 => "a class, label or node that does not exist, a pick above 1, or a fixed object above 65,536",
            7 => "no picked node",
            8 => "no instruction, over 1,024, or words not a multiple of 3",
            9 => "unknown kind",
            10 => "the registers still living and the instruction's own result have more pairs than the work slice takes",
            11 => "a register over 65,536 pairs",
            12 => "the row slice is too short for the rows, or the page buffer for the pages",
            13 => "the instruction slice is shorter than the translation",
            14 => "a breach of the sheet's format, or a sheet of more than 16,384 bytes",
            15 => "more than five picked nodes, and a page has five columns",
            16 => "an operand that is not an earlier register, or a class or label that does not exist",
            17 => "an unused word that is not 0",
            _ => "no refusal of this library",
        }
    }
}

impl fmt::Display for Refusal {
    fn fmt(&self, f: &mut fmt::Formatter<'_>) -> fmt::Result {
        let Refusal { number, place } = *self;
        write!(f, "refused {number} {place}: {}", self.meaning())?;
        match number {
            2..=4 => write!(f, " (word {place} of the feed)"),
            6 => write!(f, " (word {place} of the drawing)"),
            9 | 16 | 17 => write!(f, " (word {place} of the list)"),
            10 | 11 => write!(f, " (instruction {place})"),
            13 => write!(f, " ({place} instructions are needed)"),
            14 if place > 0 => write!(f, " (line {place} of the sheet)"),
            _ => Ok(()),
        }
    }
}

impl Error for Refusal {}

fn answer(number: u32, place: u32) -> Result<(), Refusal> {
    match number {
        0 => Ok(()),
        _ => Err(Refusal { number, place }),
    }
}

// ---- the calls
//
// Why each unsafe block is sound. A slice gives a pointer that is aligned and not null, an empty one, too, and the length of what it points to. What
// is lent as `&mut` overlaps nothing, and what is lent as `&` does not change during the call. The library reads and writes within these lengths,
// keeps no pointer, and writes each place and count.

/// Checks a feed: refusals 1 to 4.
pub fn check_feed(feed: &[u32]) -> Result<(), Refusal> {
    let mut place = 0;
    // SAFETY: a slice with its length, and a place of our own
    let number = unsafe { calls::matcher_check_feed(feed.as_ptr(), feed.len(), &mut place) };
    answer(number, place)
}

/// Checks a feed, then a drawing: refusals 1 to 7. A drawing is the numbers n of nodes and e of edges; then three words a node: its class, 1 where it
/// is picked and 0 where not, and the one object that it must be, or [`ANY_OBJECT`]; then three words an edge: its label, its source and its target.
pub fn check_drawing(feed: &[u32], drawing: &[u32]) -> Result<(), Refusal> {
    let mut place = 0;
    // SAFETY: slices with their lengths, which are only read, and a place of our own
    let number = unsafe { calls::matcher_check_drawing(feed.as_ptr(), feed.len(), drawing.as_ptr(), drawing.len(), &mut place) };
    answer(number, place)
}

/// Checks a feed and a drawing, then translates the drawing: refusals 1 to 7 and 13. Gives the number of instructions. The list then holds these,
/// three words each, then zeros; after a refusal it is untouched. [`LIST_WORDS`] always suffice.
pub fn translate(feed: &[u32], drawing: &[u32], list: &mut [u32]) -> Result<usize, Refusal> {
    let (mut place, mut instructions) = (0, 0);
    let (f, d, l) = (feed.as_ptr(), drawing.as_ptr(), list.as_mut_ptr());
    // SAFETY: slices with their lengths, of which the one that is written is lent as `&mut`; a place and a count of our own
    let number =
        unsafe { calls::matcher_translate(f, feed.len(), d, drawing.len(), l, list.len(), &mut place, &mut instructions) };
    answer(number, place).map(|()| instructions)
}

/// Checks a feed and an instruction list, then runs the list: refusals 1 to 4, 8 to 11, 16 and 17. The place of 9, 16 and 17 is a word of the list:
/// the kind of instruction i is word 3i, its a and b are the two behind it. The place of 10 and 11 is the instruction.
///
/// The work slice takes two words a pair. A register gives up its pairs after its last use, or after its making if nothing uses it; the last register
/// lives to the end. 10 falls where the registers that live before an instruction, its operands included, and its own result together have more pairs
/// than the slice takes. After an accepted run the slice holds the last register, then zeros; after 10 and 11 the registers that lived before that
/// instruction, in order, then zeros; after other refusals it is untouched. To see register i, run the first 3 × (i + 1) words of the list: where the
/// run of the whole gets past instruction i, as many work words suffice for it. Zeroing takes time: lend near the need.
pub fn run(feed: &[u32], list: &[u32], work: &mut [u32]) -> Result<(), Refusal> {
    let mut place = 0;
    let (f, l, w) = (feed.as_ptr(), list.as_ptr(), work.as_mut_ptr());
    // SAFETY: slices with their lengths, of which the one that is written is lent as `&mut`; a place of our own
    let number = unsafe { calls::matcher_run(f, feed.len(), l, list.len(), w, work.len(), &mut place) };
    answer(number, place)
}

/// Checks a feed and a drawing, translates the drawing, runs the translation and gives the rows, one behind the other: refusals 1 to 7 and 10 to 13.
/// The rows are the first words of the row slice; those behind them are untouched. After 12 the row slice is all zeros, after other refusals
/// untouched. The list ends up as after [`translate`]. The work slice is used as in [`run`], but here the last node's register and the final path of
/// each picked node live to the end: where the query is accepted, and after 12, it holds these, by register number, then zeros.
pub fn query<'r>(
    feed: &[u32],
    drawing: &[u32],
    list: &mut [u32],
    work: &mut [u32],
    rows: &'r mut [u32],
) -> Result<&'r [u32], Refusal> {
    let (mut place, mut words) = (0, 0);
    let (f, d) = (feed.as_ptr(), drawing.as_ptr());
    let (l, w, r) = (list.as_mut_ptr(), work.as_mut_ptr(), rows.as_mut_ptr());
    // SAFETY: slices with their lengths, of which those that are written are lent as `&mut`; a place and a count of our own
    let number = unsafe {
        calls::matcher_query(f, feed.len(), d, drawing.len(), l, list.len(), w, work.len(), r, rows.len(), &mut place, &mut words)
    };
    answer(number, place).map(|()| &rows[..words])
}

/// The sheet query: the bytes of a sheet in, the bytes of its listing out. A refusal's line, `refused` with number and place, is a listing, too.
/// None, with a zeroed slice, where the listing does not fit; [`LISTING_BYTES`] always suffice. The bytes behind the listing are untouched.
pub fn sheet_query<'l>(sheet: &[u8], listing: &'l mut [u8]) -> Option<&'l [u8]> {
    // SAFETY: slices with their lengths, of which the one that is written is lent as `&mut`
    let length = unsafe { calls::matcher_sheet_query(sheet.as_ptr(), sheet.len(), listing.as_mut_ptr(), listing.len()) };
    // no listing is empty
    match length {
        0 => None,
        _ => Some(&listing[..length]),
    }
}

/// The rows of a sheet on pages of five columns, to be printed: refusals 3, 5 to 7, 10 to 12, 14 and 15. The pages are the first bytes of the page
/// buffer; those behind them are untouched. After 12, by the rows or by the buffer, it is all zeros, after other refusals untouched. [`PAGES_BYTES`]
/// always suffice.
pub fn sheet_pages<'p>(sheet: &[u8], pages: &'p mut [u8]) -> Result<&'p [u8], Refusal> {
    let (mut place, mut length) = (0, 0);
    let (s, p) = (sheet.as_ptr(), pages.as_mut_ptr());
    // SAFETY: slices with their lengths, of which the one that is written is lent as `&mut`; a place and a length of our own
    let number = unsafe { calls::matcher_sheet_pages(s, sheet.len(), p, pages.len(), &mut place, &mut length) };
    answer(number, place).map(|()| &pages[..length])
}
