//! Words and pairs of the work slice, the tables in it, and the place behind them.

/// So many pairs a register holds at most, and the count that stands for more.
pub const MOST: usize = 65_536;
pub const MORE: usize = 65_537;

/// A pair as one number, ascending as pairs do.
#[inline(always)]
pub fn key((left, right): (u32, u32)) -> u64 {
    (left as u64) << 32 | right as u64
}

#[inline(always)]
pub fn word(words: &[u32], i: usize) -> u32 {
    debug_assert!(i < words.len());
    unsafe { *words.get_unchecked(i) }
}

#[inline(always)]
pub fn set(words: &mut [u32], i: usize, x: u32) {
    debug_assert!(i < words.len());
    unsafe { *words.get_unchecked_mut(i) = x }
}

#[inline(always)]
pub fn left(words: &[u32], i: usize) -> u32 {
    word(words, 2 * i)
}

#[inline(always)]
pub fn right(words: &[u32], i: usize) -> u32 {
    word(words, 2 * i + 1)
}

#[inline(always)]
pub fn pair(words: &[u32], i: usize) -> (u32, u32) {
    (left(words, i), right(words, i))
}

#[inline(always)]
pub fn put(words: &mut [u32], i: usize, (left, right): (u32, u32)) {
    set(words, 2 * i, left);
    set(words, 2 * i + 1, right);
}

#[inline(always)]
pub fn emit(words: &mut [u32], room: usize, i: usize, p: (u32, u32)) {
    if i < room {
        put(words, i, p);
    }
}

/// A table: the pairs `start` to `end` of the work slice.
#[derive(Clone, Copy)]
pub struct Span {
    pub start: usize,
    pub end: usize,
}

impl Span {
    #[inline(always)]
    pub fn len(self) -> usize {
        self.end - self.start
    }

    /// Its words.
    #[inline(always)]
    pub fn of(self, work: &[u32]) -> &[u32] {
        &work[2 * self.start..2 * self.end]
    }
}

/// Where an operator writes: from pair number `out` on, up to pair number `room`.
#[derive(Clone, Copy)]
pub struct Place {
    pub out: usize,
    pub room: usize,
}

impl Place {
    /// Whether so many pairs fit behind the k that are there.
    #[inline(always)]
    pub fn fits(self, k: usize, count: usize) -> bool {
        self.out + k + count <= self.room
    }

    /// The operand's words and as many words of the result, where there is room for that.
    pub fn split<'w>(self, work: &'w mut [u32], a: Span, count: usize) -> Option<(&'w [u32], &'w mut [u32])> {
        if !self.fits(0, count) {
            return None;
        }
        let (before, behind) = work.split_at_mut(2 * self.out);
        Some((a.of(before), &mut behind[..2 * count]))
    }
}

/// A part of a table, behind the k pairs that are there; gives its size.
pub fn append(work: &mut [u32], at: Place, k: usize, part: Span) -> usize {
    if at.fits(k, part.len()) {
        work.copy_within(2 * part.start..2 * part.end, 2 * (at.out + k));
    }
    part.len()
}
