//! When an operator takes which way: by the sizes of its operands and the span of their values, which is how many there are from the least to the
//! greatest.

/// An index, which has one place more than there are values, and a count of values have so many places at most.
pub const PLACES: usize = 65_536;

/// Composition: whether the second table has equal sides is looked at where it has at most so many times the pairs of the first.
pub const SELECT_WORTH: usize = 8;

/// Composition: fewer look-ups than this are done by halving.
pub const FIND_FEW: usize = 8;
/// Each of more is worth going through so many pairs and values beforehand.
pub const FIND_WORTH: usize = 8;

/// A group: so few pairs are joined one after the other.
pub const JOIN_FEW: usize = 4;

/// A group: fewer pairs than this are joined and not marked,
pub const MARK_PAIRS: usize = 3;
/// and fewer mixed numbers than this.
pub const MARK_NUMBERS: usize = 12;
/// Each mixed number is worth clearing and reading so many words.
pub const MARK_WORTH: usize = 12;

/// Inverse, right values, a load both ways: the rights are counted where they span at most so many times the pairs.
pub const COUNT_SPREAD: usize = 8;

/// Intersection and difference: the pairs of one table are sought in the other where that has so many times as many.
pub const FAR: usize = 8;
