//! The proved query and the unproved algebra, lent the same words: they must answer alike, and leave the same words in the list and in the work slice.

use crate::algebra::Algebra;
use crate::proved::Proved;
use crate::turns::Matcher;

/// The rows, or number and place of a refusal.
pub type Answer = Result<Vec<u32>, (u32, u32)>;

/// Lends both so many words of work from now on, and asks both.
pub fn ask_both(name: &str, proved: &mut Proved, algebra: &mut Algebra, words: usize) -> Answer {
    for work in [&mut proved.work, &mut algebra.work] {
        work.clear();
        work.resize(words, 7);
    }
    let answer = proved.ask().map(<[u32]>::to_vec);
    assert!(algebra.ask().map(<[u32]>::to_vec) == answer, "{name}: the two algebras answer differently with {words} words of work");
    assert!(proved.list == algebra.reduction.list, "{name}: the translations differ");
    assert!(proved.work == algebra.work, "{name}: the two algebras differ in the work slice of {words} words");
    answer
}

/// The same with just the words that the algebra needed when it was asked last. With two words less, and with one, the answer is 10 where they are
/// needed.
pub fn ask_both_with_need(name: &str, proved: &mut Proved, algebra: &mut Algebra) -> Answer {
    let room = algebra.room();
    for words in [2, 1].into_iter().filter_map(|less| room.words().checked_sub(less)) {
        let refused = ask_both(name, proved, algebra, words).err();
        assert_eq!(refused, Some((10, room.place)), "{name}: {words} words of work, fewer than are needed");
    }
    ask_both(name, proved, algebra, room.words())
}
