//! How many pairs the work slice must take for a run: those of all registers together, and those that live at once. A register lives from its making
//! to its last use, which is found here from the list alone; a root lives to the end.

/// What a run takes of the work slice, in pairs.
#[derive(Clone, Copy, Default, PartialEq, Debug)]
pub struct Room {
    /// of all registers together
    pub all: usize,
    /// most that 10 is judged by: of the registers that live before an instruction, and of its own
    pub peak: usize,
    /// the first instruction where it is so many
    pub place: u32,
}

/// Whether an instruction works on register r: classes, labels, numbers and unused words are no registers.
fn uses(w: &[u32], r: usize) -> bool {
    let first = w[0] >= 2 && w[1] as usize == r;
    let second = matches!(w[0], 3..=6 | 10) && w[2] as usize == r;
    first || second
}

/// For each instruction whose register's size is known, the pairs that 10 is judged by.
fn judged(list: &[u32], roots: &[u32], sizes: &[usize]) -> Vec<usize> {
    let code: Vec<&[u32]> = list.chunks_exact(3).collect();
    let is_root = |r: usize| roots.contains(&(r as u32));
    let last_use = |r: usize| code.iter().rposition(|w| uses(w, r));
    // the last instruction before which each register lives
    let until: Vec<Option<usize>> = (0..sizes.len()).map(|r| if is_root(r) { Some(code.len()) } else { last_use(r) }).collect();
    let living = |i: usize| (0..i).filter(|&r| until[r] >= Some(i)).map(|r| sizes[r]).sum::<usize>();
    (0..sizes.len()).map(|i| living(i) + sizes[i]).collect()
}

impl Room {
    /// Of a list whose roots live to the end and whose first registers have so many pairs.
    pub fn of(list: &[u32], roots: &[u32], sizes: &[usize]) -> Self {
        let judged = judged(list, roots, sizes);
        let peak = judged.iter().copied().max().unwrap_or(0);
        let place = judged.iter().position(|&pairs| pairs == peak).unwrap_or(0) as u32;
        Room { all: sizes.iter().sum(), peak, place }
    }

    /// The words that suffice where no register is given up.
    pub fn words_of_all(&self) -> usize {
        2 * self.all
    }

    /// The words that are needed.
    pub fn words(&self) -> usize {
        2 * self.peak
    }
}
