//! How long a register stands in the work slice: the last use of each, and what is given up after an instruction.

/// The instruction that uses each register last, by one pass over an accepted list: its own where none does, the end of the list for the roots.
pub fn find_last_uses(last: &mut [usize], list: &[u32], roots: impl Iterator<Item = u32>) {
    for (i, w) in list.chunks_exact(3).enumerate() {
        last[i] = i;
        match w[0] {
            0 | 1 => {}
            3 | 4 | 5 | 6 | 10 => {
                last[w[1] as usize] = i;
                last[w[2] as usize] = i;
            }
            _ => last[w[1] as usize] = i,
        }
    }
    roots.for_each(|r| last[r as usize] = list.len() / 3);
}

/// After instruction i: the registers that it used last give up their pairs, and what remains is moved together in one pass, each pair at most once.
/// Only its operands and its own register can be given up. Register r stands at the pairs ends[r] to ends[r + 1], of which there are none then.
pub fn retire(work: &mut [u32], ends: &mut [usize], last: &[usize], w: &[u32], i: usize) {
    let dead = |r: &usize| *r <= i && last[*r] == i;
    let Some(first) = [w[1] as usize, w[2] as usize, i].into_iter().filter(dead).min() else { return };
    let (mut gap, mut from) = (0, ends[first]);
    for r in first..=i {
        let (start, end) = (ends[r] + gap, ends[r + 1]);
        if last[r] == i {
            move_down(work, from, start, gap);
            gap += end - start;
            from = end;
        }
        ends[r + 1] = end - gap;
    }
    move_down(work, from, ends[i + 1] + gap, gap);
}

/// Moves the pairs `from` to `end` down by so many.
fn move_down(work: &mut [u32], from: usize, end: usize, gap: usize) {
    if gap > 0 {
        work.copy_within(2 * from..2 * end, 2 * (from - gap));
    }
}
