//! The run of document 02's E5 read a second time: which registers live, when 10 and 11 fall, and what the work slice then holds. Who lives is asked
//! anew at each instruction, of the whole rest of the list.

use crate::model::{result, Feed, Table, Verdict, ACCEPTED};

/// The registers that an instruction uses: its register operands, so no class and no label, no number of kinds 14 and 15, no unused word.
pub fn operands(w: &[u32]) -> &[u32] {
    match w[0] {
        0 | 1 => &[],
        3..=6 | 10 => &w[1..],
        _ => &w[1..2],
    }
}

/// The registers that live before instruction i, "this instruction's operands included": those that live to the end (the roots), and those that this
/// instruction or a later one uses.
pub fn living(roots: &[u32], list: &[u32], i: usize) -> Vec<usize> {
    let mut wanted = vec![false; i];
    for &r in list[3 * i..].chunks(3).flat_map(operands).chain(roots) {
        if let Some(register) = wanted.get_mut(r as usize) {
            *register = true;
        }
    }
    (0..i).filter(|&r| wanted[r]).collect()
}

/// "in a bare instruction list only the last register does" live to the end.
pub fn last_register(list: &[u32]) -> Vec<u32> {
    vec![list.len() as u32 / 3 - 1]
}

/// These registers in order, then zeros.
pub fn padded(tables: &[&Table], words: usize) -> Vec<u32> {
    let mut work: Vec<u32> = tables.iter().flat_map(|table| table.iter()).flat_map(|&(u, v)| [u, v]).collect();
    work.resize(words, 0);
    work
}

/// A list with what lives to its end, and its registers.
#[derive(Default)]
pub struct Trace {
    pub list: Vec<u32>,
    pub roots: Vec<u32>,
    /// up to and with the first that is over 65,536 pairs, or has no room in the most words that are asked for
    pub tables: Vec<Table>,
    /// at each instruction "the pairs of registers still living, this instruction's operands included, together with its own result"
    pub pairs: Vec<usize>,
}

impl Trace {
    pub fn new(feed: &Feed, list: &[u32], roots: Vec<u32>, most_words: usize) -> Trace {
        let mut trace = Trace { list: list.to_vec(), roots, ..Trace::default() };
        for (i, w) in list.chunks(3).enumerate() {
            let table = result(feed, &trace.tables, w, 65_536);
            let (size, standing) = (table.len(), trace.living(i));
            trace.tables.push(table);
            trace.pairs.push(size + standing.iter().map(|&r| trace.tables[r].len()).sum::<usize>());
            if size > 65_536 || trace.pairs[i] > most_words / 2 {
                break;
            }
        }
        trace
    }

    /// Of a bare list, with any number of words.
    pub fn bare(feed: &Feed, list: &[u32]) -> Trace {
        Trace::new(feed, list, last_register(list), usize::MAX)
    }

    /// The registers that live before instruction i, or after the last.
    pub fn living(&self, i: usize) -> Vec<usize> {
        living(&self.roots, &self.list, i)
    }

    /// The verdict of a run with so many words: "10 now falls just when the pairs of registers still living, this instruction's operands included,
    /// together with its own result exceed the slice"; "there 11 comes before 10".
    pub fn verdict(&self, words: usize) -> Verdict {
        for (i, (table, &pairs)) in (0..).zip(self.tables.iter().zip(&self.pairs)) {
            if table.len() > 65_536 {
                return (11, i);
            }
            if pairs > words / 2 {
                return (10, i);
            }
        }
        ACCEPTED
    }

    /// How many instructions a run with so many words gets past.
    pub fn finished(&self, words: usize) -> usize {
        match self.verdict(words) {
            ACCEPTED => self.tables.len(),
            (_, place) => place as usize,
        }
    }

    /// Verdict and work slice: "The slice afterwards holds the living registers in order, then zeros; after a stop, those living before the stopped
    /// instruction."
    pub fn end(&self, words: usize) -> (Verdict, Vec<u32>) {
        let standing: Vec<&Table> = self.living(self.finished(words)).into_iter().map(|r| &self.tables[r]).collect();
        (self.verdict(words), padded(&standing, words))
    }

    /// The fewest words that get past all instructions which so many words get past.
    pub fn peak(&self, words: usize) -> usize {
        2 * self.pairs[..self.finished(words)].iter().max().copied().unwrap_or(0)
    }
}
