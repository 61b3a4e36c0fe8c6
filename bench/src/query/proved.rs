//! The proved query.

use crate::turns::{Matcher, Rows};
use matcher::Refusal;

/// The call: feed, drawing, and the slices that are lent for the list, the registers and the rows.
pub type Query = for<'r> fn(&[u32], &[u32], &mut [u32], &mut [u32], &'r mut [u32]) -> Result<&'r [u32], Refusal>;

/// A feed and a drawing, with the slices that are lent.
pub struct Proved<'f> {
    pub query: Query,
    feed: &'f [u32],
    drawing: &'f [u32],
    pub list: Vec<u32>,
    pub work: Vec<u32>,
    rows: Vec<u32>,
}

impl<'f> Proved<'f> {
    /// Lends so many words of each slice.
    pub fn new(feed: &'f [u32], drawing: &'f [u32], list: usize, work: usize, rows: usize) -> Self {
        Proved { query: matcher::query, feed, drawing, list: vec![0; list], work: vec![0; work], rows: vec![0; rows] }
    }
}

impl Matcher for Proved<'_> {
    fn ask(&mut self) -> Rows<'_> {
        let Proved { query, feed, drawing, list, work, rows } = self;
        query(feed, drawing, list, work, rows).map_err(|refusal| (refusal.number, refusal.place))
    }
}
