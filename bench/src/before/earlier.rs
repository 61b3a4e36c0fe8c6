//! The query of an earlier library, whose call has another name here.

use matcher::Refusal;

#[link(name = "before_matcher", kind = "static")]
extern "C" {
    fn before_matcher_query(
        feed: *const u32,
        feed_len: usize,
        drawing: *const u32,
        drawing_len: usize,
        list: *mut u32,
        list_len: usize,
        work: *mut u32,
        work_len: usize,
        rows: *mut u32,
        rows_len: usize,
        place: *mut u32,
        row_words: *mut usize,
    ) -> u32;
}

pub fn query<'r>(feed: &[u32], drawing: &[u32], list: &mut [u32], work: &mut [u32], rows: &'r mut [u32]) -> Result<&'r [u32], Refusal> {
    let (mut place, mut words) = (0, 0);
    let (f, d) = (feed.as_ptr(), drawing.as_ptr());
    let (l, w, r) = (list.as_mut_ptr(), work.as_mut_ptr(), rows.as_mut_ptr());
    // SAFETY: slices with their lengths, of which those that are written are lent as `&mut`; a place and a count of our own
    let number = unsafe {
        before_matcher_query(f, feed.len(), d, drawing.len(), l, list.len(), w, work.len(), r, rows.len(), &mut place, &mut words)
    };
    match number {
        0 => Ok(&rows[..words]),
        _ => Err(Refusal { number, place }),
    }
}
