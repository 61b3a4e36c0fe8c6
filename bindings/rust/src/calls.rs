//! The calls of `include/matcher.h`, as the library exports them.

extern "C" {
    pub fn matcher_check_feed(feed: *const u32, feed_len: usize, place: *mut u32) -> u32;

    pub fn matcher_check_drawing(feed: *const u32, feed_len: usize, drawing: *const u32, drawing_len: usize, place: *mut u32) -> u32;

    pub fn matcher_translate(
        feed: *const u32,
        feed_len: usize,
        drawing: *const u32,
        drawing_len: usize,
        list: *mut u32,
        list_len: usize,
        place: *mut u32,
        instructions: *mut usize,
    ) -> u32;

    pub fn matcher_run(
        feed: *const u32,
        feed_len: usize,
        list: *const u32,
        list_len: usize,
        work: *mut u32,
        work_len: usize,
        place: *mut u32,
    ) -> u32;

    pub fn matcher_query(
        feed: *const u32,
        feed_len: usize,
        drawing: *const u32,
        drawing_len: usize,
        list: *mut u32,
        list_len: usize,
        work: *mut u32,
        work_len: usize,
        rows: *mut u32,
        rows_len: usize,
        place: *mut u32,
        row_words: *mut usize,
    ) -> u32;

    pub fn matcher_sheet_query(sheet: *const u8, sheet_len: usize, listing: *mut u8, listing_len: usize) -> usize;

    pub fn matcher_sheet_pages(
        sheet: *const u8,
        sheet_len: usize,
        pages: *mut u8,
        pages_len: usize,
        place: *mut u32,
        length: *mut usize,
    ) -> u32;
}
