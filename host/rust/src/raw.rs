//! The functions as include/gingerstall.h declares them. They ask for pointers that are valid for their counts, none of
//! them null, and none to be written that overlaps another. Slices are all that, an empty one too.
extern "C" {
    pub fn gs_empty(book: *mut u32, words: usize) -> u8;
    pub fn gs_book_to_bytes(book: *const u32, words: usize, bytes: *mut u8, n: usize) -> u8;
    pub fn gs_book_from_bytes(bytes: *const u8, n: usize, book: *mut u32, words: usize) -> u8;
    pub fn gs_read(tape: *const u8, bytes: usize, at: usize, fields: *mut u32, count: usize) -> u8;
    pub fn gs_read_next(tape: *const u8, bytes: usize, at: usize) -> usize;
    pub fn gs_write(kind: u8, bench: u8, customer: u8, zero: u8, amount: u32, part: *mut u8, n: usize) -> u8;
    pub fn gs_slip_open(
        tokens: *const u32, n: usize, slips: *const u32, words: usize, plain: *mut u32, plain_words: usize,
    ) -> u8;
    pub fn gs_index_build(tokens: *const u32, n: usize, index: *mut u16, entries: usize) -> u8;
    pub fn gs_index_check(tokens: *const u32, n: usize, index: *const u16, entries: usize) -> u8;
    pub fn gs_index_places(
        tokens: *const u32, n: usize, index: *const u16, entries: usize, numbers: *const u32, count: usize,
        places: *mut u32, place_count: usize,
    ) -> u8;
    pub fn gs_slip_open_indexed(
        tokens: *const u32, n: usize, index: *const u16, entries: usize, slips: *const u32, words: usize, plain: *mut u32,
        plain_words: usize,
    ) -> u8;
    pub fn gs_sound(tokens: *const u32, n: usize, book: *const u32, words: usize) -> u8;
    pub fn gs_slip_sound(tokens: *const u32, n: usize, book: *const u32, words: usize) -> u8;
    pub fn gs_step(
        tokens: *const u32, n: usize, book: *mut u32, words: usize, kind: u8, bench: u8, customer: u8, zero: u8, amount: u32,
    ) -> u16;
    pub fn gs_slip_step(
        tokens: *const u32, n: usize, book: *mut u32, words: usize, kind: u8, bench: u8, customer: u8, zero: u8, amount: u32,
    ) -> u16;
    pub fn gs_run(
        tokens: *const u32, n: usize, book: *mut u32, words: usize, tape: *const u8, bytes: usize, verdicts: *mut u8,
        count: usize, seconds: *mut u8, second_count: usize,
    ) -> u8;
    pub fn gs_slip_run(
        tokens: *const u32, n: usize, book: *mut u32, words: usize, tape: *const u8, bytes: usize, verdicts: *mut u8,
        count: usize, seconds: *mut u8, second_count: usize,
    ) -> u8;
}
