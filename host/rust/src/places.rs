//! Where things stand in a book: see docs/RULES.md, section 2.

/// The words of a record.
pub const RECORD_WORDS: usize = 36;
/// The records of a book.
pub const BOOK_RECORDS: usize = 177;
/// The words of a book.
pub const BOOK_WORDS: usize = 6372;
/// The bytes of a book on file.
pub const BOOK_BYTES: usize = 25488;
/// The bytes of one record on a tape.
pub const TAPE_BYTES: usize = 8;
/// The entries of a list's index.
pub const INDEX_ENTRIES: usize = 8192;
/// The most tokens in a list.
pub const MOST_TOKENS: usize = 4096;
/// The customers, numbered from 0.
pub const CUSTOMERS: usize = 16;
/// The benches, numbered from 0.
pub const BENCHES: usize = 8;

/// The word of a record that is 1 if it is in use, else 0.
pub const IN_USE: usize = 0;
/// The word that is a record's amount.
pub const AMOUNT: usize = 1;
/// The word that counts a record's tokens.
pub const COUNT: usize = 2;
/// The word that counts a line's sales.
pub const SALES: usize = 3;
/// The word of the desk's view of a bench that is its handshake: 0 none, 1 the bench has authenticated, 2 then the desk too.
pub const HANDSHAKE: usize = 3;
/// The first word of a record's cells.
pub const CELLS: usize = 4;

/// The record of the desk.
pub const DESK: usize = 0;

/// The record of a customer's carnet.
pub const fn carnet(customer: usize) -> usize {
    1 + customer
}

/// The record of the desk's view of a customer.
pub const fn customer_view(customer: usize) -> usize {
    17 + customer
}

/// The record of the desk's view of a bench.
pub const fn bench_view(bench: usize) -> usize {
    33 + bench
}

/// The record of a bench's till.
pub const fn till(bench: usize) -> usize {
    41 + bench
}

/// The record of a bench's line for a customer.
pub const fn line(bench: usize, customer: usize) -> usize {
    49 + CUSTOMERS * bench + customer
}

/// The place in a book of a word of a record.
pub const fn word(record: usize, word: usize) -> usize {
    RECORD_WORDS * record + word
}
