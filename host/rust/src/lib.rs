//! The clearing book of a print-finishing hall. The code behind these functions is proved to do what docs/RULES.md says,
//! whatever it is lent: any words, bytes and lengths. A refusal leaves all that was lent as it was.
//!
//! ```
//! use gingerstall::{places, Entry, Form};
//!
//! let tokens = [21, 22, 23];
//! let mut book = [0; places::BOOK_WORDS];
//! gingerstall::make_empty(&mut book)?;
//! let joins = Entry { kind: 1, customer: 3, amount: 9, ..Entry::default() };
//! gingerstall::step(Form::Plain, &tokens, &mut book, joins)?;
//! assert_eq!(book[places::word(places::customer_view(3), places::AMOUNT)], 9);
//!
//! let again = gingerstall::step(Form::Plain, &tokens, &mut book, joins);
//! assert_eq!(again.unwrap_err().number(), 4);
//! # Ok::<(), gingerstall::Refused>(())
//! ```
//!
//! What is lent to be written can't overlap anything else:
//!
//! ```compile_fail,E0502
//! let mut book = [0; gingerstall::places::BOOK_WORDS];
//! gingerstall::open_into(&[], &book, &mut book);
//! ```
#![deny(missing_docs)]
use std::{error, fmt, num::NonZeroU8};

pub mod places;
mod raw;

/// The two forms of a book: plain, which writes down every token of a sale, and slip, one slip for each sale. An empty
/// book is one of either form.
#[derive(Clone, Copy, Debug, PartialEq, Eq)]
pub enum Form {
    /// The plain book.
    Plain,
    /// The slip book.
    Slip,
}

/// A record of a tape by its five fields.
#[derive(Clone, Copy, Debug, Default, PartialEq, Eq)]
pub struct Entry {
    /// Which of the eleven kinds, from 1 on.
    pub kind: u8,
    /// The bench, or 0 where the kind uses none.
    pub bench: u8,
    /// The customer, or 0 where the kind uses none.
    pub customer: u8,
    /// The spare byte, which has to be 0.
    pub zero: u8,
    /// The amount, or 0 where the kind uses none.
    pub amount: u32,
}

/// Why something was refused: a number from 1 to 17, and with a 15 which token is dead.
#[derive(Clone, Copy, Debug, PartialEq, Eq)]
pub struct Refused {
    number: NonZeroU8,
    second: u8,
}

impl Refused {
    /// The number, as the table of verdicts in docs/RULES.md has it.
    pub fn number(self) -> u8 {
        self.number.get()
    }

    /// With a 15 the place, counted from 0 in the tokens that wait in the line, of the first that isn't in the desk's view
    /// of the customer. In a slip book that is counted in the tokens that the line's slips open to.
    pub fn dead_token(self) -> Option<usize> {
        (self.number() == 15).then_some(self.second.into())
    }
}

impl fmt::Display for Refused {
    fn fmt(&self, to: &mut fmt::Formatter<'_>) -> fmt::Result {
        write!(to, "refused {}", self.number)?;
        self.dead_token().map_or(Ok(()), |place| write!(to, ", token {place} is dead"))
    }
}

impl error::Error for Refused {}

/// A step's answer has its second number in the high byte.
fn stepped(answer: u16) -> Result<usize, Refused> {
    let [number, second] = answer.to_le_bytes();
    NonZeroU8::new(number).map_or(Ok(second.into()), |number| Err(Refused { number, second }))
}

/// All others are one number.
fn answered(answer: u8) -> Result<(), Refused> {
    stepped(answer.into()).map(|_| ())
}

/// Makes the book empty; 1 if it hasn't [`places::BOOK_WORDS`].
pub fn make_empty(book: &mut [u32]) -> Result<(), Refused> {
    answered(unsafe { raw::gs_empty(book.as_mut_ptr(), book.len()) })
}

/// Whether the book is sound over the list, and the list good.
pub fn is_sound(form: Form, tokens: &[u32], book: &[u32]) -> bool {
    let asked = match form {
        Form::Plain => raw::gs_sound,
        Form::Slip => raw::gs_slip_sound,
    };
    unsafe { asked(tokens.as_ptr(), tokens.len(), book.as_ptr(), book.len()) == 0 }
}

/// Does one step and answers how many dead tokens it has dropped, which only kind 11, clear what lives, does; or refuses it
/// with 1 to 15 or 17, handshake missing; [`Refused::dead_token`] goes with a 15. It asks first whether the book is sound,
/// and refuses with 1 if it isn't: for many steps that is dear, and [`run`] asks once.
pub fn step(form: Form, tokens: &[u32], book: &mut [u32], entry: Entry) -> Result<usize, Refused> {
    let done = match form {
        Form::Plain => raw::gs_step,
        Form::Slip => raw::gs_slip_step,
    };
    let (list, n, words) = (tokens.as_ptr(), tokens.len(), book.len());
    let Entry { kind, bench, customer, zero, amount } = entry;
    stepped(unsafe { done(list, n, book.as_mut_ptr(), words, kind, bench, customer, zero, amount) })
}

/// Does the steps of a tape. Refuses with 1 if the book isn't sound over the list, and with 16 unless the tape has
/// [`places::TAPE_BYTES`] for each verdict and the seconds are as many as these. Otherwise `verdicts[i]` becomes what record
/// i got, 0 where it was granted, and `seconds[i]` its second number: the place of the dead token with a 15, as
/// [`Refused::dead_token`] counts it, how many dead tokens a granted step has dropped, as [`step`] answers it, and 0 with
/// every other verdict.
pub fn run(
    form: Form, tokens: &[u32], book: &mut [u32], tape: &[u8], verdicts: &mut [u8], seconds: &mut [u8],
) -> Result<(), Refused> {
    let done = match form {
        Form::Plain => raw::gs_run,
        Form::Slip => raw::gs_slip_run,
    };
    let (list, n, words, steps, bytes) = (tokens.as_ptr(), tokens.len(), book.len(), tape.as_ptr(), tape.len());
    let (first, count, second, as_many) = (verdicts.as_mut_ptr(), verdicts.len(), seconds.as_mut_ptr(), seconds.len());
    answered(unsafe { done(list, n, book.as_mut_ptr(), words, steps, bytes, first, count, second, as_many) })
}

/// Opens a slip book into a plain one, whatever that held; 1 if the slip book isn't sound over the list or the plain one
/// hasn't [`places::BOOK_WORDS`].
pub fn open_into(tokens: &[u32], slips: &[u32], plain: &mut [u32]) -> Result<(), Refused> {
    let (list, n, words, room) = (tokens.as_ptr(), tokens.len(), slips.len(), plain.len());
    answered(unsafe { raw::gs_slip_open(list, n, slips.as_ptr(), words, plain.as_mut_ptr(), room) })
}

/// Makes the index of a list; 1 if the list isn't good or the index hasn't [`places::INDEX_ENTRIES`].
pub fn build_index(tokens: &[u32], index: &mut [u16]) -> Result<(), Refused> {
    answered(unsafe { raw::gs_index_build(tokens.as_ptr(), tokens.len(), index.as_mut_ptr(), index.len()) })
}

/// Whether the list is good and this is its index, entry for entry.
pub fn is_index(tokens: &[u32], index: &[u16]) -> bool {
    unsafe { raw::gs_index_check(tokens.as_ptr(), tokens.len(), index.as_ptr(), index.len()) == 0 }
}

/// Looks numbers up: `found[i]` becomes the place of `numbers[i]` in the list, or the list's length if it is no token. Refuses
/// with 1 unless [`is_index`] holds and there are as many places as numbers. The index is checked once, so look up many.
pub fn look_up(tokens: &[u32], index: &[u16], numbers: &[u32], found: &mut [u32]) -> Result<(), Refused> {
    let (list, n, entries, count) = (tokens.as_ptr(), tokens.len(), index.len(), numbers.len());
    let (asked, to, room) = (numbers.as_ptr(), found.as_mut_ptr(), found.len());
    answered(unsafe { raw::gs_index_places(list, n, index.as_ptr(), entries, asked, count, to, room) })
}

/// As [`open_into`], but each slip is looked up with the index; refused with 1 also where [`is_index`] doesn't hold.
pub fn open_with_index(tokens: &[u32], index: &[u16], slips: &[u32], plain: &mut [u32]) -> Result<(), Refused> {
    let (list, n, entries, words, room) = (tokens.as_ptr(), tokens.len(), index.len(), slips.len(), plain.len());
    let (from, to) = (slips.as_ptr(), plain.as_mut_ptr());
    answered(unsafe { raw::gs_slip_open_indexed(list, n, index.as_ptr(), entries, from, words, to, room) })
}

/// Writes a book of either form as bytes; 1 if a length is wrong. Soundness isn't asked.
pub fn write_book(book: &[u32], bytes: &mut [u8]) -> Result<(), Refused> {
    answered(unsafe { raw::gs_book_to_bytes(book.as_ptr(), book.len(), bytes.as_mut_ptr(), bytes.len()) })
}

/// The way back; 1 if a length is wrong. Soundness isn't asked: the first step or run on the book does that.
pub fn read_book(bytes: &[u8], book: &mut [u32]) -> Result<(), Refused> {
    answered(unsafe { raw::gs_book_from_bytes(bytes.as_ptr(), bytes.len(), book.as_mut_ptr(), book.len()) })
}

/// What a reader finds on a tape.
#[derive(Clone, Copy, Debug, PartialEq, Eq)]
pub struct Reading {
    /// 2 or 3 where a step in a sound book would be refused so, 16 with fewer bytes left than a record has.
    pub answer: Result<(), Refused>,
    /// The record as it stands; all zeros after 16.
    pub entry: Entry,
    /// Where the reader stands then: behind the record, or still there after 16.
    pub next: usize,
}

/// Reads the record at a place of the tape, which may be any number.
pub fn read(tape: &[u8], at: usize) -> Reading {
    let mut fields = [0; 5];
    let number = unsafe { raw::gs_read(tape.as_ptr(), tape.len(), at, fields.as_mut_ptr(), fields.len()) };
    let [kind, bench, customer, zero] = [0, 1, 2, 3].map(|i| fields[i] as u8); // bytes of the tape
    Reading {
        answer: answered(number),
        entry: Entry { kind, bench, customer, zero, amount: fields[4] },
        next: unsafe { raw::gs_read_next(tape.as_ptr(), tape.len(), at) },
    }
}

/// Writes a record to a part of a tape. Refuses with 2 or 3 where reading it would, then with 16 unless the part has
/// [`places::TAPE_BYTES`].
pub fn write(entry: Entry, part: &mut [u8]) -> Result<(), Refused> {
    let Entry { kind, bench, customer, zero, amount } = entry;
    answered(unsafe { raw::gs_write(kind, bench, customer, zero, amount, part.as_mut_ptr(), part.len()) })
}
