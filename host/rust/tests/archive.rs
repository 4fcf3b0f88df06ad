//! The crate on the built archive. What the functions answer is proved and tested elsewhere: this is about what the crate
//! adds, that each call reaches the function meant, with its arguments in their order.
use gingerstall::{places::*, Entry, Form, Reading, Refused};

const TOKENS: [u32; 14] = [21, 22, 23, 24, 25, 26, 27, 28, 29, 30, 31, 32, 33, 34];

fn entry(kind: u8, bench: u8, customer: u8, amount: u32) -> Entry {
    Entry { kind, bench, customer, zero: 0, amount }
}

/// Customer 5 buys six tokens and spends two and then one at bench 2.
fn day() -> [Entry; 6] {
    [entry(1, 0, 5, 9), entry(2, 2, 0, 0), entry(3, 2, 5, 0), entry(4, 0, 5, 6), entry(6, 2, 5, 2), entry(6, 2, 5, 1)]
}

fn empty() -> Vec<u32> {
    let mut book = vec![7; BOOK_WORDS];
    gingerstall::make_empty(&mut book).unwrap();
    book
}

fn stepped(form: Form) -> Vec<u32> {
    let mut book = empty();
    for step in day() {
        gingerstall::step(form, &TOKENS, &mut book, step).unwrap();
    }
    book
}

fn number<T>(answer: Result<T, Refused>) -> u8 {
    answer.map_or_else(Refused::number, |_| 0)
}

#[test]
fn places_are_the_librarys() {
    let book = stepped(Form::Plain);
    let record = |at: usize, n| book[word(at, IN_USE)..word(at, CELLS) + n].to_vec();
    assert_eq!(record(DESK, 0), [1, 6, 0, 0]);
    assert_eq!(record(carnet(5), 3), [1, 0, 3, 0, 24, 25, 26]);
    assert_eq!(record(customer_view(5), 2), [1, 3, 6, 0, 21, 22]);
    assert_eq!((record(bench_view(2), 0), record(till(2), 0)), (vec![1, 0, 0, 0], vec![1, 0, 0, 0]));
    assert_eq!(record(line(2, 5), 3), [1, 0, 3, 2, 23, 21, 22]);
    assert_eq!((book[word(line(2, 5), SALES)], book[word(line(2, 5), COUNT)], book[word(DESK, AMOUNT)]), (2, 3, 6));
    assert_eq!((BOOK_RECORDS * RECORD_WORDS, 4 * BOOK_WORDS), (BOOK_WORDS, BOOK_BYTES));
    assert_eq!(line(BENCHES - 1, CUSTOMERS - 1), BOOK_RECORDS - 1);
    let list: Vec<u32> = (0..=MOST_TOKENS as u32).collect();
    assert!(gingerstall::is_sound(Form::Plain, &list[1..], &empty()));
    assert!(!gingerstall::is_sound(Form::Plain, &list, &empty()));
}

#[test]
fn forms_are_told_apart() {
    let (plain, slips) = (stepped(Form::Plain), stepped(Form::Slip));
    assert_eq!(slips[word(line(2, 5), CELLS)..][..4], [23, 1, 21, 2]);
    for (form, right, wrong) in [(Form::Plain, &plain, &slips), (Form::Slip, &slips, &plain)] {
        assert!(gingerstall::is_sound(form, &TOKENS, right));
        assert!(!gingerstall::is_sound(form, &TOKENS, wrong));
    }
    let mut opened = vec![7; BOOK_WORDS];
    assert_eq!(gingerstall::open_into(&TOKENS, &slips, &mut opened), Ok(()));
    assert_eq!(opened, plain);
    assert_eq!(number(gingerstall::open_into(&TOKENS, &plain, &mut opened)), 1);
}

/// Token 21 begins at entry 2768 and token 22 at 2051: their hashes modulo 8,192.
#[test]
fn an_index_is_built_and_used() {
    let mut index = vec![99; INDEX_ENTRIES + 1];
    assert_eq!(number(gingerstall::build_index(&TOKENS, &mut index)), 1);
    assert_eq!(number(gingerstall::build_index(&[7, 7], &mut index[1..])), 1);
    assert_eq!(index, vec![99; INDEX_ENTRIES + 1]);
    index.pop();
    assert!(!gingerstall::is_index(&TOKENS, &index));
    assert_eq!(gingerstall::build_index(&TOKENS, &mut index), Ok(()));
    assert_eq!((index[2768], index[2051], index.iter().filter(|entry| **entry != 0).count()), (1, 2, 14));
    assert!(gingerstall::is_index(&TOKENS, &index) && !gingerstall::is_index(&TOKENS[1..], &index));

    let mut found = [99; 4];
    assert_eq!(number(gingerstall::look_up(&TOKENS, &index, &[34, 21, 20], &mut found)), 1);
    assert_eq!(found, [99; 4]);
    assert_eq!(gingerstall::look_up(&TOKENS, &index, &[34, 21, 20, 23], &mut found), Ok(()));
    assert_eq!(found, [13, 0, 14, 2]);

    let (slips, mut opened) = (stepped(Form::Slip), vec![7; BOOK_WORDS]);
    assert_eq!(number(gingerstall::open_with_index(&TOKENS, &index[1..], &slips, &mut opened)), 1);
    assert_eq!(opened, vec![7; BOOK_WORDS]);
    assert_eq!(gingerstall::open_with_index(&TOKENS, &index, &slips, &mut opened), Ok(()));
    assert_eq!(opened, stepped(Form::Plain));
    index.swap(2768, 2051);
    assert_eq!(number(gingerstall::open_with_index(&TOKENS, &index, &slips, &mut opened)), 1);
}

#[test]
fn a_run_is_its_steps() {
    let mut tape = [0; 6 * TAPE_BYTES];
    for (part, step) in tape.chunks_mut(TAPE_BYTES).zip(day()) {
        assert_eq!(gingerstall::write(step, part), Ok(()));
    }
    for form in [Form::Plain, Form::Slip] {
        let (mut book, mut verdicts, mut seconds) = (empty(), [99; 6], [99; 6]);
        assert_eq!(gingerstall::run(form, &TOKENS, &mut book, &tape, &mut verdicts, &mut seconds), Ok(()));
        assert_eq!((&book, verdicts, seconds), (&stepped(form), [0; 6], [0; 6]));
        (verdicts, seconds) = ([98; 6], [99; 6]);
        assert_eq!(number(gingerstall::run(form, &TOKENS, &mut book, &tape, &mut verdicts[1..], &mut seconds)), 16);
        assert_eq!(number(gingerstall::run(form, &TOKENS, &mut book, &tape, &mut verdicts, &mut seconds[1..])), 16);
        assert_eq!(number(gingerstall::run(form, &[1, 1], &mut book, &tape, &mut verdicts, &mut seconds[1..])), 1);
        assert_eq!((book, verdicts, seconds), (stepped(form), [98; 6], [99; 6]));
    }
}

/// Bench 2 is stocked with two tokens, and it and the desk authenticate.
fn handshake() -> [Entry; 3] {
    [entry(5, 2, 0, 2), entry(7, 2, 0, 0), entry(8, 2, 0, 0)]
}

#[test]
fn a_clear_uses_up_a_handshake() {
    let clear = entry(9, 2, 5, 0);
    for form in [Form::Plain, Form::Slip] {
        let mut book = stepped(form);
        let mut then = |step| {
            let answer = number(gingerstall::step(form, &TOKENS, &mut book, step));
            (answer, book[word(bench_view(2), HANDSHAKE)])
        };
        assert_eq!(then(clear), (17, 0));
        assert_eq!(handshake().map(&mut then), [(0, 0), (0, 1), (0, 2)]);
        assert_eq!((then(clear), then(clear)), ((0, 0), (17, 0)));
    }
}

#[test]
fn a_dead_token_is_told_and_dropped() {
    let clear = entry(9, 2, 5, 0);
    let mut tape = [0; TAPE_BYTES];
    gingerstall::write(clear, &mut tape).unwrap();
    for form in [Form::Plain, Form::Slip] {
        let mut book = stepped(form);
        gingerstall::step(form, &TOKENS, &mut book, entry(4, 0, 5, 0)).unwrap();
        gingerstall::step(form, &TOKENS, &mut book, entry(6, 2, 5, 2)).unwrap();
        for step in handshake() {
            gingerstall::step(form, &TOKENS, &mut book, step).unwrap();
        }
        let refused = gingerstall::step(form, &TOKENS, &mut book, clear).unwrap_err();
        assert_eq!((refused.number(), refused.dead_token()), (15, Some(2)));
        assert_eq!(refused.to_string(), "refused 15, token 2 is dead");
        let (mut verdicts, mut seconds) = ([98], [99]);
        assert_eq!(gingerstall::run(form, &TOKENS, &mut book, &tape, &mut verdicts, &mut seconds), Ok(()));
        assert_eq!((verdicts, seconds), ([15], [2]));
        assert_eq!(gingerstall::step(form, &TOKENS, &mut book, entry(11, 2, 5, 0)), Ok(3));
        assert_eq!(book[word(bench_view(2), AMOUNT)], 2);
    }
}

#[test]
fn tapes_are_read_and_written() {
    let mut part = [9; TAPE_BYTES];
    let sale = entry(6, 2, 5, 0x01020304);
    assert_eq!(gingerstall::write(sale, &mut part), Ok(()));
    assert_eq!(part, [6, 2, 5, 0, 4, 3, 2, 1]);
    assert_eq!(gingerstall::read(&part, 0), Reading { answer: Ok(()), entry: sale, next: 8 });
    let past = gingerstall::read(&part, 1);
    assert_eq!((number(past.answer), past.entry, past.next), (16, Entry::default(), 1));
    assert_eq!(number(gingerstall::read(&[6, 8, 5, 0, 1, 0, 0, 0], 0).answer), 3);
    assert_eq!(number(gingerstall::write(Entry { zero: 1, ..sale }, &mut part)), 2);
    assert_eq!(number(gingerstall::write(sale, &mut part[1..])), 16);
}

#[test]
fn books_go_to_bytes_and_back() {
    let (book, mut bytes, mut back) = (stepped(Form::Plain), vec![0; BOOK_BYTES], vec![0; BOOK_WORDS]);
    assert_eq!(gingerstall::write_book(&book, &mut bytes), Ok(()));
    assert_eq!(gingerstall::read_book(&bytes, &mut back), Ok(()));
    assert_eq!(back, book);
    assert_eq!(number(gingerstall::write_book(&book, &mut bytes[1..])), 1);
    assert_eq!(number(gingerstall::read_book(&bytes[1..], &mut back)), 1);
}

#[test]
fn nothing_at_all_is_taken() {
    assert_eq!(number(gingerstall::make_empty(&mut [])), 1);
    assert!(!gingerstall::is_sound(Form::Slip, &[], &[]));
    assert_eq!(number(gingerstall::run(Form::Plain, &[], &mut empty(), &[], &mut [], &mut [])), 0);
    assert_eq!(number(gingerstall::read(&[], usize::MAX).answer), 16);
    let refused = gingerstall::step(Form::Slip, &[], &mut [], Entry::default()).unwrap_err();
    assert_eq!((refused.number(), refused.dead_token(), refused.to_string().as_str()), (1, None, "refused 1"));
}
