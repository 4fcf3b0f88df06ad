//! A day with the book: loads a token list and a book, applies a tape, saves the book, and prints what was refused and
//! the balance of each bench that has joined. With a 15 it prints which token is dead, counted from 0 in the line's tokens,
//! and where dead tokens were dropped how many.
//!
//!     day tokens.rec book.rec tape.rec
//!     day book.rec                            makes an empty book, if there is no file of that name
use gingerstall::{places, Form};
use std::{env, error, fs, io, io::Write, path::Path, process};

type Done<T> = Result<T, Box<dyn error::Error>>;

fn load(path: &str) -> Done<Vec<u8>> {
    fs::read(path).map_err(|why| format!("{path}: can't be read: {why}").into())
}

/// The new file is on the disk before it takes the old one's name: a crash leaves the old one whole, or the new one.
fn replace(path: &str, bytes: &[u8]) -> io::Result<()> {
    let beside = format!("{path}.new");
    let mut file = fs::File::create(&beside)?;
    file.write_all(bytes)?;
    file.sync_all()?;
    fs::rename(&beside, path)?;
    let folder = Path::new(path).parent().filter(|folder| *folder != Path::new(""));
    fs::File::open(folder.unwrap_or(Path::new(".")))?.sync_all()
}

fn save(path: &str, book: &[u32]) -> Done<()> {
    let mut bytes = [0; places::BOOK_BYTES];
    gingerstall::write_book(book, &mut bytes)?;
    replace(path, &bytes).map_err(|why| format!("{path}: can't be saved: {why}").into())
}

fn make_empty(path: &str) -> Done<()> {
    if fs::symlink_metadata(path).is_ok() {
        return Err(format!("{path}: is there already").into());
    }
    let mut book = [0; places::BOOK_WORDS];
    gingerstall::make_empty(&mut book)?;
    save(path, &book)
}

fn token(bytes: &[u8]) -> u32 {
    u32::from_le_bytes([bytes[0], bytes[1], bytes[2], bytes[3]])
}

fn run(list: &str, filed: &str, tape: &str) -> Done<()> {
    let (listed, tape) = (load(list)?, load(tape)?);
    if listed.len() % 4 != 0 {
        return Err(format!("{list}: is cut within a token").into());
    }
    let tokens: Vec<_> = listed.chunks(4).map(token).collect();
    let mut book = [0; places::BOOK_WORDS];
    let mut verdicts = vec![0; tape.len() / places::TAPE_BYTES];
    let mut seconds = verdicts.clone();
    gingerstall::read_book(&load(filed)?, &mut book)?;
    gingerstall::run(Form::Plain, &tokens, &mut book, &tape, &mut verdicts, &mut seconds)?;
    save(filed, &book)?;
    for (step, (verdict, second)) in verdicts.iter().zip(&seconds).enumerate() {
        match (verdict, second) {
            (0, 0) => {}
            (0, _) => println!("step {step}: granted, {second} dropped"),
            (15, _) => println!("step {step}: refused 15, token {second} is dead"),
            _ => println!("step {step}: refused {verdict}"),
        }
    }
    let word = |bench, word| book[places::word(places::bench_view(bench), word)];
    for bench in (0..places::BENCHES).filter(|bench| word(*bench, places::IN_USE) == 1) {
        println!("bench {bench}: {}", word(bench, places::AMOUNT));
    }
    Ok(())
}

fn main() {
    let words: Vec<_> = env::args().skip(1).collect();
    let done = match &words[..] {
        [book] => make_empty(book),
        [list, book, tape] => run(list, book, tape),
        _ => Err("day takes tokens.rec book.rec tape.rec, or book.rec alone".into()),
    };
    let Err(why) = done else { return };
    if let Some(refused) = why.downcast_ref::<gingerstall::Refused>() {
        println!("{refused}");
        process::exit(refused.number().into());
    }
    eprintln!("{why}");
    process::exit(2);
}
