//! Compares the controller's entry with the planner in plain Rust (`baseline.rs`), over random books and runs, from a seed: good
//! books of many shapes, and texts with every kind of damage.
//!
//! Usage: differential SEED SECONDS. The same seed gives the same cases in the same order; how many there are depends on the time.
//! Ends with status 1 at the first difference, and where some kind of answer did not occur.
mod baseline;
mod random;
mod grammars;

use baseline::Refusal;
use baseline::books::Book;
use baseline::planner::{entries, price};
use baseline::scales::{Scale, Time};
use random::Random;
use grammars::Grammar;
use std::process::exit;
use std::time::{Duration, Instant};

// The entry that examples/controller/waichuro.h declares.
unsafe extern "C" {
    fn waichuro_price(book: *const u8, book_length: usize, run: *const u8, run_length: usize) -> u64;
}

/// What the proved planner answers the controller.
fn answer_of_entry(book: &[u8], run: &[u8]) -> u64 {
    // SAFETY: the pointers are to so many bytes, and a slice's pointer is not null where it is empty either.
    unsafe { waichuro_price(book.as_ptr(), book.len(), run.as_ptr(), run.len()) }
}

/// What the planner in plain Rust answers.
fn answer_of_baseline(book: &[u8], run: &[u8], inside: &mut [Time]) -> u64 {
    let answer = match Book::read(book) {
        Err(fault) => Err(fault.refusal),
        Ok(_) if run.len() > 16 => Err(Refusal::TooManyPlaces),
        Ok(book) => price(&book, run, inside),
    };
    match answer {
        Ok(time) => u64::from(time.0),
        Err(refusal) => u64::from(refusal.number()) << 32,
    }
}

/// The refusals that the entry can give.
const REFUSALS: [u64; 11] = [2, 6, 10, 11, 12, 13, 14, 15, 16, 17, 19];

fn main() {
    let words: Vec<u64> = std::env::args().skip(1).map(|word| word.parse().expect("a number")).collect();
    let &[seed, seconds] = &words[..] else { panic!("usage: differential SEED SECONDS") };
    let mut inside = vec![Time::BARRED; entries(24, 32)];
    let mut counts = [0u64; 32];
    let end = Instant::now() + Duration::from_secs(seconds);
    let mut case = 0;
    while Instant::now() < end {
        let mut random = Random::of_case(seed, case);
        let (book, run) = book_and_run(&mut random);
        let wanted = answer_of_baseline(&book, &run, &mut inside);
        let said = answer_of_entry(&book, &run);
        if said != wanted {
            println!("case {case} of seed {seed}: the entry says {}, the baseline {}", shown(said), shown(wanted));
            println!("run {}\nbook\n{}", run.escape_ascii(), book.escape_ascii().to_string().replace("\\n", "\\n\n"));
            exit(1);
        }
        counts[(wanted >> 32) as usize] += 1;
        case += 1;
    }
    println!("priced      {:>9}", counts[0]);
    for refusal in REFUSALS {
        println!("refused {refusal:>2}  {:>9}", counts[refusal as usize]);
    }
    println!("comparisons {case:>9}, no difference");
    if counts[0] == 0 || REFUSALS.iter().any(|&refusal| counts[refusal as usize] == 0) {
        println!("some kind of answer did not occur");
        exit(1);
    }
}

/// An answer in words.
fn shown(answer: u64) -> String {
    if answer >> 32 == 0 { format!("time {answer}") } else { format!("refused {}", answer >> 32) }
}

/// A book's text and a run.
fn book_and_run(random: &mut Random) -> (Vec<u8>, Vec<u8>) {
    let grammar = Grammar::random(random);
    let run = random_run(random, &grammar);
    let mut text = grammar.text();
    if random.one_in(3) {
        add_notes(random, &mut text);
    }
    if random.below(100) < 45 {
        damage(random, &mut text);
        while random.one_in(4) {
            damage(random, &mut text);
        }
    }
    (text, run)
}

/// A run: mostly a lawful one by the book, or one of up to 26 bytes that may be no strokes.
fn random_run(random: &mut Random, grammar: &Grammar) -> Vec<u8> {
    let makes = grammar.makes(17);
    let lawful: Vec<usize> = (1..18).filter(|&len| makes[len][0]).collect();
    let strokes = grammar.strokes();
    let mut run = Vec::new();
    if !lawful.is_empty() && random.below(100) < 80 {
        let len = random.pick(&lawful);
        grammar.derive(random, &makes, 0, len, &mut run);
    } else {
        for _ in 0..random.below(27) {
            run.push(if strokes.is_empty() { b'A' } else { random.pick(&strokes) });
        }
    }
    if random.one_in(8) && !run.is_empty() {
        let place = random.below(run.len());
        run[place] = b'A' + random.below(26) as u8;
    }
    if random.one_in(8) && !run.is_empty() {
        let place = random.below(run.len());
        run[place] = random.pick(&[b'a', b'z', b'@', b'[', b'0', b' ', b'.', b'\n', 0, 127, 128, 255]);
    }
    if random.one_in(20) {
        run.clear();
    }
    run
}

/// The lines of a text, each with the byte 10 that ends it; the last one may have none.
fn lines(text: &[u8]) -> Vec<Vec<u8>> {
    text.split_inclusive(|&byte| byte == b'\n').map(<[u8]>::to_vec).collect()
}

/// Any byte but 10.
fn word_byte(random: &mut Random) -> u8 {
    match random.next() as u8 {
        b'\n' => b' ',
        byte => byte,
    }
}

/// A note's line of so many bytes in all.
fn note(random: &mut Random, length: usize) -> Vec<u8> {
    let mut line = vec![b'n'];
    line.extend((2..length).map(|_| word_byte(random)));
    line.push(b'\n');
    line
}

/// Puts a line somewhere among those of the text.
fn put_in(random: &mut Random, text: &mut Vec<u8>, line: Vec<u8>) {
    let mut all = lines(text);
    let at = random.below(all.len() + 1);
    all.insert(at, line);
    *text = all.concat();
}

/// Notes of any bytes, anywhere, also before the k line.
fn add_notes(random: &mut Random, text: &mut Vec<u8>) {
    for _ in 0..1 + random.below(3) {
        let length = 2 + random.below(40);
        let line = note(random, length);
        put_in(random, text, line);
    }
}

/// Numbers at the ends of the ranges and just past them.
const NUMBERS: [&str; 13] = ["0", "1", "31", "32", "33", "253", "254", "255", "256", "99999", "100000", "100001", "999999"];

/// Fields that are no numbers, and some that are strokes.
const WORDS: [&str; 29] = [
    "", "00", "01", "007", "000000", "0000001", "1000000", "4294967295", "4294967296", "-1", "+1", "1.5", "1e3", "0x1", "A", "Z",
    "a", "AB", "@", "[", "\t", "1\t", " ", "1 ", "\r", "1\r", "\0", "\u{ff}", "p",
];

/// Bytes that a text is made of, and ones close by.
const BYTES: &[u8] = b"0123456789 \nkcpntgboAZ\t\r\0+-/:@[x\xff";

/// Damages the text in one way; some ways leave it good.
fn damage(random: &mut Random, text: &mut Vec<u8>) {
    match random.below(20) {
        // a byte changed, put in or taken out
        0 | 1 | 2 => {
            for _ in 0..1 + random.below(3) {
                let at = random.below(text.len() + 1);
                let byte = if random.one_in(3) { random.next() as u8 } else { random.pick(BYTES) };
                match random.below(3) {
                    0 if at < text.len() => text[at] = byte,
                    1 if at < text.len() => _ = text.remove(at),
                    _ => text.insert(at, byte),
                }
            }
        }
        // cut off anywhere, or just before the last line's end
        3 => {
            let keep = random.below(text.len() + 1);
            text.truncate(keep);
        }
        4 => _ = text.pop(),
        // a field of a line changed, put in or taken out
        5 | 6 | 7 | 8 => change_field(random, text),
        // two lines joined; one cut in two; an empty line
        9 => {
            let mut all = lines(text);
            let at = random.below(all.len().max(1));
            if let Some(line) = all.get_mut(at) {
                line.pop();
            }
            *text = all.concat();
        }
        10 => {
            let at = random.below(text.len() + 1);
            text.insert(at, b'\n');
        }
        // a space too many, or another blank in its place
        11 => {
            let spaces: Vec<usize> = (0..text.len()).filter(|&at| matches!(text[at], b' ' | b'\n')).collect();
            if !spaces.is_empty() {
                let at = random.pick(&spaces);
                if random.one_in(3) { text[at] = random.pick(b"\t\r\x0b\x00_,") } else { text.insert(at, b' ') }
            }
        }
        // a k line in another place, a second one, or none
        12 | 13 => {
            let mut all = lines(text);
            let found = all.iter().position(|line| line.starts_with(b"k"));
            if let Some(at) = found
                && random.one_in(2)
            {
                let line = all.remove(at);
                *text = all.concat();
                if !random.one_in(4) {
                    put_in(random, text, line);
                }
            } else {
                let line = format!("k {}\n", random.pick(&[0, 1, 4, 32, 33])).into_bytes();
                put_in(random, text, line);
            }
        }
        // a line of an order, of no kind, or with fields missing
        14 => {
            let line = random.pick(&[
                "t 50\n", "g 2\n", "b 45 2\n", "o JS\n", "x 1\n", "K 4\n", " k 4\n", "\n", "k\n", "c\n", "p\n", "k \n",
                "c 0 S 1\n", "p 0 0 0 0\n", "c 0 S 1 1 \n", "p 0 0 0 0 0 0\n", "\r\n", "\0\n", "nn\n", "n\n",
            ]);
            put_in(random, text, line.as_bytes().to_vec());
        }
        // 127 to 130 rules, the last of which may be out of range or malformed
        15 | 16 => {
            let rules = lines(text).iter().filter(|line| line.starts_with(b"c") || line.starts_with(b"p")).count();
            for _ in rules..random.pick(&[127, 128, 129, 129, 130]) {
                text.extend_from_slice(b"c 0 Q 100000 254\n");
            }
            if random.one_in(4) {
                text.extend_from_slice(random.pick(&[b"c 0 Q 100001 0\n".as_slice(), b"c 32 Q 1 0\n", b"c 0 Q 1 255\n", b"c 00 Q 1 0\n"]));
            }
        }
        // about 8,192 bytes, or far more
        17 => {
            let wanted = random.pick(&[8_190, 8_191, 8_192, 8_192, 8_193, 8_193, 8_194, 8_300, 20_000]);
            if text.len() + 2 <= wanted {
                let line = note(random, wanted - text.len());
                put_in(random, text, line);
            }
        }
        // no rule
        18 => {
            let lasting = random.pick(&[b"".as_slice(), b"k", b"n", b"kn"]);
            *text = lines(text).into_iter().filter(|line| lasting.contains(&line[0])).flatten().collect();
        }
        // lines twice, gone or in another order
        _ => {
            let mut all = lines(text);
            if !all.is_empty() {
                let (a, b) = (random.below(all.len()), random.below(all.len()));
                match random.below(3) {
                    0 => all.swap(a, b),
                    1 => _ = all.remove(a),
                    _ => all.insert(b, all[a].clone()),
                }
            }
            *text = all.concat();
        }
    }
}

/// Changes a field of one line, the letter too, or adds or takes one.
fn change_field(random: &mut Random, text: &mut Vec<u8>) {
    let mut all = lines(text);
    if all.is_empty() {
        return;
    }
    let at = random.below(all.len());
    let ended = all[at].strip_suffix(b"\n").unwrap_or(&all[at]);
    let mut fields: Vec<Vec<u8>> = ended.split(|&byte| byte == b' ').map(<[u8]>::to_vec).collect();
    let field = random.below(fields.len());
    let word = if random.one_in(2) { random.pick(&NUMBERS) } else { random.pick(&WORDS) }.as_bytes().to_vec();
    match random.below(6) {
        0 => fields.insert(field, word),
        1 => _ = fields.remove(field),
        _ => fields[field] = word,
    }
    all[at] = fields.join(&b' ');
    all[at].push(b'\n');
    *text = all.concat();
}
