//! What crates/bench does, with the planner in plain Rust: reads `book.txt` and `panels.txt` in the folder where it runs, and how
//! many rounds on standard input; prunes a fresh copy of each panel and quotes the panel, so many times each. Prints the results on
//! standard output, and on standard error the nanoseconds of the quickest prune of each panel, together, and of the quickest quote.
mod baseline;

use baseline::Refusal;
use baseline::books::Book;
use baseline::planner::{Pruned, entries, prune, quote};
use baseline::scales::{Grade, Scale, Time, TimeGrade};
use baseline::sheets::{Card, Sheet};
use std::fs;
use std::hint::black_box;
use std::io::{self, Read, Write};
use std::time::{Duration, Instant};

/// The working tables of one scale, for the largest sheet and book.
struct Boards<S> {
    inside: Vec<S>,
    outside: Vec<S>,
    choices: Vec<u32>,
}

impl<S: Scale> Boards<S> {
    fn new() -> Boards<S> {
        let room = entries(24, 32);
        Boards { inside: vec![S::BARRED; room], outside: vec![S::BARRED; room], choices: vec![0; room] }
    }
}

/// How long the quickest prunes of all panels took, and the quickest quotes.
#[derive(Default)]
struct Spent {
    prune: Duration,
    quote: Duration,
}

/// Prunes a fresh copy of the rows, so many times. Answers as the last prune, and how long the quickest took.
fn prune_rounds<S: Scale>(
    book: &Book,
    rows: &[u8],
    copy: &mut [u8],
    limit: S,
    rounds: u32,
    boards: &mut Boards<S>,
) -> (Result<Pruned<S>, Refusal>, Duration) {
    let mut pruned = Err(Refusal::NoRun);
    let mut quickest = Duration::MAX;
    for _ in 0..rounds {
        copy.copy_from_slice(rows);
        let mut sheet = Card(copy);
        let start = Instant::now();
        pruned = black_box(prune(&mut sheet, book, limit, &mut boards.inside, &mut boards.outside));
        quickest = quickest.min(start.elapsed());
    }
    (pruned, quickest)
}

/// Quotes the sheet, so many times. Answers as the last quote, and how long the quickest took.
fn quote_rounds<S: Scale, H: Sheet>(
    book: &Book,
    sheet: &H,
    limit: S,
    rounds: u32,
    boards: &mut Boards<S>,
    run: &mut [u8],
) -> (Result<S, Refusal>, Duration) {
    let mut quoted = Err(Refusal::NoRun);
    let mut quickest = Duration::MAX;
    for _ in 0..rounds {
        let start = Instant::now();
        quoted = black_box(quote(sheet, book, limit, &mut boards.inside, &mut boards.choices, run));
        quickest = quickest.min(start.elapsed());
    }
    (quoted, quickest)
}

/// Measures one panel, and writes what came of it.
fn measure<S: Scale>(
    book: &Book,
    rows: &mut [u8],
    limit: S,
    rounds: u32,
    boards: &mut Boards<S>,
    spent: &mut Spent,
    out: &mut Vec<u8>,
) -> io::Result<()> {
    let mut copy = rows.to_vec();
    let (pruned, took) = prune_rounds(book, rows, &mut copy, limit, rounds, boards);
    spent.prune += took;
    let sheet = Card(rows);
    let mut run = vec![b'.'; sheet.places()];
    let (quoted, took) = quote_rounds(book, &sheet, limit, rounds, boards, &mut run);
    spent.quote += took;
    match (pruned, quoted) {
        (Ok(pruned), Ok(cost)) => {
            write!(out, "least {}\nstruck {}\ncost {cost}\nrun ", pruned.least, pruned.closed)?;
            out.extend_from_slice(&run);
            out.push(b'\n');
            out.extend_from_slice(&copy);
        }
        (Err(refusal), _) | (_, Err(refusal)) => writeln!(out, "refused {}", refusal.number())?,
    }
    out.push(b'\n');
    Ok(())
}

fn main() -> io::Result<()> {
    let book = Book::read(&fs::read("book.txt")?).expect("a good book");
    let panels = fs::read_to_string("panels.txt")?;
    let mut rounds = String::new();
    io::stdin().read_to_string(&mut rounds)?;
    let rounds = rounds.trim().parse().expect("how many rounds");
    let (mut times, mut grades, mut pairs) = (Boards::<Time>::new(), Boards::<Grade>::new(), Boards::<TimeGrade>::new());
    let mut spent = Spent::default();
    let mut out = Vec::new();
    for panel in panels.split_terminator("\n\n") {
        let (limit, rows) = panel.split_once('\n').expect("a limit and rows");
        let mut rows = rows.as_bytes().to_vec();
        rows.push(b'\n');
        let words: Vec<&str> = limit.split(' ').collect();
        let number = |at: usize| words[at].parse::<u32>().expect("a number");
        match words[0] {
            "t" => measure(&book, &mut rows, Time(number(1)), rounds, &mut times, &mut spent, &mut out)?,
            "g" => measure(&book, &mut rows, Grade(number(1) as u8), rounds, &mut grades, &mut spent, &mut out)?,
            _ => {
                let limit = TimeGrade::new(number(1), number(2) as u8);
                measure(&book, &mut rows, limit, rounds, &mut pairs, &mut spent, &mut out)?;
            }
        }
    }
    io::stdout().write_all(&out)?;
    eprintln!("prune {}\nquote {}", spent.prune.as_nanos(), spent.quote.as_nanos());
    Ok(())
}
