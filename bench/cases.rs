//! Writes the cases that are measured: a folder each with a book, panels and the number of rounds.
//!
//! Usage: cases FOLDER. The cases are the same each time.
//! - `dense` is a book whose parts all make runs of every length, and `sparse` one most of whose parts make none; both have 32
//!   parts and 128 rules.
//! - `open` is a panel with every stroke open at every place, and `few` one with some three at each.
//! - Then the places, 6, 12 or 24, and the scale. The limit is one at which a prune closes more than what no rule cuts.
//! - `refused` is `dense` and `open` with a limit below the cheapest run.
//! - `day` is ninety panels of 3 to 16 places by a book of a workshop's size.
//! - `random` are panels of any places by books of any shape, to compare answers and not times.
mod baseline;
mod random;
mod grammars;

use baseline::books::Book;
use baseline::planner::{entries, prune};
use baseline::scales::{Grade, Scale, Time, TimeGrade};
use baseline::sheets::Card;
use random::Random;
use grammars::{Grammar, Rule, Side};
use std::path::Path;
use std::{env, fs, io};

/// A rule at a random price.
fn rule(random: &mut Random, part: usize, side: Side) -> Rule {
    Rule { part, side, time: 1 + random.below(2_000), grade: 1 + random.below(254) }
}

/// A cut rule for each part, and three pair rules for each: every part makes runs of every length.
fn dense(random: &mut Random) -> Grammar {
    let mut rules = Vec::new();
    for part in 0..32 {
        rules.push(rule(random, part, Side::Cut(b'A' + part as u8 % 26)));
    }
    for at in 0..96 {
        let side = Side::Pair(random.below(32), random.below(32));
        rules.push(rule(random, at % 32, side));
    }
    Grammar { parts: 32, rules }
}

/// Part 0 makes runs of every length, with part 1 for single strokes; of the other thirty only the last four make any run, of one
/// stroke.
fn sparse(random: &mut Random) -> Grammar {
    let mut rules = Vec::new();
    for (part, strokes) in [(0, b"AB"), (1, b"CD"), (28, b"EF"), (29, b"GH"), (30, b"IJ"), (31, b"KL")] {
        for stroke in strokes {
            rules.push(rule(random, part, Side::Cut(*stroke)));
        }
    }
    for (left, right) in [(0, 1), (1, 0), (1, 1)] {
        rules.push(rule(random, 0, Side::Pair(left, right)));
    }
    for at in 0..113 {
        let side = Side::Pair(2 + random.below(30), 2 + random.below(30));
        rules.push(rule(random, 2 + at % 26, side));
    }
    Grammar { parts: 32, rules }
}

/// A book of twelve parts and forty rules, as a workshop may have.
fn workshop(random: &mut Random) -> Grammar {
    let mut rules = Vec::new();
    for part in 0..12 {
        rules.push(rule(random, part, Side::Cut(b"SMJKRTBFGHDP"[part])));
    }
    for _ in 0..8 {
        let (part, stroke) = (random.below(12), b'A' + random.below(26) as u8);
        rules.push(rule(random, part, Side::Cut(stroke)));
    }
    for at in 0..20 {
        let part = if at < 4 { 0 } else { random.below(12) };
        let side = Side::Pair(random.below(12), random.below(12));
        rules.push(rule(random, part, side));
    }
    Grammar { parts: 12, rules }
}

/// A panel of some places with every stroke open.
fn open_rows(places: usize) -> Vec<u8> {
    b"ABCDEFGHIJKLMNOPQRSTUVWXYZ\n".repeat(places)
}

/// A panel with a lawful run and some two strokes more open at each place.
fn few_rows(random: &mut Random, grammar: &Grammar, places: usize) -> Vec<u8> {
    let mut run = Vec::new();
    grammar.derive(random, &grammar.makes(places), 0, places, &mut run);
    let strokes = grammar.strokes();
    let mut rows = b"..........................\n".repeat(places);
    for (row, stroke) in rows.chunks_mut(27).zip(run) {
        for stroke in [stroke, random.pick(&strokes), random.pick(&strokes)] {
            row[usize::from(stroke - b'A')] = stroke;
        }
    }
    rows
}

/// What a prune answers within the limit: the least cost, and how many strokes it closes; none where it is refused.
fn pruned<S: Scale>(book: &Book, rows: &[u8], limit: S) -> Option<(S, usize)> {
    let mut boards = [vec![S::BARRED; entries(24, 32)], vec![S::BARRED; entries(24, 32)]];
    let [inside, outside] = &mut boards;
    let mut rows = rows.to_vec();
    prune(&mut Card(&mut rows), book, limit, inside, outside).ok().map(|pruned| (pruned.least, pruned.closed))
}

/// The highest of the limits, which rise, at which a prune still closes more than at the last of them; the first that is accepted
/// where there is none such.
fn closing<S: Scale>(book: &Book, rows: &[u8], limits: impl DoubleEndedIterator<Item = S> + Clone) -> S {
    let closed = |limit: S| pruned(book, rows, limit).map(|(_, closed)| closed);
    let at_the_last = limits.clone().next_back().and_then(closed);
    let mut accepted = limits.filter(|&limit| closed(limit).is_some());
    let first = accepted.next().expect("a limit that is accepted");
    let more = accepted.take_while(|&limit| closed(limit) > at_the_last).last();
    more.unwrap_or(first)
}

/// The three scales, as a limit names them.
const SCALES: [&str; 3] = ["t", "g", "b"];

/// A panel with a limit on the scale at which a prune closes something; or, to be refused, with the last limit below that of the
/// cheapest run.
fn panel(book: &Book, rows: &[u8], scale: &str, refused: bool) -> Vec<u8> {
    let limit = match scale {
        "t" => {
            let least = pruned(book, rows, Time(999_999)).expect("a run").0;
            let limits = (0..40).map(|step| Time(least.0 + least.0 * step / 40));
            let limit = if refused { Time(least.0 - 1) } else { closing(book, rows, limits) };
            format!("t {limit}")
        }
        "g" => {
            let least = pruned(book, rows, Grade(254)).expect("a run").0;
            let limit = if refused { Grade(least.0 - 1) } else { closing(book, rows, (least.0..=254).map(Grade)) };
            format!("g {limit}")
        }
        _ => {
            let least = pruned(book, rows, TimeGrade::new(999_999, 254)).expect("a run").0;
            let limits = (0..40).map(|step| TimeGrade::new(least.time() + least.time() * step / 40, 254));
            let limit = if refused { TimeGrade::new(least.time(), least.grade() - 1) } else { closing(book, rows, limits) };
            format!("b {limit}")
        }
    };
    [limit.as_bytes(), b"\n", rows, b"\n"].concat()
}

/// Panels of any places and limits by a book of any shape.
fn random_panels(random: &mut Random, grammar: &Grammar) -> Vec<u8> {
    let book = Book::read(&grammar.text()).expect("a good book");
    let makes = grammar.makes(24);
    let lawful: Vec<usize> = (1..25).filter(|&places| makes[places][0]).collect();
    let strokes = grammar.strokes();
    let mut panels = Vec::new();
    for _ in 0..40 {
        let mut run = Vec::new();
        let mut places = 1 + random.below(24);
        if !lawful.is_empty() && !random.one_in(10) {
            places = random.pick(&lawful);
            grammar.derive(random, &makes, 0, places, &mut run);
        }
        let mut rows = b"..........................\n".repeat(places);
        for (at, row) in rows.chunks_mut(27).enumerate() {
            let others = (0..random.below(4)).map(|_| if strokes.is_empty() { b'Q' } else { random.pick(&strokes) });
            for stroke in others.chain(run.get(at).copied()) {
                row[usize::from(stroke - b'A')] = stroke;
            }
        }
        let least = pruned(&book, &rows, TimeGrade::new(999_999, 254)).map_or(TimeGrade::FREE, |(least, _)| least);
        let time =
            (least.time() as usize + random.below(10 + least.time() as usize / 4)).saturating_sub(random.below(3)).min(999_999);
        let grade = (usize::from(least.grade()) + random.below(5)).saturating_sub(random.below(5)).min(254);
        let limit = match random.below(3) {
            0 => format!("t {time}\n"),
            1 => format!("g {grade}\n"),
            _ => format!("b {time} {grade}\n"),
        };
        panels.extend([limit.as_bytes(), &rows, b"\n"].concat());
    }
    panels
}

/// Writes a case.
fn write(folder: &Path, name: &str, book: &[u8], panels: &[u8], rounds: usize) -> io::Result<()> {
    let folder = folder.join(name);
    fs::create_dir_all(&folder)?;
    fs::write(folder.join("book.txt"), book)?;
    fs::write(folder.join("panels.txt"), panels)?;
    fs::write(folder.join("rounds"), format!("{rounds}\n"))
}

fn main() -> io::Result<()> {
    let folder = env::args().nth(1).expect("usage: cases FOLDER");
    let folder = Path::new(&folder);
    let mut random = Random::of_case(1, 0);
    for (name, grammar) in [("dense", dense(&mut random)), ("sparse", sparse(&mut random))] {
        let text = grammar.text();
        let book = Book::read(&text).expect("a good book");
        for (places, rounds) in [(6, 400), (12, 60), (24, 10)] {
            for (shape, rows) in [("open", open_rows(places)), ("few", few_rows(&mut random, &grammar, places))] {
                for scale in SCALES {
                    let panel = panel(&book, &rows, scale, false);
                    write(folder, &format!("{name}-{shape}-{places}-{scale}"), &text, &panel, rounds)?;
                }
            }
            if name == "dense" {
                for scale in SCALES {
                    let panel = panel(&book, &open_rows(places), scale, true);
                    write(folder, &format!("refused-open-{places}-{scale}"), &text, &panel, rounds)?;
                }
            }
        }
    }
    let grammar = workshop(&mut random);
    let text = grammar.text();
    let book = Book::read(&text).expect("a good book");
    let makes = grammar.makes(16);
    let mut panels = Vec::new();
    for at in 0..90 {
        let lengths: Vec<usize> = (3..17).filter(|&length| makes[length][0]).collect();
        let places = random.pick(&lengths);
        let rows = few_rows(&mut random, &grammar, places);
        let refused = random.one_in(10);
        panels.extend(panel(&book, &rows, SCALES[at % 3], refused));
    }
    write(folder, "day", &text, &panels, 100)?;
    for at in 1..41 {
        let grammar = Grammar::random(&mut random);
        let panels = random_panels(&mut random, &grammar);
        write(folder, &format!("random-{at}"), &grammar.text(), &panels, 1)?;
    }
    Ok(())
}
