//! Price, prune and quote.
//!
//! A span is the places from `first` to `last`, counted from 0. A board has an entry for each span and part: the spans go by their
//! last place, and of those that end at one place the short ones stand first. From one split of a span to the next the left half's
//! entries stand further on, by one span more each time, and the right half's one span further back.
use super::books::{Book, Side};
use super::scales::Scale;
use super::sheets::Sheet;
use super::{Refusal, at, at_mut};

/// How many entries a board has for so many places and parts.
pub fn entries(places: usize, parts: usize) -> usize {
    places * (places + 1) / 2 * parts
}

/// Where the entries of a span begin.
#[inline(always)]
fn start(first: usize, last: usize, parts: usize) -> usize {
    (last * (last + 1) / 2 + (last - first)) * parts
}

/// Lowers an entry to a cost that is less.
#[inline(always)]
fn lower<S: Scale>(board: &mut [S], index: usize, cost: S) {
    let entry = at_mut(board, index);
    if cost < *entry {
        *entry = cost;
    }
}

/// What a prune answers: the least cost of an open run, and how many strokes it closed.
#[derive(Clone, Copy, PartialEq, Eq, Debug)]
pub struct Pruned<S> {
    pub least: S,
    pub closed: usize,
}

/// What the run costs.
pub fn price<S: Scale>(book: &Book, run: &[u8], inside: &mut [S]) -> Result<S, Refusal> {
    if run.is_empty() || run.len() > 24 {
        return Err(Refusal::BadLength);
    }
    if !run.iter().all(u8::is_ascii_uppercase) {
        return Err(Refusal::NotAStroke);
    }
    if inside.len() < entries(run.len(), book.parts()) {
        return Err(Refusal::BoardTooShort);
    }
    let cost = fill_inside(book, run.len(), |place, stroke| at(run, place) == stroke, inside);
    if cost.is_barred() { Err(Refusal::NoRun) } else { Ok(cost) }
}

/// Closes every open stroke that no open run within the limit has at its place.
pub fn prune<S: Scale, H: Sheet>(
    sheet: &mut H,
    book: &Book,
    limit: S,
    inside: &mut [S],
    outside: &mut [S],
) -> Result<Pruned<S>, Refusal> {
    check(sheet, book, limit, inside.len().min(outside.len()))?;
    let least = least_within(sheet, book, limit, inside)?;
    fill_outside(book, sheet.places(), inside, outside);
    let mut closed = 0;
    for place in 0..sheet.places() {
        let within = cuts_within(book, outside, start(place, place, book.parts()), limit);
        for stroke in b'A'..=b'Z' {
            if !within[stroke as usize] {
                closed += usize::from(sheet.close(place, stroke));
            }
        }
    }
    Ok(Pruned { least, closed })
}

/// Writes the cheapest open run of the tie rule, and answers its cost.
pub fn quote<S: Scale, H: Sheet>(
    sheet: &H,
    book: &Book,
    limit: S,
    inside: &mut [S],
    choices: &mut [u32],
    run: &mut [u8],
) -> Result<S, Refusal> {
    check(sheet, book, limit, inside.len().min(choices.len()))?;
    let places = sheet.places();
    if run.len() < places {
        return Err(Refusal::RunTooShort);
    }
    let least = least_within(sheet, book, limit, inside)?;
    choose(book, sheet, inside, choices, 0, places - 1, 0);
    trace(book, choices, 0, places - 1, 0, run);
    Ok(least)
}

/// The checks that prune and quote begin with, where the shortest board has so many entries.
fn check<S: Scale, H: Sheet>(sheet: &H, book: &Book, limit: S, shortest: usize) -> Result<(), Refusal> {
    if sheet.places() == 0 {
        return Err(Refusal::BadLength);
    }
    if limit.is_barred() {
        return Err(Refusal::LimitBarred);
    }
    if shortest < entries(sheet.places(), book.parts()) {
        return Err(Refusal::BoardTooShort);
    }
    Ok(())
}

/// The least cost of an open run, if that is within the limit. The inside board is filled.
fn least_within<S: Scale, H: Sheet>(sheet: &H, book: &Book, limit: S, inside: &mut [S]) -> Result<S, Refusal> {
    let least = fill_inside(book, sheet.places(), |place, stroke| sheet.is_open(place, stroke), inside);
    if least <= limit { Ok(least) } else { Err(Refusal::NoRun) }
}

/// Fills the inside board: the least cost of each part over each span, of open strokes. Answers that of part 0 over all places.
#[inline(never)]
fn fill_inside<S: Scale>(book: &Book, places: usize, open: impl Fn(usize, u8) -> bool, inside: &mut [S]) -> S {
    let parts = book.parts();
    for last in 0..places {
        for first in (0..=last).rev() {
            let span = start(first, last, parts);
            for part in 0..parts {
                *at_mut(inside, span + part) = S::BARRED;
            }
            if first == last {
                for rule in book.rules() {
                    if let Side::Cut { stroke } = rule.side
                        && open(first, stroke)
                    {
                        lower(inside, span + rule.part as usize, S::price(rule.time, rule.grade));
                    }
                }
            }
            // in an `if` of its own: so it is quicker than in an `else`
            if first != last {
                for rule in book.rules() {
                    if let Side::Pair { left, right } = rule.side {
                        let mut left_index = start(first, first, parts) + left as usize;
                        let mut right_index = start(first + 1, last, parts) + right as usize;
                        let mut step = (first + 2) * parts;
                        let mut least = S::BARRED;
                        for _ in first..last {
                            let cost = at(inside, left_index).join(at(inside, right_index));
                            if cost < least {
                                least = cost;
                            }
                            left_index += step;
                            step += parts;
                            right_index -= parts;
                        }
                        lower(inside, span + rule.part as usize, S::price(rule.time, rule.grade).join(least));
                    }
                }
            }
        }
    }
    at(inside, start(0, places - 1, parts))
}

/// Fills the outside board from the inside one: the least cost of what stands around each part over each span.
#[inline(never)]
fn fill_outside<S: Scale>(book: &Book, places: usize, inside: &[S], outside: &mut [S]) {
    let parts = book.parts();
    for index in 0..entries(places, parts) {
        *at_mut(outside, index) = S::BARRED;
    }
    *at_mut(outside, start(0, places - 1, parts)) = S::FREE;
    for last in (1..places).rev() {
        for first in 0..last {
            let span = start(first, last, parts);
            for rule in book.rules() {
                if let Side::Pair { left, right } = rule.side {
                    let around = at(outside, span + rule.part as usize).join(S::price(rule.time, rule.grade));
                    let mut left_index = start(first, first, parts) + left as usize;
                    let mut right_index = start(first + 1, last, parts) + right as usize;
                    let mut step = (first + 2) * parts;
                    for _ in first..last {
                        lower(outside, left_index, around.join(at(inside, right_index)));
                        lower(outside, right_index, around.join(at(inside, left_index)));
                        left_index += step;
                        step += parts;
                        right_index -= parts;
                    }
                }
            }
        }
    }
}

/// Which strokes some rule cuts within the limit, with the least cost around it: for each byte. The entries of its place begin at
/// `around`.
fn cuts_within<S: Scale>(book: &Book, outside: &[S], around: usize, limit: S) -> [bool; 256] {
    let mut within = [false; 256];
    for rule in book.rules() {
        if let Side::Cut { stroke } = rule.side
            && at(outside, around + rule.part as usize).join(S::price(rule.time, rule.grade)) <= limit
        {
            within[stroke as usize] = true;
        }
    }
    within
}

/// Writes the choices of the derivation that the tie rule takes, from the inside board: for the part over the span, and then for
/// its two halves, the lowest split, and the lowest rule there, that attain the least cost. At most 24 spans are still to be chosen at
/// a time, since no two of them have a place in common.
fn choose<S: Scale, H: Sheet>(book: &Book, sheet: &H, inside: &[S], choices: &mut [u32], first: usize, last: usize, part: u8) {
    let mut owed = [(0, 0, 0); 24];
    owed[0] = (first, last, part);
    let mut count = 1;
    while count > 0 {
        count -= 1;
        let (first, last, part) = owed[count];
        let index = start(first, last, book.parts()) + part as usize;
        let least = at(inside, index);
        let choice = if first == last {
            first_cut(book, sheet, first, part, least)
        } else {
            first_pair(book, inside, first, last, part, least)
        };
        *at_mut(choices, index) = choice;
        if let Side::Pair { left, right } = at(book.rules(), choice as usize % 128).side {
            let after = first + choice as usize / 128;
            owed[count] = (first, after - 1, left);
            owed[count + 1] = (after, last, right);
            count += 2;
        }
    }
}

/// The number of the first cut rule of the part that attains its least cost at the place.
fn first_cut<S: Scale, H: Sheet>(book: &Book, sheet: &H, place: usize, part: u8, least: S) -> u32 {
    for (number, rule) in book.rules().iter().enumerate() {
        if let Side::Cut { stroke } = rule.side
            && rule.part == part
            && sheet.is_open(place, stroke)
            && S::price(rule.time, rule.grade) <= least
        {
            return number as u32;
        }
    }
    0
}

/// The first split, counted in places of the left half, and pair rule of the part that attain its least cost over the span.
fn first_pair<S: Scale>(book: &Book, inside: &[S], first: usize, last: usize, part: u8, least: S) -> u32 {
    let parts = book.parts();
    for split in first..last {
        let left_span = start(first, split, parts);
        let right_span = start(split + 1, last, parts);
        for (number, rule) in book.rules().iter().enumerate() {
            if let Side::Pair { left, right } = rule.side
                && rule.part == part
            {
                let left = at(inside, left_span + left as usize);
                let right = at(inside, right_span + right as usize);
                if S::price(rule.time, rule.grade).join(left.join(right)) <= least {
                    return ((split - first + 1) * 128 + number) as u32;
                }
            }
        }
    }
    0
}

/// Writes the strokes of a part over a span as the choices have them.
fn trace(book: &Book, choices: &[u32], first: usize, last: usize, part: u8, run: &mut [u8]) {
    let choice = at(choices, start(first, last, book.parts()) + part as usize) as usize;
    match at(book.rules(), choice % 128).side {
        Side::Cut { stroke } => *at_mut(run, first) = stroke,
        Side::Pair { left, right } => {
            let after = first + choice / 128;
            trace(book, choices, first, after - 1, left, run);
            trace(book, choices, after, last, right, run);
        }
    }
}
