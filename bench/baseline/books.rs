//! Books and the reader of their texts.
use super::Refusal;

/// What a rule makes its part of.
#[derive(Clone, Copy, PartialEq, Eq, Debug)]
pub enum Side {
    Cut { stroke: u8 },
    Pair { left: u8, right: u8 },
}

#[derive(Clone, Copy, PartialEq, Eq, Debug)]
pub struct Rule {
    pub part: u8,
    pub side: Side,
    pub time: u32,
    pub grade: u8,
}

/// How many parts there are, and 1 to 128 rules in the order of their numbers.
#[derive(Clone, PartialEq, Eq, Debug)]
pub struct Book {
    parts: u8,
    rules: Vec<Rule>,
}

/// A refused text, and the line at fault: counted from 1, 0 where the text is too long, one past the last where there is no rule.
#[derive(Clone, Copy, PartialEq, Eq, Debug)]
pub struct Fault {
    pub refusal: Refusal,
    pub line: usize,
}

impl Book {
    /// From 1 to 32; each part that a rule names is below.
    pub fn parts(&self) -> usize {
        self.parts as usize
    }

    pub fn rules(&self) -> &[Rule] {
        &self.rules
    }

    /// The book that a text states, or why it states none: the first line that is refused, for the first reason.
    pub fn read(text: &[u8]) -> Result<Book, Fault> {
        if text.len() > 8192 {
            return Err(Fault { refusal: Refusal::TextTooLong, line: 0 });
        }
        let mut parts = None;
        let mut rules = Vec::new();
        let mut lines = 0;
        for line in text.split_inclusive(|&byte| byte == b'\n') {
            lines += 1;
            if let Err(refusal) = take(line, &mut parts, &mut rules) {
                return Err(Fault { refusal, line: lines });
            }
        }
        match parts {
            Some(parts) if !rules.is_empty() => Ok(Book { parts, rules }),
            _ => Err(Fault { refusal: Refusal::NoRule, line: lines + 1 }),
        }
    }
}

/// Takes one more line, with the byte 10 that ends it.
fn take(line: &[u8], parts: &mut Option<u8>, rules: &mut Vec<Rule>) -> Result<(), Refusal> {
    let (kind, fields) = match line {
        [kind @ (b'k' | b'c' | b'p' | b'n'), fields @ .., b'\n'] => (*kind, fields),
        _ => return Err(Refusal::UnknownLine),
    };
    match kind {
        b'k' => {
            let [k] = numbers(fields)?;
            if parts.is_some() {
                return Err(Refusal::PartsMisplaced);
            }
            if k < 1 || k > 32 {
                return Err(Refusal::OutOfRange);
            }
            *parts = Some(k as u8);
        }
        b'c' => {
            let [part, stroke, time, grade] = words(fields)?;
            let (part, time, grade) = (number(part)?, number(time)?, number(grade)?);
            let &[stroke @ b'A'..=b'Z'] = stroke else { return Err(Refusal::MalformedField) };
            add(*parts, rules, part, Side::Cut { stroke }, &[part], time, grade)?;
        }
        b'p' => {
            let [part, left, right, time, grade] = numbers(fields)?;
            let side = Side::Pair { left: left as u8, right: right as u8 };
            add(*parts, rules, part, side, &[part, left, right], time, grade)?;
        }
        _ => {}
    }
    Ok(())
}

/// Takes a rule that names these parts.
fn add(
    parts: Option<u8>,
    rules: &mut Vec<Rule>,
    part: u32,
    side: Side,
    named: &[u32],
    time: u32,
    grade: u32,
) -> Result<(), Refusal> {
    let Some(k) = parts else { return Err(Refusal::PartsMisplaced) };
    if named.iter().any(|&part| part >= u32::from(k)) || time > 100_000 || grade > 254 {
        return Err(Refusal::OutOfRange);
    }
    if rules.len() == 128 {
        return Err(Refusal::TooManyRules);
    }
    rules.push(Rule { part: part as u8, side, time, grade: grade as u8 });
    Ok(())
}

/// The fields of a line, each after one space, if there are so many.
fn words<const N: usize>(fields: &[u8]) -> Result<[&[u8]; N], Refusal> {
    let mut found = fields.split(|&byte| byte == b' ');
    // nothing stands between the letter and the first space
    if found.next() != Some(b"") {
        return Err(Refusal::MalformedField);
    }
    let mut words: [&[u8]; N] = [b""; N];
    for word in &mut words {
        *word = found.next().ok_or(Refusal::MalformedField)?;
    }
    match found.next() {
        Some(_) => Err(Refusal::MalformedField),
        None => Ok(words),
    }
}

/// The same where each is a number.
fn numbers<const N: usize>(fields: &[u8]) -> Result<[u32; N], Refusal> {
    let mut numbers = [0; N];
    for (slot, word) in numbers.iter_mut().zip(words::<N>(fields)?) {
        *slot = number(word)?;
    }
    Ok(numbers)
}

/// The number of one to six digits, without a leading zero unless it is 0.
fn number(word: &[u8]) -> Result<u32, Refusal> {
    let well_formed = match word {
        [b'0'] => true,
        [b'1'..=b'9', rest @ ..] => rest.len() < 6 && rest.iter().all(u8::is_ascii_digit),
        _ => false,
    };
    if !well_formed {
        return Err(Refusal::MalformedField);
    }
    Ok(word.iter().fold(0, |sum, &digit| 10 * sum + u32::from(digit - b'0')))
}
