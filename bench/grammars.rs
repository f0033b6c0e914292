//! Good books before they are written, and lawful runs by them.
#![allow(dead_code)] // each program uses the part that it needs

use crate::random::Random;

#[derive(Clone, Copy)]
pub struct Rule {
    pub part: usize,
    pub side: Side,
    pub time: usize,
    pub grade: usize,
}

#[derive(Clone, Copy)]
pub enum Side {
    Cut(u8),
    Pair(usize, usize),
}

pub struct Grammar {
    pub parts: usize,
    pub rules: Vec<Rule>,
}

impl Grammar {
    /// A good book of any shape.
    pub fn random(random: &mut Random) -> Grammar {
        let parts = match random.below(4) {
            0 => 1 + random.below(3),
            1 => 1 + random.below(8),
            2 => 1 + random.below(32),
            _ => 32,
        };
        let count = match random.below(6) {
            0 => 1 + random.below(3),
            1 | 2 => 1 + random.below(16),
            3 => 1 + random.below(128),
            4 => 127 + random.below(2),
            _ => 128,
        };
        let kinds = random.pick(&[1, 2, 4, 26]);
        let first = random.below(27 - kinds);
        let strokes: Vec<u8> = (b'A'..=b'Z').skip(first).take(kinds).collect();
        let cuts = random.pick(&[20, 40, 60]);
        let times = random.below(5);
        let one_time = random.below(100_001);
        let rules = (0..count)
            .map(|_| Rule {
                part: if random.one_in(4) { 0 } else { random.below(parts) },
                side: if random.below(100) < cuts {
                    Side::Cut(random.pick(&strokes))
                } else {
                    Side::Pair(random.below(parts), random.below(parts))
                },
                time: match times {
                    0 => 0,
                    1 => random.below(3),
                    2 => 100_000 - random.below(3),
                    3 => one_time,
                    _ => random.below(100_001),
                },
                grade: random.below(255),
            })
            .collect();
        Grammar { parts, rules }
    }

    /// The text of the book.
    pub fn text(&self) -> Vec<u8> {
        let mut text = format!("k {}\n", self.parts);
        for Rule { part, side, time, grade } in &self.rules {
            text += &match side {
                Side::Cut(stroke) => format!("c {part} {} {time} {grade}\n", char::from(*stroke)),
                Side::Pair(left, right) => format!("p {part} {left} {right} {time} {grade}\n"),
            };
        }
        text.into_bytes()
    }

    /// The strokes that some rule cuts.
    pub fn strokes(&self) -> Vec<u8> {
        let cut = |rule: &Rule| match rule.side {
            Side::Cut(stroke) => Some(stroke),
            Side::Pair(..) => None,
        };
        self.rules.iter().filter_map(cut).collect()
    }

    /// For each length up to the longest, and each part, whether the part makes some run of that length.
    pub fn makes(&self, longest: usize) -> Vec<[bool; 32]> {
        let mut makes = vec![[false; 32]; longest + 1];
        for len in 1..=longest {
            for rule in &self.rules {
                makes[len][rule.part] |= match rule.side {
                    Side::Cut(_) => len == 1,
                    Side::Pair(left, right) => (1..len).any(|split| makes[split][left] && makes[len - split][right]),
                };
            }
        }
        makes
    }

    /// Adds a run of the part, which makes one of the length.
    pub fn derive(&self, random: &mut Random, makes: &[[bool; 32]], part: usize, len: usize, run: &mut Vec<u8>) {
        let mut ways = Vec::new();
        for rule in self.rules.iter().filter(|rule| rule.part == part) {
            match rule.side {
                Side::Cut(_) if len == 1 => ways.push((rule.side, 0)),
                Side::Cut(_) => {}
                Side::Pair(left, right) => {
                    let fits = |split: &usize| makes[*split][left] && makes[len - split][right];
                    ways.extend((1..len).filter(fits).map(|split| (rule.side, split)));
                }
            }
        }
        match random.pick(&ways) {
            (Side::Cut(stroke), _) => run.push(stroke),
            (Side::Pair(left, right), split) => {
                self.derive(random, makes, left, split, run);
                self.derive(random, makes, right, len - split, run);
            }
        }
    }
}
