//! The planner in plain Rust, written from its rules (docs/RULES.md, docs/FORMATS.md, docs/REFUSALS.md), with its loops in the order
//! of the proved planner's: prices, books and their reader, sheets, price, prune and quote. The tests of the proved planner compare
//! it with this one, and the bench measures it against this one.
//!
//! The source compiles twice: as it stands, where each index is checked, and with `--cfg unchecked`, where no index of a board, of
//! a rule or of a run is.
// Each program uses the part that it needs, and `unchecked` is no cfg of rustc's own.
#![allow(dead_code, unexpected_cfgs)]

pub mod books;
pub mod planner;
pub mod scales;
pub mod sheets;

/// Why a call is refused, by its number.
#[derive(Clone, Copy, PartialEq, Eq, Debug)]
#[repr(u8)]
pub enum Refusal {
    NotAStroke = 2,
    BadLength = 6,
    LimitBarred = 7,
    BoardTooShort = 8,
    RunTooShort = 9,
    NoRun = 10,
    TextTooLong = 11,
    UnknownLine = 12,
    MalformedField = 13,
    PartsMisplaced = 14,
    OutOfRange = 15,
    TooManyRules = 16,
    NoRule = 17,
    TooManyPlaces = 19,
}

impl Refusal {
    pub fn number(self) -> u8 {
        self as u8
    }
}

/// The item at the index. Unchecked, the caller knows that there is one.
#[inline(always)]
pub(crate) fn at<T: Copy>(items: &[T], index: usize) -> T {
    #[cfg(unchecked)]
    // SAFETY: the callers' indices are entries of boards that were found long enough, numbers of rules, and parts of a book.
    return unsafe { *items.get_unchecked(index) };
    #[cfg(not(unchecked))]
    items[index]
}

/// The place of the item at the index, to be written. Unchecked, the caller knows that there is one.
#[inline(always)]
pub(crate) fn at_mut<T>(items: &mut [T], index: usize) -> &mut T {
    #[cfg(unchecked)]
    // SAFETY: as of `at`.
    return unsafe { items.get_unchecked_mut(index) };
    #[cfg(not(unchecked))]
    &mut items[index]
}
