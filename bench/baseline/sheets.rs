//! Sheets: which strokes are open at each place.

/// A sheet of at most 24 places, counted from 0 here.
pub trait Sheet {
    fn places(&self) -> usize;

    /// Whether the stroke, A to Z, is open at the place, which the sheet has.
    fn is_open(&self, place: usize, stroke: u8) -> bool;

    /// Closes the stroke at the place. Answers whether it was open.
    fn close(&mut self, place: usize, stroke: u8) -> bool;
}

/// A row of 27 bytes for each place, whose first 26 have a column for each stroke.
pub struct Card<'a>(pub &'a mut [u8]);

impl Sheet for Card<'_> {
    fn places(&self) -> usize {
        (self.0.len() / 27).min(24)
    }

    #[inline]
    fn is_open(&self, place: usize, stroke: u8) -> bool {
        self.0[27 * place + usize::from(stroke - b'A')] == stroke
    }

    #[inline]
    fn close(&mut self, place: usize, stroke: u8) -> bool {
        let column = &mut self.0[27 * place + usize::from(stroke - b'A')];
        let was_open = *column == stroke;
        if was_open {
            *column = b'.';
        }
        was_open
    }
}
