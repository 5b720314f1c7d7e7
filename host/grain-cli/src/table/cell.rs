//! A coefficient as it is shown, with its marks.

use crate::figures::{Coefficient, MarkCount};
use crate::summary::ClipCoefficient;
use console::style;

/// A whole number, and how often its value was held or NaN.
pub struct Cell {
    number: i32,
    pub marks: MarkCount,
}

impl Cell {
    pub fn of_frame(of: &Coefficient) -> Self {
        Cell {
            number: of.number,
            marks: of.mark.into(),
        }
    }

    /// The mean to the nearest whole number.
    pub fn of_clip(of: &ClipCoefficient) -> Self {
        Cell {
            number: of.spread.mean.round() as i32,
            marks: of.marks,
        }
    }

    /// The number, after the sides of it on which values were held. A mean with NaN in it is none.
    fn word(&self) -> String {
        if self.marks.nan > 0 {
            return "NaN".to_string();
        }
        let low = if self.marks.held_low > 0 { "<" } else { "" };
        let high = if self.marks.held_high > 0 { ">" } else { "" };
        format!("{low}{high}{}", self.number)
    }

    /// The word, in a colour where there are marks.
    pub fn shown(&self) -> String {
        match self.marks.any() {
            true => style(self.word()).yellow().to_string(),
            false => self.word(),
        }
    }
}

#[cfg(test)]
mod tests {
    use super::*;

    #[test]
    fn both_ends_and_nan() {
        let word = |number, [held_low, held_high, nan]: [usize; 3]| {
            let marks = MarkCount {
                held_low,
                held_high,
                nan,
            };
            Cell { number, marks }.word()
        };
        assert_eq!(word(-128, [0, 0, 0]), "-128");
        assert_eq!(word(-128, [1, 0, 0]), "<-128");
        assert_eq!(word(127, [0, 1, 0]), ">127");
        assert_eq!(word(-1, [2, 2, 0]), "<>-1");
        assert_eq!(word(0, [0, 0, 1]), "NaN");
        assert_eq!(word(64, [0, 1, 1]), "NaN");
    }
}
