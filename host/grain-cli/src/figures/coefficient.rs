//! A coefficient, and what became of its value on the way to the header's range.

use super::{ChromaTaps, Fit};
use grain::Mark;
use serde::{Serialize, Serializer};
use std::ops::AddAssign;

#[derive(Debug, Clone, Copy)]
pub struct Coefficient {
    /// From −128 to 127, in 64ths.
    pub number: i32,
    pub mark: Mark,
}

impl Coefficient {
    pub fn marked(&self) -> bool {
        self.mark != Mark::Inside
    }

    fn mark_name(&self) -> &'static str {
        match self.mark {
            Mark::Inside => "inside",
            Mark::HeldLow => "held_low",
            Mark::HeldHigh => "held_high",
            Mark::NotANumber => "nan",
        }
    }
}

/// How often values were held at an end of the range, or were NaN.
#[derive(Debug, Clone, Copy, Default, Serialize)]
pub struct MarkCount {
    pub held_low: usize,
    pub held_high: usize,
    pub nan: usize,
}

impl MarkCount {
    pub fn any(&self) -> bool {
        self.held_low + self.held_high + self.nan > 0
    }
}

impl From<Mark> for MarkCount {
    fn from(mark: Mark) -> Self {
        MarkCount {
            held_low: usize::from(mark == Mark::HeldLow),
            held_high: usize::from(mark == Mark::HeldHigh),
            nan: usize::from(mark == Mark::NotANumber),
        }
    }
}

impl AddAssign for MarkCount {
    fn add_assign(&mut self, more: Self) {
        self.held_low += more.held_low;
        self.held_high += more.held_high;
        self.nan += more.nan;
    }
}

/// A frame's coefficients as JSON has them: the numbers, and their marks in the same layout.
#[derive(Serialize)]
struct Marked<N, M> {
    #[serde(flatten)]
    numbers: N,
    marks: M,
}

impl Serialize for Fit<Coefficient> {
    fn serialize<S: Serializer>(&self, to: S) -> Result<S::Ok, S::Error> {
        let numbers = self.map(|of| of.number);
        let marks = self.map(Coefficient::mark_name);
        Marked { numbers, marks }.serialize(to)
    }
}

impl Serialize for ChromaTaps<Coefficient> {
    fn serialize<S: Serializer>(&self, to: S) -> Result<S::Ok, S::Error> {
        let numbers = self.map(|of| of.number);
        let marks = self.map(Coefficient::mark_name);
        Marked { numbers, marks }.serialize(to)
    }
}

#[cfg(test)]
mod tests {
    use super::*;
    use serde_json::{json, to_value};

    #[test]
    fn every_mark_has_a_name() {
        let named = |number, mark, name| {
            let tap = Coefficient { number, mark };
            let found = to_value(ChromaTaps { cb: tap, cr: tap }).unwrap();
            let marks = json!({"cb": name, "cr": name});
            assert_eq!(found, json!({"cb": number, "cr": number, "marks": marks}));
        };
        named(127, Mark::Inside, "inside");
        named(-128, Mark::HeldLow, "held_low");
        named(127, Mark::HeldHigh, "held_high");
        named(0, Mark::NotANumber, "nan");
    }
}
