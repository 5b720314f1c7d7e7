use crate::sys;

/// What became of a value on its way to a coefficient. A coefficient that is 0 because there was no value to quantise is
/// inside.
#[derive(Debug, Clone, Copy, PartialEq, Eq, Hash)]
pub enum Mark {
    /// The coefficient is the rounded value.
    Inside,
    /// The rounded value is below −128, and the coefficient is −128.
    HeldLow,
    /// The rounded value is above 127, and the coefficient is 127.
    HeldHigh,
    /// The value is NaN, and the coefficient is 0.
    NotANumber,
}

impl Mark {
    /// By its number in the C interface, which has none above 3.
    pub(crate) fn numbered(number: u8) -> Self {
        match number {
            0 => Mark::Inside,
            1 => Mark::HeldLow,
            2 => Mark::HeldHigh,
            _ => Mark::NotANumber,
        }
    }
}

/// A coefficient, and what became of its value.
#[derive(Debug, Clone, Copy, PartialEq, Eq)]
#[non_exhaustive]
pub struct Quantised {
    /// From −128 to 127, in 64ths.
    pub coefficient: i32,
    /// Whether that is the rounded value, or what was made of it.
    pub mark: Mark,
}

/// The whole number nearest 64 × `c`, halves away from zero, held to −128..127; 0 of NaN.
///
/// ```
/// use grain::{Mark, quant_ar};
///
/// assert_eq!(quant_ar(-0.0078125).coefficient, -1);
/// assert_eq!(quant_ar(1.984375).mark, Mark::Inside); // 127
/// let above = quant_ar(1.9921875); // 127.5
/// assert_eq!((above.coefficient, above.mark), (127, Mark::HeldHigh));
/// ```
pub fn quant_ar(c: f64) -> Quantised {
    // SAFETY: a number alone is passed.
    let found = unsafe { sys::grain_quant_ar(c) };
    Quantised {
        coefficient: found.coefficient,
        mark: Mark::numbered(found.mark),
    }
}
