use crate::sys;

/// A root, and how many of its binary digits were worked.
#[derive(Debug, Clone, Copy, PartialEq)]
#[non_exhaustive]
pub struct Root {
    /// Correctly rounded.
    pub value: f64,
    /// 1 to 27 of an exact root, 53 of any other, and 0 where there is none to work.
    pub digits: u32,
}

/// The root of `x`, as `f64::sqrt` has it, and its digits: of a finite number above 0 those from the root's first 1 to its
/// last if the root is exact, else 53; of any other argument none.
///
/// ```
/// use grain::sqrt_digits;
///
/// assert_eq!([1.0, 2.25, 2.0, -0.0].map(|x| sqrt_digits(x).digits), [1, 2, 53, 0]);
/// assert_eq!(sqrt_digits(2.25).value, 1.5); // 1.1 in binary digits
/// ```
pub fn sqrt_digits(x: f64) -> Root {
    // SAFETY: a number alone is passed.
    let found = unsafe { sys::grain_sqrt_digits(x) };
    Root {
        value: found.value,
        digits: found.digits,
    }
}
