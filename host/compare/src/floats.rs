//! Floats for the quantiser and for the root, and every odd value.

use crate::random::Random;

pub const ODD: [f64; 12] = [
    0.0,
    -0.0,
    f64::NAN,
    f64::INFINITY,
    f64::NEG_INFINITY,
    f64::MAX,
    f64::MIN,
    f64::MIN_POSITIVE,
    5e-324,
    1e-9,
    -1e-9,
    0.999_999_999e-9,
];

/// A float whose 64-fold is near a half, an end of the range, or anything at all.
pub fn coefficient(random: &mut Random) -> f64 {
    let any = random.between(-260, 260);
    let half = (f64::from(random.pick(&[any, any, -129, 127])) + 0.5) / 64.0;
    match random.below(6) {
        0 => half,
        1 => f64::from_bits(half.to_bits() + 1),
        2 => f64::from_bits(half.to_bits() - 1),
        3 => random.pick(&ODD),
        4 => (random.unit() - 0.5) * 6.0,
        _ => f64::from_bits(random.bits()),
    }
}

/// The largest whole number whose square is below 2^53.
pub const LARGEST_ROOT: i32 = 94_906_265;

/// From 2^LOWEST to 2^HIGHEST, times any whole number up to the largest, a float holds the square.
pub const LOWEST: i32 = -537;
pub const HIGHEST: i32 = 485;

/// The square of a whole number of any length times a power of two.
fn square(random: &mut Random) -> f64 {
    let length = random.between(0, 26);
    let any = random.between(1, 1 << length);
    let long = random.between(1 << 26, LARGEST_ROOT);
    let root = f64::from(random.pick(&[any, any, any, long]));
    let near = random.between(-30, 30);
    let far = random.between(LOWEST, HIGHEST);
    let low = random.between(LOWEST, LOWEST + 26);
    let root = root * 2f64.powi(random.pick(&[0, near, far, low]));
    root * root
}

/// A square or one beside it, a mean of squares as a plane has it, or anything at all.
pub fn under_root(random: &mut Random) -> f64 {
    let square = square(random);
    match random.below(9) {
        0 | 1 => square,
        2 => f64::from_bits(square.to_bits() + 1),
        3 => f64::from_bits(square.to_bits() - 1),
        4 => f64::from(random.between(1, 300)),
        5 => f64::from(random.between(1, 1_000_000)) / f64::from(random.between(1, 4096)),
        6 => f64::from_bits(random.bits() >> random.between(12, 63)),
        7 => random.pick(&ODD),
        _ => f64::from_bits(random.bits()),
    }
}
