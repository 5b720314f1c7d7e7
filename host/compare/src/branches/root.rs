//! The kinds of number under a root, and how many digits are worked.

use super::{Branches, Taken, those};
use crate::input::Input;
use oracle::digits;

pub const ROOT: Branches = Branches {
    all: &[
        "no digit",
        "exact, 1 digit",
        "exact, 2 to 26 digits",
        "exact, 27 digits",
        "not exact, an even power of two",
        "not exact, an odd power of two",
        "one place above a square",
        "one place below a square",
        "subnormal, exact",
        "subnormal, not exact",
        "0.0",
        "-0.0",
        "below 0",
        "infinity",
        "-infinity",
        "NaN",
    ],
    taken: root,
};

fn root(input: &Input, words: &[u64]) -> Taken {
    let (x, count) = (input.float, words[1]);
    let (exact, worked) = ((1..53).contains(&count), count > 0);
    let bits = x.to_bits();
    let square = |bits| (1..53).contains(&digits::sqrt(f64::from_bits(bits)));
    let odd = || digits::parts(x).1 % 2 != 0;
    let tiny = worked && x.is_subnormal();
    those([
        ("no digit", !worked),
        ("exact, 1 digit", count == 1),
        ("exact, 2 to 26 digits", (2..27).contains(&count)),
        ("exact, 27 digits", count == 27),
        ("not exact, an even power of two", count == 53 && !odd()),
        ("not exact, an odd power of two", count == 53 && odd()),
        ("one place above a square", worked && square(bits - 1)),
        ("one place below a square", worked && square(bits + 1)),
        ("subnormal, exact", tiny && exact),
        ("subnormal, not exact", tiny && !exact),
        ("0.0", bits == 0.0f64.to_bits()),
        ("-0.0", bits == (-0.0f64).to_bits()),
        ("below 0", x < 0.0 && x.is_finite()),
        ("infinity", x == f64::INFINITY),
        ("-infinity", x == f64::NEG_INFINITY),
        ("NaN", x.is_nan()),
    ])
}
