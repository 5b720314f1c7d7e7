//! How many binary digits of a root are worked. The Rust doesn't say, so it is reckoned from the number under the root, an
//! odd number times a power of two; the exact root that follows from the same reckoning has to be the Rust's.

/// An odd m and an e with x = m × 2^e, for an x that is finite and above 0.
pub fn parts(x: f64) -> (u64, i32) {
    let (field, fraction) = (x.to_bits() >> 52, x.to_bits() % (1 << 52));
    let (whole, power) = match field {
        0 => (fraction, -1074),
        _ => (fraction + (1 << 52), field as i32 - 1075),
    };
    let zeros = whole.trailing_zeros();
    (whole >> zeros, power + zeros as i32)
}

/// Of the root of x: those from its first 1 to its last if the root is exact, else 53; none where x isn't a finite number
/// above 0.
pub fn sqrt(x: f64) -> u32 {
    if !x.is_finite() || x <= 0.0 {
        return 0;
    }
    let (m, e) = parts(x);
    let root = m.isqrt();
    if e % 2 != 0 || root * root != m {
        return 53;
    }
    let value = root as f64 * 2f64.powi(e / 2);
    assert_eq!(value, x.sqrt(), "the Rust's root");
    root.ilog2() + 1
}
