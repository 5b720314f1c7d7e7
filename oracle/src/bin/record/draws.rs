//! Numbers that look random, and digests: crates/cases/src/draws.rt and digest.rt, in Rust.

pub fn next(x: u32) -> u32 {
    let a = x ^ (x << 13);
    let b = a ^ (a >> 17);
    b ^ (b << 5)
}

pub fn start(seed: u32, stream: u32) -> u32 {
    let x = 0x9e37_79b9 ^ (seed << 8) ^ (stream << 4);
    next(next(next(next(x))))
}

fn mixed(digest: u64, value: u64) -> u64 {
    let x = digest ^ value;
    let a = x ^ (x << 13);
    let b = a ^ (a >> 7);
    b ^ (b << 17)
}

pub fn digest(values: impl IntoIterator<Item = u64>) -> u64 {
    values.into_iter().fold(0, mixed)
}

/// The bits of a float; every NaN as the same one.
pub fn bits(x: f64) -> u64 {
    if x.is_nan() {
        0x7ff8_0000_0000_0000
    } else {
        x.to_bits()
    }
}

/// A coefficient, as the bits of the float that it is.
pub fn signed(x: i32) -> u64 {
    bits(f64::from(x))
}
