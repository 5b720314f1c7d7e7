//! Answers as words, the same for both sides.

use crate::calls::Words;

/// A float by its bits; every NaN is one. They are chosen as bits, since a choice between floats that differ as NaNs alone
/// may be left out by the compiler.
pub fn float(x: f64) -> u64 {
    match x.is_nan() {
        true => f64::NAN.to_bits(),
        false => x.to_bits(),
    }
}

pub fn whole(x: i32) -> u64 {
    i64::from(x) as u64
}

/// How many there are, then each row and column.
pub fn positions(places: Vec<(i32, i32)>) -> Words {
    let each = places.iter().flat_map(|&(r, c)| [whole(r), whole(c)]);
    [places.len() as u64].into_iter().chain(each).collect()
}

/// 0, or 1 and the solution.
pub fn solution(found: Option<Vec<f64>>) -> Words {
    found.map_or(vec![0], |x| {
        [1].into_iter().chain(x.into_iter().map(float)).collect()
    })
}

/// 0, or 1 and each value of a solution, quantised: its coefficient, then its mark.
pub fn quantised(found: Option<Vec<f64>>, quantiser: fn(f64) -> [u64; 2]) -> Words {
    found.map_or(vec![0], |x| {
        let each = x.into_iter().flat_map(quantiser);
        [1].into_iter().chain(each).collect()
    })
}

/// 0, or 1, the lag and the coefficients of Y, Cb and Cr. Their marks come behind.
pub fn coefficients(found: Option<(u8, [Vec<i32>; 3])>) -> Words {
    found.map_or(vec![0], |(lag, planes)| {
        let taps = planes.into_iter().flatten().map(whole);
        [1, lag.into()].into_iter().chain(taps).collect()
    })
}
