//! Digits of roots for which it is plain how many there are.

use oracle::digits::sqrt;

const LEAST: f64 = f64::from_bits(1);

#[test]
fn exact() {
    assert_eq!([1.0, 4.0, 0.25, 2.25, 9.0].map(sqrt), [1, 1, 1, 2, 2]);
    assert_eq!([LEAST, 4.0 * LEAST, 9.0 * LEAST].map(sqrt), [1, 1, 2]);
    let longest = [(1u64 << 26) + 1, 94_906_265]; // whose squares are below 2^53
    assert_eq!(longest.map(|k| sqrt((k * k) as f64)), [27; 2]);
    assert_eq!(sqrt((1u64 << 52) as f64), 1);
}

#[test]
fn not_exact() {
    let square = ((1u64 << 26) + 1).pow(2);
    let beside = [square - 1, square + 1].map(|n| n as f64);
    assert_eq!([2.0, 8.0, 0.5, 3.0, 2.5].map(sqrt), [53; 5]);
    assert_eq!([2.0 * LEAST, 3.0 * LEAST, f64::MAX].map(sqrt), [53; 3]);
    assert_eq!(beside.map(sqrt), [53; 2]);
}

#[test]
fn none() {
    assert_eq!([0.0, -0.0, -1.0, -LEAST].map(sqrt), [0; 4]);
    assert_eq!([f64::INFINITY, -f64::INFINITY].map(sqrt), [0; 2]);
    assert_eq!([f64::NAN, -f64::NAN].map(sqrt), [0; 2]);
}
