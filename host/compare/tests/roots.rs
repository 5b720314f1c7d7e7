//! Roots by the C interface: of millions of arguments the value is the Rust's by its bits, and the digits are those of the
//! plain reckoning; squares that a float holds are known to be exact, and the numbers beside them not to be.

use compare::floats::{HIGHEST, LARGEST_ROOT, LOWEST};
use compare::random::Random;
use grain::sys::{Root, grain_sqrt_digits};
use oracle::digits;

/// What the library answers, once it is held to both.
fn held(x: f64) -> Root {
    // SAFETY: a number alone is passed.
    let found = unsafe { grain_sqrt_digits(x) };
    let due = x.sqrt();
    let same = found.value.to_bits() == due.to_bits() || found.value.is_nan() && due.is_nan();
    assert!(same, "{x:e}: {:e}, not {due:e}", found.value);
    assert_eq!(found.digits, digits::sqrt(x), "{x:e}");
    found
}

/// How many of the arguments have no digit, an exact root, and another.
#[derive(Debug, Default)]
struct Count {
    none: u64,
    exact: u64,
    other: u64,
}

impl Count {
    fn hold(&mut self, x: f64) {
        match held(x).digits {
            0 => self.none += 1,
            1..=27 => self.exact += 1,
            53 => self.other += 1,
            digits => panic!("{x:e}: {digits} digits"),
        }
    }
}

/// All bits random, all but the sign, and numbers of every length in binary digits, subnormal ones too.
#[test]
fn random_arguments() {
    let mut random = Random::new(1);
    let [mut any, mut positive, mut short, mut subnormal] = [(); 4].map(|()| Count::default());
    for _ in 0..1_000_000 {
        any.hold(f64::from_bits(random.bits()));
        positive.hold(f64::from_bits(random.bits() >> 1));
    }
    for _ in 0..300_000 {
        let whole = random.bits() >> random.between(12, 63);
        short.hold(whole as f64 * 2f64.powi(random.between(-60, 60)));
        subnormal.hold(f64::from_bits(whole));
    }
    assert!(any.none > 490_000 && any.other > 490_000, "{any:?}");
    assert!(positive.other > 990_000, "{positive:?}");
    for count in [short, subnormal] {
        let plenty = count.exact > 5_000 && count.other > 200_000;
        assert!(plenty, "{count:?}");
    }
}

/// The digits of the root of k² × 4^power, which a float holds: it is exact, and those of the numbers beside it aren't.
fn square(k: i32, power: i32) -> u32 {
    let root = f64::from(k) * 2f64.powi(power);
    let square = root * root;
    let found = held(square);
    assert_eq!(found.value, root, "{k}, {power}");
    let due = (k >> k.trailing_zeros()).ilog2() + 1;
    assert_eq!(found.digits, due, "{k}, {power}");
    for beside in [square.to_bits() - 1, square.to_bits() + 1] {
        let digits = held(f64::from_bits(beside)).digits;
        // Beside the least float is 0.0, and beside no other is a square.
        assert_eq!(digits, if beside == 0 { 0 } else { 53 }, "{k}, {power}");
    }
    found.digits
}

/// A million of the k below 2^26, as they are and times a power of two.
#[test]
fn squares() {
    let mut random = Random::new(2);
    let mut count = 0;
    for first in [1, 2, 100, 255] {
        for k in (first..1 << 26).step_by(257) {
            square(k, 0);
            square(k, random.between(LOWEST, HIGHEST));
            count += 1;
        }
    }
    assert!(count > 1_000_000, "{count}");
}

/// The lowest powers, where squares of small k are subnormal.
#[test]
fn subnormal_squares() {
    for k in (1..1 << 26).step_by(4099) {
        for power in LOWEST..LOWEST + 32 {
            square(k, power);
        }
    }
}

/// The longest exact roots: odd k from 2^26 on.
#[test]
fn longest_roots() {
    let odd = ((1 << 26) + 1..=LARGEST_ROOT).step_by(274);
    let count = odd.clone().count();
    for k in odd.chain([LARGEST_ROOT]) {
        assert_eq!(square(k, 0), 27, "{k}");
    }
    assert!(count > 100_000, "{count}");
}
