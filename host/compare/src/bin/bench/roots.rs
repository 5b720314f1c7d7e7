//! The tables of roots.

use grain::{plane_sigma16, sqrt_digits};
use oracle::reach;
use std::hint::black_box;

/// How many calls are timed as one, since a root takes a few nanoseconds.
const CALLS: u32 = 100;

/// The best times of each of two calls, in nanoseconds.
fn nanoseconds(mut ours: impl FnMut(), mut rust: impl FnMut()) -> [f64; 2] {
    let mut ours = || (0..CALLS).for_each(|_| ours());
    let mut rust = || (0..CALLS).for_each(|_| rust());
    let times = super::best(&mut [&mut ours, &mut rust]);
    times.map(|time| time.as_secs_f64() * 1e9 / f64::from(CALLS))
}

/// Roots by their digits, then sigma16 of the least planes, which is a root and little else.
pub fn table() {
    println!("\n## Roots\n");
    println!(
        "Ours works a root digit by digit, and ends where nothing remains; the Rust's is one instruction of the \
         machine.\n"
    );
    println!("| under the root | digits | ours, ns | Rust, ns |");
    println!("|---|---:|---:|---:|");
    let longest = f64::from((1 << 26) + 1).powi(2);
    for (name, x) in [
        ("0", 0.0),
        ("1", 1.0),
        ("2.25", 2.25),
        ("65,025", 65025.0),
        ("(2^26 + 1)²", longest),
        ("2", 2.0),
    ] {
        let [ours, rust] = nanoseconds(
            || _ = black_box(sqrt_digits(black_box(x))),
            || _ = black_box(black_box(x).sqrt()),
        );
        let digits = sqrt_digits(x).digits;
        println!("| {name} | {digits} | {ours:.1} | {rust:.1} |");
    }
    println!("\n| sigma16 of | under the root | digits | ours, ns | Rust, ns |");
    println!("|---|---:|---:|---:|---:|");
    for (name, noise) in [
        ("one sample, noise 3", &[3][..]),
        ("two samples, noise 1 and 7", &[1, 7]),
        ("two samples, noise 1 and 2", &[1, 2]),
    ] {
        let (src, den) = (black_box(noise), &black_box([0; 2])[..noise.len()]);
        let [ours, rust] = nanoseconds(
            || _ = black_box(plane_sigma16(src, den, src.len(), 1, 8)),
            || _ = black_box(reach::plane_sigma16(src, den, 8)),
        );
        let squares: u32 = noise.iter().map(|&n| u32::from(n).pow(2)).sum();
        let mean = f64::from(squares) / noise.len() as f64;
        let digits = sqrt_digits(mean).digits;
        println!("| {name} | {mean} | {digits} | {ours:.1} | {rust:.1} |");
    }
}
