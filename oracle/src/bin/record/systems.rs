//! The equations of a recorded solver call: crates/cases/src/systems.rt, in Rust.
use crate::draws::{next, start};

fn entry(kind: u64, r: usize, c: usize, draw: u32) -> f64 {
    let x = f64::from(draw / 256 % 256) - 128.0;
    let rare = (draw / 65536).is_multiple_of(16);
    let product = (r as f64 + 1.0) * (c as f64 + 1.0);
    match kind {
        1 if r == c => 4096.0 + x,
        2 => product + x / 8589934592.0,
        3 => (c % 5) as f64 + 1.0,
        4 if rare => f64::INFINITY,
        5 if r % 2 == c % 2 => 0.0,
        6 if r.is_multiple_of(2) => x * 1e306,
        6 => x / 1048576.0,
        7 if rare => f64::NAN,
        8 if r == c => x * 1e-10,
        9 if r == c => 1e-9,
        8 | 9 => 0.0,
        _ => x,
    }
}

pub fn row(kind: u64, r: usize, seed: u32, order: usize) -> Vec<f64> {
    let mut draw = start(seed, r as u32);
    (0..order)
        .map(|c| {
            draw = next(draw);
            entry(kind, r, c, draw)
        })
        .collect()
}
