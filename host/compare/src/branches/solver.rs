//! The pivots of an elimination, and the quantiser's ends and halves.

use super::{Branches, Taken, those};
use crate::input::Input;

pub const SOLVER: Branches = Branches {
    all: &[
        "no solution",
        "a solution",
        "a row exchanged",
        "no row exchanged",
        "a pivot of magnitude 1e-9",
        "a pivot that is NaN",
    ],
    taken: solver,
};

fn solver(input: &Input, words: &[u64]) -> Taken {
    let pivots = pivots(input);
    those([
        ("no solution", words[0] == 0),
        ("a solution", words[0] == 1),
        ("a row exchanged", pivots.iter().any(|p| p.exchanged)),
        ("no row exchanged", pivots.iter().all(|p| !p.exchanged)),
        (
            "a pivot of magnitude 1e-9",
            pivots.iter().any(|p| p.value.abs() == 1e-9),
        ),
        (
            "a pivot that is NaN",
            pivots.iter().any(|p| p.value.is_nan()),
        ),
    ])
}

struct Pivot {
    value: f64,
    exchanged: bool,
}

/// The pivots down to the first that is too small.
fn pivots(input: &Input) -> Vec<Pivot> {
    let order = input.number as usize;
    let mut a = input.system.a.clone();
    let mut found = Vec::new();
    for i in 0..order {
        let larger = |best: usize, r: usize| {
            if a[r][i].abs() > a[best][i].abs() {
                r
            } else {
                best
            }
        };
        let row = (i + 1..order).fold(i, larger);
        a.swap(i, row);
        let value = a[i][i];
        found.push(Pivot {
            value,
            exchanged: row != i,
        });
        if value.abs() < 1e-9 {
            break;
        }
        for r in i + 1..order {
            let factor = a[r][i] / value;
            for c in i..order {
                a[r][c] -= factor * a[i][c];
            }
        }
    }
    found
}

pub const QUANTISED_SOLUTION: Branches = Branches {
    all: &["no solution", "inside", "held low", "held high", "NaN"],
    taken: |_, words| {
        let has = |mark| words[1..].chunks(2).any(|pair| pair[1] == mark);
        those([
            ("no solution", words[0] == 0),
            ("inside", has(0)),
            ("held low", has(1)),
            ("held high", has(2)),
            ("NaN", has(3)),
        ])
    },
};

pub const QUANTISER: Branches = Branches {
    all: &[
        "NaN",
        "held at 127",
        "held at -128",
        "127",
        "-128",
        "a half above 0",
        "a half below 0",
        "inside",
    ],
    taken: quantiser,
};

fn quantiser(input: &Input, _: &[u64]) -> Taken {
    let x = input.float * 64.0;
    let rounded = x.round();
    those([
        ("NaN", x.is_nan()),
        ("held at 127", rounded > 127.0),
        ("held at -128", rounded < -128.0),
        ("127", rounded == 127.0),
        ("-128", rounded == -128.0),
        ("a half above 0", x.fract() == 0.5),
        ("a half below 0", x.fract() == -0.5),
        ("inside", rounded.abs() < 127.0),
    ])
}
