//! The table of calls: what each is asked and lent, and how the library and the Rust are called on one input.
//!
//! An answer is a list of words: whole numbers as they are, floats by their bits, what may be missing behind a 1 or a 0.

use crate::branches::{self, Branches};
use crate::floats;
use crate::headers::rules::{self, Rule};
use crate::headers::{self, Header};
use crate::input::{Input, Plane, Planes};
use crate::questions::Asks;
use crate::random::Random;
use crate::raw::{self, Record};
use crate::{ours, rust};
use grain::{Chroma, Refusal};

/// The words of an accepted answer.
pub type Words = Vec<u64>;

pub type Ours = fn(&Input, &mut Planes) -> Result<Words, Refusal>;
pub type Raw = fn(&Input, &mut Planes) -> Record;
pub type Rust = fn(&Input, &mut Planes) -> Words;

pub struct Call {
    pub name: &'static str,
    /// By the safe crate, which can't name a format above 3.
    pub ours: Ours,
    /// By the C interface.
    pub raw: Raw,
    pub rust: Rust,
    /// What a run has to meet.
    pub branches: Branches,
    pub asks: Asks,
    /// The planes it is lent, in the order of the interface.
    pub lent: &'static [Plane],
    /// How many planes it writes. A call that writes none answers with words.
    pub destinations: usize,
    /// Its lag, order, bits, sigma16 or hint, or how many faults its header is drawn with.
    pub number: fn(&mut Random) -> u64,
    /// The float that it takes.
    pub float: fn(&mut Random) -> f64,
    /// The header that it writes, of a format and with so many faults.
    pub header: fn(&mut Random, u8, u64) -> Header,
    /// The rules that a run has to meet broken, each by a record that breaks no other.
    pub rules: &'static [&'static [Rule]],
    /// How many of a run's cases are its own, in proportion.
    pub share: usize,
    /// What the answer carries and the Rust keeps inside, worked out plainly.
    pub added: fn(&Input) -> Words,
    /// The numbers it is timed with, and how many times as fast as the Rust it should be on the largest planes.
    pub timed: &'static [(u64, Option<f64>)],
}

impl Call {
    /// A call that is asked and lent nothing. All sides must be given; a row of the table says what is otherwise.
    pub const fn new(
        name: &'static str,
        ours: Ours,
        raw: Raw,
        rust: Rust,
        branches: Branches,
    ) -> Self {
        Call {
            name,
            ours,
            raw,
            rust,
            branches,
            asks: Asks::NOTHING,
            lent: &[],
            destinations: 0,
            number: |_| 0,
            float: |_| 0.0,
            header: |_, _, _| Header::default(),
            rules: &[],
            share: 1,
            added: |_| Words::new(),
            timed: &[(0, None)],
        }
    }

    /// What a run has to meet, by name.
    pub fn names(&self) -> impl Iterator<Item = &'static str> {
        let rules = self.rules.iter().copied().flatten();
        let branches = self.branches.all.iter().copied();
        let rectangles = branches::RECTANGLES.iter().filter(|_| self.asks.frame);
        let others = rules.map(|rule| rule.name).chain(rectangles.copied());
        branches.chain(others)
    }

    /// Whether the answer is that of the frame that the rectangle cuts out. A frame is denoised as a whole.
    pub fn keeps_to_the_rectangle(&self) -> bool {
        self.asks.frame && self.destinations == 0
    }
}

const fn plane(frame: usize, denoised: bool, component: usize) -> Plane {
    Plane {
        frame,
        denoised,
        component,
    }
}

const LONE: &[Plane] = &[plane(0, false, 0)];
const BOTH: &[Plane] = &[plane(0, false, 0), plane(0, true, 0)];
const FRAME: &[Plane] = &[plane(0, false, 0), plane(0, false, 1), plane(0, false, 2)];
const FRAME_AND_COPY: &[Plane] = &[
    plane(0, false, 0),
    plane(0, false, 1),
    plane(0, false, 2),
    plane(0, true, 0),
    plane(0, true, 1),
    plane(0, true, 2),
];

/// One component of two frames and of their copies.
const fn two(component: usize) -> [Plane; 4] {
    [
        plane(0, false, component),
        plane(0, true, component),
        plane(1, false, component),
        plane(1, true, component),
    ]
}

const SIZE: Asks = Asks {
    size: true,
    ..Asks::NOTHING
};
const SIZE_AND_DEPTH: Asks = Asks {
    depth: true,
    ..SIZE
};
const SHAPE: Asks = Asks {
    frame: true,
    format: true,
    ..SIZE_AND_DEPTH
};
const ORDER: Asks = Asks {
    order: true,
    ..Asks::NOTHING
};
const HEADER: Asks = Asks {
    format: true,
    header: true,
    ..Asks::NOTHING
};

fn lag(random: &mut Random) -> u64 {
    random.pick(&[0, 1, 1, 1, 2, 2, 2, 3, 3, 3, 3, 4, 5, u64::MAX])
}

fn order(random: &mut Random) -> u64 {
    match random.below(20) {
        0 => random.pick(&[0, 26, 27, 1000, u64::MAX]),
        1..10 => 1 + random.below(8) as u64,
        _ => 1 + random.below(25) as u64,
    }
}

fn sigma16(random: &mut Random) -> u64 {
    random.pick(&[0, 7, 8, 9, 16, 100, 4080, u64::MAX])
}

pub const CALLS: &[Call] = &[
    Call {
        asks: SIZE,
        lent: LONE,
        destinations: 1,
        share: 4,
        timed: &[(0, Some(6.0))],
        ..Call::new(
            "denoise_plane",
            ours::denoise_plane,
            raw::denoise_plane,
            rust::denoise_plane,
            branches::DENOISE_PLANE,
        )
    },
    Call {
        asks: SHAPE,
        lent: FRAME,
        destinations: 3,
        share: 4,
        timed: &[(0, Some(6.0))],
        ..Call::new(
            "denoise_frame",
            ours::denoise_frame,
            raw::denoise_frame,
            rust::denoise_frame,
            branches::DENOISE_FRAME,
        )
    },
    Call {
        asks: SIZE_AND_DEPTH,
        lent: BOTH,
        share: 4,
        ..Call::new(
            "plane_sigma16",
            ours::plane_sigma16,
            raw::plane_sigma16,
            rust::plane_sigma16,
            branches::SIGMA16,
        )
    },
    Call {
        asks: SHAPE,
        lent: FRAME_AND_COPY,
        share: 6,
        added: rust::bins,
        timed: &[(0, Some(1.5))],
        ..Call::new(
            "noise_estimate",
            ours::noise_estimate,
            raw::noise_estimate,
            rust::noise_estimate,
            branches::PROFILE,
        )
    },
    Call {
        asks: SIZE_AND_DEPTH,
        lent: BOTH,
        number: |random| random.pick(&[0, 1, 2, 3, 4, 5, 8, 31, 33, 100, 4095, 4096, u64::MAX]),
        share: 5,
        timed: &[(1, Some(8.0))],
        ..Call::new(
            "lag_h_rho",
            ours::lag_h_rho,
            raw::lag_h_rho,
            rust::lag_h_rho,
            branches::ROW_CORRELATION,
        )
    },
    Call {
        asks: SHAPE,
        lent: &two(0),
        share: 6,
        timed: &[(0, Some(8.0))],
        ..Call::new(
            "film_grain_probe",
            ours::film_grain_probe,
            raw::film_grain_probe,
            rust::film_grain_probe,
            branches::LUMA_GATE,
        )
    },
    Call {
        asks: SHAPE,
        lent: &two(1),
        number: sigma16,
        share: 4,
        timed: &[(100, Some(8.0))],
        ..Call::new(
            "chroma_noise_gate/cb",
            |input, _| ours::chroma_noise_gate(input, Chroma::Cb),
            |input, _| raw::chroma_noise_gate(input, 1),
            |input, _| rust::chroma_noise_gate(input, 1),
            branches::CB_GATE,
        )
    },
    Call {
        asks: SHAPE,
        lent: &two(2),
        number: sigma16,
        share: 4,
        timed: &[(100, Some(8.0))],
        ..Call::new(
            "chroma_noise_gate/cr",
            |input, _| ours::chroma_noise_gate(input, Chroma::Cr),
            |input, _| raw::chroma_noise_gate(input, 2),
            |input, _| rust::chroma_noise_gate(input, 2),
            branches::CR_GATE,
        )
    },
    Call {
        asks: SHAPE,
        lent: FRAME_AND_COPY,
        share: 6,
        added: rust::correlation_marks,
        timed: &[(0, Some(8.0))],
        ..Call::new(
            "fit_chroma_corr",
            ours::fit_chroma_corr,
            raw::fit_chroma_corr,
            rust::fit_chroma_corr,
            branches::CHROMA_CORRELATION,
        )
    },
    Call {
        asks: Asks {
            lag: true,
            ..Asks::NOTHING
        },
        number: lag,
        timed: &[(3, None)],
        ..Call::new(
            "ar_positions",
            ours::ar_positions,
            raw::ar_positions,
            rust::ar_positions,
            branches::POSITIONS,
        )
    },
    Call {
        asks: Asks { lag: true, ..SHAPE },
        lent: FRAME_AND_COPY,
        number: lag,
        share: 12,
        added: rust::fit_marks,
        timed: &[(1, Some(35.0)), (2, Some(35.0)), (3, Some(60.0))],
        ..Call::new(
            "fit_ar_lag",
            ours::fit_ar_lag,
            raw::fit_ar_lag,
            rust::fit_ar_lag,
            branches::FIT,
        )
    },
    Call {
        asks: ORDER,
        number: order,
        share: 5,
        timed: &[(24, None)],
        ..Call::new(
            "solve_normal",
            ours::solve_normal,
            raw::solve_normal,
            rust::solve_normal,
            branches::SOLVER,
        )
    },
    // Every mark: a solution may have any float among its values.
    Call {
        asks: ORDER,
        number: order,
        share: 3,
        timed: &[],
        ..Call::new(
            "solve_normal/quantised",
            ours::solve_and_quantise,
            raw::solve_and_quantise,
            rust::solve_and_quantise,
            branches::QUANTISED_SOLUTION,
        )
    },
    Call {
        float: floats::coefficient,
        share: 4,
        added: rust::quantiser_mark,
        ..Call::new(
            "quant_ar",
            ours::quant_ar,
            raw::quant_ar,
            rust::quant_ar,
            branches::QUANTISER,
        )
    },
    Call {
        float: floats::under_root,
        share: 4,
        added: rust::root_digits,
        timed: &[],
        ..Call::new(
            "sqrt_digits",
            ours::sqrt_digits,
            raw::sqrt_digits,
            rust::sqrt_digits,
            branches::ROOT,
        )
    },
    Call {
        number: |random| random.bits() >> random.pick(&[32, 48]),
        share: 2,
        timed: &[(1, None)],
        ..Call::new(
            "grain_seed_for",
            ours::grain_seed_for,
            raw::grain_seed_for,
            rust::grain_seed_for,
            branches::SEED,
        )
    },
    Call {
        asks: Asks {
            bits: true,
            ..Asks::NOTHING
        },
        number: |random| {
            random.pick(&[0, 1, 8, 11, 15, 16, 16, 17, 18, 32, 65536, u32::MAX.into()])
        },
        share: 3,
        timed: &[(11, None)],
        ..Call::new(
            "RandomRegister::next",
            ours::register_next,
            raw::register_next,
            rust::register_next,
            branches::REGISTER,
        )
    },
    Call {
        asks: HEADER,
        number: |random| random.pick(&[0, 0, 0, 1, 1, 1, 1, 2, 3]),
        header: headers::draw::record,
        rules: rules::ALL,
        share: 48,
        timed: &[],
        ..Call::new(
            "write_film_grain_params",
            ours::write_film_grain_params,
            raw::write_film_grain_params,
            rust::write_film_grain_params,
            branches::HEADER,
        )
    },
    // Records that the Rust reads, written to the bits that it read.
    Call {
        asks: HEADER,
        number: |random| random.pick(&[0, 0, 1, 2, 3]),
        header: headers::draw::read,
        rules: &[rules::UNREAD],
        share: 12,
        timed: &[],
        ..Call::new(
            "write_film_grain_params/read",
            ours::write_film_grain_params,
            raw::write_film_grain_params,
            rust::write_film_grain_params,
            branches::HEADER,
        )
    },
];
