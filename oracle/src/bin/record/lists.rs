//! Which calls are recorded.
use crate::calls::Call;
use crate::draws::{bits, digest, next, signed};
use crate::planes::Case;
use crate::systems::row;
use oracle::marks::{self, Mark};
use oracle::{RandomRegister, reach};

type Lines = Vec<Vec<u64>>;

/// Sides of small planes; around 1, a lag, twice a lag, odd ones.
const SIDES: [usize; 16] = [1, 2, 3, 4, 5, 6, 7, 8, 9, 13, 16, 17, 31, 32, 33, 64];
/// Long and narrow, and as many samples as least counts turn on.
const SIZES: [(usize, usize); 8] = [
    (4096, 1),
    (1, 4096),
    (4095, 2),
    (2, 4096),
    (80, 80),
    (100, 65),
    (81, 79),
    (64, 101),
];
const DEPTHS: [u64; 3] = [8, 10, 12];
const NOISES: u64 = 14;

pub fn all() -> Vec<(&'static str, Lines)> {
    vec![
        ("denoise_plane", on_planes(Call::DenoisePlane, 120)),
        ("denoise_frame", on_planes(Call::DenoiseFrame, 70)),
        ("plane_sigma16", on_planes(Call::PlaneSigma16, 120)),
        ("noise_estimate", on_planes(Call::NoiseEstimate, 120)),
        ("lag_h_rho", on_planes(Call::LagHRho, 150)),
        ("film_grain_probe", on_planes(Call::FilmGrainProbe, 200)),
        ("chroma_noise_gate", on_planes(Call::ChromaNoiseGate, 200)),
        ("fit_chroma_corr", on_planes(Call::FitChromaCorr, 150)),
        ("fit_ar_lag", on_planes(Call::FitArLag, 126)),
        ("ar_positions", positions()),
        ("solve_normal", systems()),
        ("quant_ar", coefficients()),
        ("grain_seed_for", seeds()),
        ("random_register", registers()),
    ]
}

/// Choices in a fixed order that looks random.
struct Choice(u32);

impl Choice {
    fn of<T: Copy>(&mut self, from: &[T]) -> T {
        self.0 = next(self.0);
        from[(self.0 >> 8) as usize % from.len()]
    }

    fn below(&mut self, n: u64) -> u64 {
        self.0 = next(self.0);
        u64::from(self.0 >> 8) % n
    }
}

fn line(call: Call, case: &Case) -> Vec<u64> {
    let (refusal, answer) = call.record(case);
    vec![
        refusal,
        answer,
        case.kind,
        case.share,
        u64::from(case.seed),
        case.width as u64,
        case.height as u64,
        case.luma() as u64,
        case.depth,
        case.format,
        if call.is_frame() {
            case.chroma() as u64
        } else {
            0
        },
        case.fault,
        case.argument,
    ]
}

/// A lag of the row correlation: around the width, and as large as can be. A chroma gate's sigma16: around 8.
fn argument(call: Call, c: &mut Choice, width: usize) -> u64 {
    match call {
        Call::LagHRho => c.of(&[
            0,
            1,
            1,
            2,
            3,
            width as u64 - 1,
            width as u64,
            width as u64 + 1,
            u64::MAX,
        ]),
        Call::ChromaNoiseGate => c.of(&[0, 7, 8, 9, 16, 40, 40, 40, u64::MAX]),
        Call::FitArLag => c.of(&[0, 1, 1, 2, 2, 3, 3]),
        _ => 0,
    }
}

fn on_planes(call: Call, random: u64) -> Lines {
    let mut c = Choice(0x2545_f491 ^ random as u32);
    let mut cases = Vec::new();
    let depth = |c: &mut Choice| if call.has_depth() { c.of(&DEPTHS) } else { 16 };
    let format = |c: &mut Choice| if call.is_frame() { c.below(4) } else { 0 };
    // Every noise at every depth.
    for noise in 0..NOISES {
        for d in DEPTHS {
            let (width, height) = (c.of(&SIDES[4..]), c.of(&SIDES[4..]));
            cases.push(Case {
                kind: noise + 16 * c.below(3),
                share: c.below(17),
                width,
                height,
                depth: if call.has_depth() { d } else { 16 },
                format: if call.is_frame() {
                    3 - u64::from(d == 8 && noise % 2 == 0) * c.below(3)
                } else {
                    0
                },
                argument: argument(call, &mut c, width),
                ..Case::default()
            });
        }
    }
    // Any noise and size; every other one likely to pass a gate or to have a fit.
    let likely = call.likely();
    for i in 0..random {
        let tested = !likely.is_empty() && i % 2 == 0;
        let sides = if tested { &SIDES[6..] } else { &SIDES[..] };
        let (width, height) = (c.of(sides), c.of(sides));
        cases.push(Case {
            kind: if tested {
                c.of(likely)
            } else {
                c.below(NOISES) + 16 * c.below(4)
            },
            share: if tested { 5 + c.below(4) } else { c.below(17) },
            width,
            height,
            depth: depth(&mut c),
            format: format(&mut c),
            argument: if tested && call == Call::ChromaNoiseGate {
                40
            } else {
                argument(call, &mut c, width)
            },
            ..Case::default()
        });
    }
    for (width, height) in SIZES {
        cases.push(Case {
            kind: c.below(2) + 16 * c.below(3),
            share: c.below(17),
            width,
            height,
            depth: depth(&mut c),
            format: format(&mut c),
            argument: argument(call, &mut c, width),
            ..Case::default()
        });
    }
    if call == Call::FitArLag {
        cases.extend(around_lags(&mut c));
        cases.extend(few_equations(&mut c));
    }
    // Empty planes, which a frame may not have.
    for (width, height) in [
        (0, 0),
        (0, 5),
        (5, 0),
        (4096, 0),
        (0, 4096),
        (4097, 0),
        (0, 4097),
    ] {
        cases.push(Case {
            width,
            height,
            argument: 1,
            ..plain(call)
        });
    }
    cases.extend(refused(call));
    for (i, case) in cases.iter_mut().enumerate() {
        case.seed = i as u32 + 1;
    }
    if matches!(call, Call::FitChromaCorr | Call::FitArLag) {
        assert_every_mark(call, &cases);
    }
    cases.iter().map(|case| line(call, case)).collect()
}

/// Luma and chroma planes around the least sizes that have a fit.
fn around_lags(c: &mut Choice) -> Vec<Case> {
    let mut cases = Vec::new();
    for lag in 1..=3 {
        for width in [
            1,
            lag,
            2 * lag,
            2 * lag + 1,
            2 * lag + 2,
            4 * lag,
            4 * lag + 1,
            4 * lag + 2,
        ] {
            for height in [lag, lag + 1, 2 * lag, 2 * lag + 1, 4 * lag + 3] {
                cases.push(Case {
                    kind: c.of(&[0, 1, 5, 9, 12]) + 16 * c.below(4),
                    share: c.below(17),
                    width,
                    height,
                    depth: c.of(&DEPTHS),
                    format: c.below(4),
                    argument: lag as u64,
                    ..Case::default()
                });
            }
        }
    }
    cases
}

/// No more equations than chroma has unknowns: coefficients past the ends of their range.
fn few_equations(c: &mut Choice) -> Vec<Case> {
    let mut cases = Vec::new();
    for (argument, width, height) in [(1, 3, 6), (2, 5, 15), (3, 11, 8)] {
        for _ in 0..8 {
            cases.push(Case {
                kind: c.of(&[33, 49]),
                share: c.below(17),
                width,
                height,
                depth: c.of(&DEPTHS),
                format: 3,
                argument,
                ..Case::default()
            });
        }
    }
    cases
}

/// Every mark but NaN is met where the call has coefficients. NaN is met by the quantiser alone.
fn assert_every_mark(call: Call, cases: &[Case]) {
    let mut met: [Vec<Mark>; 5] = Default::default();
    for case in cases {
        for (all, more) in met.iter_mut().zip(call.marks(case)) {
            all.extend(more);
        }
    }
    let places = ["Y", "Cb", "Cr", "Cb's luma tap", "Cr's luma tap"];
    for (place, all) in places.into_iter().zip(met) {
        for mark in [Mark::Inside, Mark::HeldLow, Mark::HeldHigh] {
            let is_met = all.is_empty() || all.contains(&mark);
            assert!(is_met, "{place}: no {mark:?} is recorded");
        }
    }
}

/// A call that is accepted.
fn plain(call: Call) -> Case {
    Case {
        width: 7,
        height: 5,
        depth: if call.has_depth() { 8 } else { 16 },
        format: u64::from(call.is_frame()),
        argument: 1,
        ..Case::default()
    }
}

/// Each question failed by itself, and the first of two.
fn refused(call: Call) -> Vec<Case> {
    let good = plain(call);
    let mut cases = vec![
        Case {
            width: 4097,
            height: 1,
            ..good
        },
        Case {
            width: 1,
            height: 4097,
            ..good
        },
        Case {
            width: 4097,
            height: 1,
            fault: 9,
            ..good
        },
    ];
    if call.has_depth() {
        for depth in [0, 7, 9, 11, 13, 255] {
            cases.push(Case { depth, ..good });
        }
        cases.push(Case {
            width: 4097,
            height: 1,
            depth: 9,
            ..good
        });
        cases.push(Case {
            depth: 9,
            fault: 9,
            ..good
        });
    }
    if call.is_frame() {
        for format in [4, 255] {
            cases.push(Case { format, ..good });
        }
        cases.push(Case {
            width: 0,
            depth: 9,
            ..good
        });
        cases.push(Case {
            depth: 9,
            format: 4,
            ..good
        });
        cases.push(Case {
            format: 4,
            fault: 9,
            ..good
        });
    }
    // A plane that a call has not is not spoiled by a fault, and the call is accepted.
    for format in if call.is_frame() { 0..4 } else { 0..1 } {
        for plane in 1..7 {
            for fault in [8, 16, 24] {
                cases.push(Case {
                    format,
                    fault: fault + plane,
                    ..good
                });
            }
        }
    }
    if call.has_depth() {
        for depth in [10, 12] {
            cases.push(Case {
                depth,
                fault: 25,
                ..good
            });
            cases.push(Case {
                depth,
                fault: 28,
                ..good
            });
        }
    }
    if call == Call::FitArLag {
        for argument in [4, 5, u64::MAX] {
            cases.push(Case { argument, ..good });
        }
        cases.push(Case {
            argument: 4,
            fault: 25,
            ..good
        });
    }
    cases
}

/// The neighbours of each lag, and the lags that are refused.
fn positions() -> Lines {
    let accepted = (0..4).map(|lag| {
        let places = reach::ar_positions(lag);
        let padded = |part: fn(&(i32, i32)) -> i32| {
            let mut all: Vec<u64> = places.iter().map(|p| signed(part(p))).collect();
            all.resize(24, 0);
            all
        };
        let parts = [vec![places.len() as u64], padded(|p| p.0), padded(|p| p.1)];
        vec![0, digest(parts.into_iter().flatten()), lag as u64]
    });
    let refused = [4, 5, u64::MAX].map(|lag| vec![7, 0, lag]);
    accepted.chain(refused).collect()
}

/// The solver: every kind of equations at orders from 1 to 25, and the orders that are refused.
fn systems() -> Lines {
    let mut lines = Vec::new();
    let mut seed = 0;
    for kind in 0..10 {
        for order in [1, 2, 3, 4, 5, 8, 12, 13, 24, 25] {
            for _ in 0..2 {
                seed += 1;
                let a = (0..order).map(|r| row(kind, r, seed, order)).collect();
                let answer = match reach::solve_normal(a, row(0, 25, seed, order)) {
                    None => 0,
                    Some(mut x) => {
                        x.resize(25, 0.0);
                        digest([1, order as u64].into_iter().chain(x.into_iter().map(bits)))
                    }
                };
                lines.push(vec![0, answer, kind, order as u64, u64::from(seed)]);
            }
        }
    }
    for order in [0, 26, 27, 4096, u64::MAX] {
        lines.push(vec![8, 0, 1, order, 1]);
    }
    lines
}

/// The quantiser: halves and their neighbours, what is held back, what is no number, and any bits.
fn coefficients() -> Lines {
    let mut floats = vec![
        0.0,
        -0.0,
        f64::NAN,
        f64::INFINITY,
        f64::MAX,
        f64::MIN_POSITIVE,
        5e-324,
        1.0,
    ];
    floats.extend([
        -f64::NAN,
        f64::NEG_INFINITY,
        f64::MIN,
        -f64::MIN_POSITIVE,
        -5e-324,
        -1.0,
    ]);
    for end in [2147483647.0, 2147483648.0, 2147483649.0] {
        floats.extend([end / 64.0, -end / 64.0]);
    }
    for k in (-130..130).step_by(4).chain([-129, 0, -1, 126, 127]) {
        let half = (f64::from(k) + 0.5) / 64.0;
        floats.extend([half, half.next_up(), half.next_down()]);
    }
    let mut c = Choice(77);
    let any = (0..80).map(|_| f64::from_bits(c.below(1 << 24) << 40 | c.below(1 << 24)));
    floats
        .into_iter()
        .chain(any.collect::<Vec<_>>())
        .map(|x| {
            let answer = digest([signed(reach::quant_ar(x)), marks::quant_ar(x) as u64]);
            vec![0, answer, x.to_bits()]
        })
        .collect()
}

fn seeds() -> Lines {
    let mut c = Choice(91);
    let any: Vec<u64> = (0..50)
        .map(|_| c.below(1 << 24) << 8 | c.below(256))
        .collect();
    [0, 1, 2, 3, 65535, 65536, 65537, u64::from(u32::MAX)]
        .into_iter()
        .chain(any)
        .map(|hint| vec![0, u64::from(reach::grain_seed_for(hint as u32)), hint])
        .collect()
}

/// The register: every number of bits, and those that are refused.
fn registers() -> Lines {
    let mut c = Choice(113);
    let mut lines = Vec::new();
    for i in 0..8 {
        let state = if i < 3 {
            [0, 1, 65535][i]
        } else {
            c.below(65536)
        };
        for bits in 0..=16 {
            let mut register = RandomRegister::new(state as u16);
            let drawn = register.next(bits);
            let answer = u64::from(drawn) << 16 | u64::from(register.state);
            lines.push(vec![0, answer, state, u64::from(bits)]);
        }
        for bits in [17, 18, 32, u64::from(u32::MAX)] {
            lines.push(vec![9, state, state, bits]);
        }
    }
    lines
}
