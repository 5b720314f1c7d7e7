//! The calls on planes, and what the Rust answers to each.
use crate::draws::{bits, digest, signed};
use crate::planes::{Case, Pair};
use crate::questions::refusal;
use oracle::marks::{self, Mark};
use oracle::{ChromaFormat, YuvFrame, reach};

#[derive(Clone, Copy, PartialEq, Eq)]
pub enum Call {
    DenoisePlane,
    DenoiseFrame,
    PlaneSigma16,
    NoiseEstimate,
    LagHRho,
    FilmGrainProbe,
    ChromaNoiseGate,
    FitChromaCorr,
    FitArLag,
}

impl Call {
    pub fn is_frame(self) -> bool {
        !matches!(
            self,
            Call::DenoisePlane | Call::PlaneSigma16 | Call::LagHRho
        )
    }

    pub fn has_depth(self) -> bool {
        self != Call::DenoisePlane
    }

    /// Whether pair i has luma's size.
    pub fn is_luma(self, i: usize) -> bool {
        match self {
            Call::ChromaNoiseGate => false,
            Call::FilmGrainProbe => true,
            _ => i == 0,
        }
    }

    /// The noises by which a gate often says yes, and a fit is often found.
    pub fn likely(self) -> &'static [u64] {
        match self {
            Call::FilmGrainProbe | Call::ChromaNoiseGate => &[0, 5, 16, 21],
            Call::FitArLag => &[0, 1, 16, 17, 21, 23, 48],
            _ => &[],
        }
    }

    fn pairs(self, case: &Case) -> Vec<Pair> {
        match self {
            Call::DenoisePlane | Call::PlaneSigma16 | Call::LagHRho => vec![case.luma_pair(1)],
            Call::FilmGrainProbe => vec![case.luma_pair(1), case.luma_pair(2)],
            Call::ChromaNoiseGate => vec![case.chroma_pair(1), case.chroma_pair(2)],
            _ => vec![case.luma_pair(1), case.chroma_pair(2), case.chroma_pair(3)],
        }
    }

    /// The refusal and the answer, as a line has them.
    pub fn record(self, case: &Case) -> (u64, u64) {
        let pairs = self.pairs(case);
        let number = refusal(self, case, &pairs);
        if number == 0 {
            return (0, self.answer(case, &pairs));
        }
        let left = match self {
            Call::DenoisePlane | Call::DenoiseFrame => digest(
                pairs
                    .iter()
                    .flat_map(|p| p.den.iter().map(|&s| u64::from(s))),
            ),
            _ => 0,
        };
        (number, left)
    }

    fn answer(self, case: &Case, pairs: &[Pair]) -> u64 {
        let (w, h) = (case.width, case.height);
        let depth = case.depth as u8;
        let Pair { src, den } = &pairs[0];
        let lag = case.argument as usize;
        match self {
            Call::DenoisePlane => {
                let mut dst = den.clone();
                reach::denoise_plane(src, &mut dst, w, h);
                digest(dst.into_iter().map(u64::from))
            }
            Call::PlaneSigma16 => reach::plane_sigma16(src, den, depth),
            Call::LagHRho => bits(reach::lag_h_rho(src, den, w, h, lag)),
            Call::DenoiseFrame => {
                let d = reach::denoise_frame(&frame(
                    case,
                    [&pairs[0].src, &pairs[1].src, &pairs[2].src],
                ));
                digest([d.y, d.u, d.v].into_iter().flatten().map(u64::from))
            }
            Call::FilmGrainProbe => {
                let luma = |y: &Vec<u16>| frame(case, [y, &vec![], &vec![]]);
                let frames = [luma(&pairs[0].src), luma(&pairs[1].src)];
                let denoised = [luma(&pairs[0].den), luma(&pairs[1].den)];
                u64::from(reach::film_grain_probe(&frames, &denoised))
            }
            Call::ChromaNoiseGate => {
                let cb = |c: &Vec<u16>| frame(case, [&vec![], c, &vec![]]);
                let frames = [cb(&pairs[0].src), cb(&pairs[1].src)];
                let denoised = [cb(&pairs[0].den), cb(&pairs[1].den)];
                u64::from(reach::chroma_noise_gate(
                    &frames,
                    &denoised,
                    1,
                    case.argument,
                ))
            }
            Call::NoiseEstimate | Call::FitChromaCorr | Call::FitArLag => {
                let [source, denoised] = frames(case, pairs);
                self.of_frames(&source, &denoised, lag)
            }
        }
    }

    /// The marks of a fit or a chroma correlation: of Y, of Cb and of Cr, then of the luma taps of Cb and of Cr.
    pub fn marks(self, case: &Case) -> [Vec<Mark>; 5] {
        let pairs = self.pairs(case);
        if refusal(self, case, &pairs) != 0 {
            return Default::default();
        }
        let [source, denoised] = frames(case, &pairs);
        if self == Call::FitChromaCorr {
            let [cb, cr] = marks::fit_chroma_corr(&source, &denoised);
            return [vec![], vec![], vec![], vec![cb], vec![cr]];
        }
        let found = marks::fit_ar_lag(&source, &denoised, case.argument as usize);
        let [y, mut cb, mut cr] = found.unwrap_or_default();
        let [cb_tap, cr_tap] = [&mut cb, &mut cr].map(|all| all.pop().into_iter().collect());
        [y, cb, cr, cb_tap, cr_tap]
    }

    fn of_frames(self, source: &YuvFrame, denoised: &YuvFrame, lag: usize) -> u64 {
        match self {
            Call::NoiseEstimate => {
                let e = reach::noise_estimate(source, denoised);
                let luma = [e.sigma16].into_iter().chain(e.bin_sigma16);
                let cb = [e.cb_sigma16].into_iter().chain(e.cb_bin_sigma16);
                let cr = [e.cr_sigma16].into_iter().chain(e.cr_bin_sigma16);
                digest(luma.chain(cb).chain(cr))
            }
            Call::FitChromaCorr => {
                let fit = reach::fit_chroma_corr(source, denoised);
                let taps = [fit.cb[0], fit.cr[0]].map(signed);
                let marks = marks::fit_chroma_corr(source, denoised).map(|m| m as u64);
                digest(taps.into_iter().chain(marks))
            }
            _ => match reach::fit_ar_lag(source, denoised, lag) {
                None => 0,
                Some(fit) => {
                    let head = [1, fit.y.len() as u64];
                    let taps = [fit.y, fit.cb, fit.cr].map(|c| c.into_iter().map(signed).collect());
                    let marks = marks::fit_ar_lag(source, denoised, lag).expect("of a fit");
                    let marks = marks.map(|m| m.into_iter().map(|m| m as u64).collect());
                    digest(head.into_iter().chain(whole(taps)).chain(whole(marks)))
                }
            },
        }
    }
}

/// The values of Y, Cb and Cr with the zeros of unused places.
fn whole(planes: [Vec<u64>; 3]) -> impl Iterator<Item = u64> {
    planes
        .into_iter()
        .zip([24, 25, 25])
        .flat_map(|(mut all, n)| {
            all.resize(n, 0);
            all
        })
}

/// The frame of three pairs, and its denoised copy.
fn frames(case: &Case, pairs: &[Pair]) -> [YuvFrame; 2] {
    [
        frame(case, [&pairs[0].src, &pairs[1].src, &pairs[2].src]),
        frame(case, [&pairs[0].den, &pairs[1].den, &pairs[2].den]),
    ]
}

fn frame(case: &Case, planes: [&Vec<u16>; 3]) -> YuvFrame {
    let [y, u, v] = planes.map(Clone::clone);
    YuvFrame {
        width: case.width as u32,
        height: case.height as u32,
        bit_depth: case.depth as u8,
        format: match case.format {
            0 => ChromaFormat::Monochrome,
            1 => ChromaFormat::Yuv420,
            2 => ChromaFormat::Yuv422,
            _ => ChromaFormat::Yuv444,
        },
        y,
        u,
        v,
    }
}
