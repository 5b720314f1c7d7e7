//! A clip's figures gathered one frame after another, so that no frame is kept.

use crate::active::Active;
use crate::figures::{
    ChromaTaps, Coefficient, Fit, FrameFigures, FrameFit, Gate, MarkCount, Planes, Profile,
};
use crate::reel::Reel;
use crate::summary::{ClipCoefficient, ClipFigures, ClipFit, GateCount, Spread};
use crate::verdict::Verdict;

/// What is gathered of a clip so far.
#[derive(Default)]
pub struct Tally {
    reported: usize,
    profile: Option<Planes<ProfileTally>>,
    gates: Option<Planes<GateTally>>,
    fits: [Option<FitTally>; 3],
    taps: Option<ChromaTaps<CoefficientTally>>,
    marked: Option<[Planes<usize>; 4]>,
}

impl Tally {
    pub fn add(&mut self, frame: &FrameFigures) {
        self.reported += 1;
        self.profile
            .get_or_insert_with(|| frame.profile.map(ProfileTally::none))
            .add(&frame.profile, ProfileTally::add);
        if let Some(gates) = &frame.gates {
            self.gates
                .get_or_insert_with(|| gates.map(GateTally::none))
                .add(gates, GateTally::add);
        }
        for (tally, fit) in self.fits.iter_mut().zip(&frame.fits) {
            if let Some(fit) = fit {
                tally.get_or_insert_with(|| FitTally::none(fit)).add(fit);
            }
        }
        if let Some(found) = &frame.chroma_taps {
            let none = || found.map(|_| CoefficientTally::default());
            let taps = self.taps.get_or_insert_with(none);
            taps.cb.add(&found.cb);
            taps.cr.add(&found.cr);
        }
        let none = || [(); 4].map(|()| frame.profile.map(|_| 0));
        let marked = self.marked.get_or_insert_with(none);
        for (frames, more) in marked.iter_mut().zip(frame.marked()) {
            if let Some(more) = more {
                frames.add(&more, |frames, &marked| *frames += usize::from(marked));
            }
        }
    }

    /// The clip's figures; `None` where no frame was added.
    pub fn clip(&self, reel: &Reel, active: Active) -> Option<ClipFigures> {
        let shape = reel.shape();
        let gates = self.gates.as_ref().map(|gates| gates.map(GateTally::count));
        let fit = |tally: &FitTally| ClipFit {
            lag: tally.lag,
            fitted: tally.fitted,
            fit: tally.fit.map(CoefficientTally::spread),
        };
        let fits: Vec<_> = self.fits.iter().map(|of| of.as_ref().map(fit)).collect();
        let denoised = reel.copy.as_ref().map(|copy| copy.name.clone());
        let profile = self.profile.as_ref()?.map(|of| of.profile(shape.depth));
        let marked = self.marked.clone()?;
        let verdict = Verdict::new(
            &profile,
            gates.as_ref(),
            &fits,
            (&marked, self.reported),
            denoised.is_some(),
        );
        Some(ClipFigures {
            name: reel.clip.name.clone(),
            width: shape.width,
            height: shape.height,
            depth: shape.depth,
            format: shape.format.name(),
            active,
            from: reel.from(),
            frames: reel.frames(),
            reported: self.reported,
            chroma_taps: self
                .taps
                .as_ref()
                .map(|taps| taps.map(CoefficientTally::spread)),
            verdict,
            denoised,
            profile,
            gates,
            fits,
            marked,
        })
    }
}

/// A figure over the frames so far.
#[derive(Debug, Clone, Copy, Default)]
struct Running {
    count: usize,
    sum: f64,
    least: f64,
    most: f64,
}

impl Running {
    fn add(&mut self, value: f64) {
        let first = self.count == 0;
        self.least = if first { value } else { self.least.min(value) };
        self.most = if first { value } else { self.most.max(value) };
        self.sum += value;
        self.count += 1;
    }

    fn spread(&self) -> Spread {
        Spread {
            mean: self.sum / self.count.max(1) as f64,
            least: self.least,
            most: self.most,
        }
    }
}

/// The profile of all samples: counts and squares add up.
struct ProfileTally {
    /// Of each bin its count and squares.
    bins: Vec<(u64, u64)>,
    energy: u128,
}

impl ProfileTally {
    fn none(like: &Profile) -> Self {
        ProfileTally {
            bins: vec![(0, 0); like.bins.len()],
            energy: 0,
        }
    }

    fn add(&mut self, more: &Profile) {
        for (sums, bin) in self.bins.iter_mut().zip(&more.bins) {
            *sums = (sums.0 + bin.count, sums.1 + bin.squares);
        }
        self.energy += more.energy;
    }

    fn profile(&self, depth: u8) -> Profile {
        let sigma = |(count, squares): (u64, u64)| (squares as f64 / count.max(1) as f64).sqrt();
        let all = self.bins.iter().fold((0, 0), |a, b| (a.0 + b.0, a.1 + b.1));
        let bins = self.bins.iter().map(|&bin| (sigma(bin), bin.0, bin.1));
        let mut profile = Profile::new(sigma(all), self.energy, depth, bins);
        for bin in profile.bins.iter_mut().filter(|bin| !bin.own) {
            bin.sigma = profile.sigma;
        }
        profile
    }
}

struct GateTally {
    first: bool,
    why: Option<&'static str>,
    passed: usize,
    row: Running,
    between: Running,
}

impl GateTally {
    /// Before the pair is added that gives the first answer.
    fn none(first: &Gate) -> Self {
        GateTally {
            first: first.grain,
            why: first.why,
            passed: 0,
            row: Running::default(),
            between: Running::default(),
        }
    }

    fn add(&mut self, pair: &Gate) {
        self.passed += usize::from(pair.grain);
        self.row.add(pair.row_correlation);
        if let Some(between) = pair.frame_correlation {
            self.between.add(between);
        }
    }

    fn count(&self) -> GateCount {
        let some = |of: &Running| (of.count > 0).then(|| of.spread());
        GateCount {
            first: self.first,
            why: self.why,
            pairs: self.row.count,
            passed: self.passed,
            row_correlation: some(&self.row),
            frame_correlation: some(&self.between),
        }
    }
}

/// A coefficient over the frames so far.
#[derive(Default)]
struct CoefficientTally {
    numbers: Running,
    marks: MarkCount,
}

impl CoefficientTally {
    fn add(&mut self, more: &Coefficient) {
        self.numbers.add(more.number.into());
        self.marks += more.mark.into();
    }

    fn spread(&self) -> ClipCoefficient {
        ClipCoefficient {
            spread: self.numbers.spread(),
            marks: self.marks,
        }
    }
}

/// The coefficients over the frames that have a fit.
struct FitTally {
    lag: u8,
    fitted: usize,
    fit: Fit<CoefficientTally>,
}

impl FitTally {
    fn none(like: &FrameFit) -> Self {
        FitTally {
            lag: like.lag,
            fitted: 0,
            fit: like.fit.map(|_| CoefficientTally::default()),
        }
    }

    fn add(&mut self, more: &FrameFit) {
        self.fitted += 1;
        self.fit.add(&more.fit, CoefficientTally::add);
    }
}
