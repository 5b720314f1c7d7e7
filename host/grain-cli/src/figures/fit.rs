//! The coefficients of a fit.

use super::{Coefficient, Planes};
use grain::{ArFit, Mark};
use serde::Serialize;

/// A frame's fit at one lag.
#[derive(Debug, Clone, Serialize)]
pub struct FrameFit {
    pub lag: u8,
    #[serde(flatten)]
    pub fit: Fit<Coefficient>,
}

/// Auto-regressive coefficients in 64ths, in the order of the neighbours; chroma has a luma tap besides. Of a frame they
/// are whole numbers, of a clip their spread.
#[derive(Debug, Clone, Serialize)]
pub struct Fit<T> {
    pub y: Vec<T>,
    pub cb: Option<ChromaFit<T>>,
    pub cr: Option<ChromaFit<T>>,
}

#[derive(Debug, Clone, Serialize)]
pub struct ChromaFit<T> {
    pub coefficients: Vec<T>,
    pub luma_tap: T,
}

impl<T> ChromaFit<T> {
    fn map<U>(&self, f: &impl Fn(&T) -> U) -> ChromaFit<U> {
        ChromaFit {
            coefficients: self.coefficients.iter().map(f).collect(),
            luma_tap: f(&self.luma_tap),
        }
    }

    fn iter(&self) -> impl Iterator<Item = &T> {
        self.coefficients.iter().chain([&self.luma_tap])
    }
}

impl<T> Fit<T> {
    /// A plane's coefficients and luma tap.
    pub fn plane(&self, name: &str) -> Option<(&[T], Option<&T>)> {
        let chroma = match name {
            "Y" => return Some((&self.y, None)),
            "Cb" => self.cb.as_ref()?,
            _ => self.cr.as_ref()?,
        };
        Some((&chroma.coefficients, Some(&chroma.luma_tap)))
    }

    pub fn map<U>(&self, f: impl Fn(&T) -> U) -> Fit<U> {
        Fit {
            y: self.y.iter().map(&f).collect(),
            cb: self.cb.as_ref().map(|fit| fit.map(&f)),
            cr: self.cr.as_ref().map(|fit| fit.map(&f)),
        }
    }

    /// All coefficients and luma taps.
    pub fn iter(&self) -> impl Iterator<Item = &T> {
        let chroma = [&self.cb, &self.cr].into_iter().flatten();
        self.y.iter().chain(chroma.flat_map(ChromaFit::iter))
    }

    /// Adds each coefficient to what is gathered of it.
    pub fn add<U>(&mut self, more: &Fit<U>, add: impl Fn(&mut T, &U)) {
        let each = |sums: &mut [T], more: &[U]| {
            sums.iter_mut().zip(more).for_each(|(s, m)| add(s, m));
        };
        each(&mut self.y, &more.y);
        for (sums, more) in [(&mut self.cb, &more.cb), (&mut self.cr, &more.cr)] {
            if let (Some(sums), Some(more)) = (sums, more) {
                each(&mut sums.coefficients, &more.coefficients);
                add(&mut sums.luma_tap, &more.luma_tap);
            }
        }
    }
}

impl FrameFit {
    pub(super) fn new(found: ArFit, colour: bool) -> Self {
        let marked = |numbers: Vec<i32>, marks: Vec<Mark>| -> Vec<Coefficient> {
            let pairs = numbers.into_iter().zip(marks);
            let coefficient = |(number, mark)| Coefficient { number, mark };
            pairs.map(coefficient).collect()
        };
        let chroma = |mut coefficients: Vec<Coefficient>| {
            let luma_tap = coefficients.pop()?;
            colour.then_some(ChromaFit {
                coefficients,
                luma_tap,
            })
        };
        FrameFit {
            lag: found.lag,
            fit: Fit {
                y: marked(found.y, found.y_marks),
                cb: chroma(marked(found.cb, found.cb_marks)),
                cr: chroma(marked(found.cr, found.cr_marks)),
            },
        }
    }

    /// The planes in which a coefficient is held or NaN.
    pub fn marked(&self) -> Planes<bool> {
        let Fit { y, cb, cr } = &self.fit;
        let chroma = |of: &ChromaFit<Coefficient>| of.iter().any(Coefficient::marked);
        Planes {
            y: y.iter().any(Coefficient::marked),
            cb: cb.as_ref().map(chroma),
            cr: cr.as_ref().map(chroma),
        }
    }
}
