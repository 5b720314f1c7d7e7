//! How far chroma's noise follows luma's alone.

use super::{Coefficient, Planes};
use grain::ChromaCorr;
use serde::Serialize;

/// The luma taps where no neighbour has one, in 64ths. Of a frame they are whole numbers, of a clip their spread.
#[derive(Debug, Clone, Copy, Serialize)]
pub struct ChromaTaps<T> {
    pub cb: T,
    pub cr: T,
}

impl<T> ChromaTaps<T> {
    pub fn map<U>(&self, f: impl Fn(&T) -> U) -> ChromaTaps<U> {
        ChromaTaps {
            cb: f(&self.cb),
            cr: f(&self.cr),
        }
    }
}

impl ChromaTaps<Coefficient> {
    pub(super) fn new(found: ChromaCorr) -> Self {
        let coefficient = |number, mark| Coefficient { number, mark };
        ChromaTaps {
            cb: coefficient(found.cb, found.cb_mark),
            cr: coefficient(found.cr, found.cr_mark),
        }
    }

    /// The planes whose tap is held or NaN.
    pub fn marked(&self) -> Planes<bool> {
        Planes {
            y: false,
            cb: Some(self.cb.marked()),
            cr: Some(self.cr.marked()),
        }
    }
}
