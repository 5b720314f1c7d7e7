//! Figures that each plane has.

use serde::Serialize;

/// One figure for each plane; a monochrome clip has Y alone.
#[derive(Debug, Clone, Serialize)]
pub struct Planes<T> {
    pub y: T,
    pub cb: Option<T>,
    pub cr: Option<T>,
}

impl<T> Planes<T> {
    /// The planes that there are, with their names.
    pub fn named(&self) -> impl Iterator<Item = (&'static str, &T)> {
        let chroma = [("Cb", &self.cb), ("Cr", &self.cr)];
        let chroma = chroma
            .into_iter()
            .filter_map(|(name, plane)| Some((name, plane.as_ref()?)));
        [("Y", &self.y)].into_iter().chain(chroma)
    }

    pub fn map<U>(&self, f: impl Fn(&T) -> U) -> Planes<U> {
        Planes {
            y: f(&self.y),
            cb: self.cb.as_ref().map(&f),
            cr: self.cr.as_ref().map(&f),
        }
    }

    /// Adds each plane's figure to what is gathered of that plane.
    pub fn add<U>(&mut self, more: &Planes<U>, add: impl Fn(&mut T, &U)) {
        add(&mut self.y, &more.y);
        for (sums, more) in [(&mut self.cb, &more.cb), (&mut self.cr, &more.cr)] {
            if let (Some(sums), Some(more)) = (sums, more) {
                add(sums, more);
            }
        }
    }
}
