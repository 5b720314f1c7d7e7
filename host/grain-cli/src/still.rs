//! A frame with its denoised copy.

use crate::clip::Picture;
use crate::pool::Pool;
use crate::window::Window;
use anyhow::{Error, Result, anyhow};
use grain::{Frame, Pair, Rectangle, Refusal, Shape};
use std::sync::{Arc, OnceLock};

/// A frame with its denoised copy, which is made when it is first asked for.
pub struct Still {
    pub index: usize,
    /// What it belongs to, in messages.
    name: Arc<str>,
    shape: Shape,
    pool: Arc<Pool>,
    source: Picture,
    denoised: OnceLock<Result<Picture, Refusal>>,
}

/// Its pictures are used again.
impl Drop for Still {
    fn drop(&mut self) {
        let source = std::mem::take(&mut self.source);
        let denoised = self.denoised.take().and_then(Result::ok);
        let pictures = [Some(source), denoised].into_iter().flatten();
        pictures.for_each(|picture| self.pool.give(picture));
    }
}

impl Still {
    /// A frame with pictures of the pool; its denoised copy is made where none is given.
    pub fn new(
        index: usize,
        name: Arc<str>,
        pool: Arc<Pool>,
        shape: Shape,
        source: Picture,
        denoised: Option<Picture>,
    ) -> Self {
        Still {
            index,
            name,
            shape,
            pool,
            source,
            denoised: denoised.map_or_else(OnceLock::new, |picture| OnceLock::from(Ok(picture))),
        }
    }

    fn source(&self) -> Frame<'_> {
        self.source.lent(self.shape)
    }

    pub fn denoised_picture(&self) -> Result<&Picture> {
        let made = self.denoised.get_or_init(|| {
            let mut copy = self.pool.take();
            copy.words.clone_from(&self.source.words);
            self.denoise(&mut copy)?;
            Ok(copy)
        });
        made.as_ref().map_err(|&refusal| self.refused(refusal))
    }

    /// The active rectangle is denoised as a frame of its own, so that the step at a bar's edge is no noise. Around it the
    /// copy is the frame.
    fn denoise(&self, copy: &mut Picture) -> Result<(), Refusal> {
        let (shape, source) = (self.shape, &self.source);
        if shape.active == Rectangle::whole(shape.width, shape.height) {
            return grain::denoise_frame(&self.source(), &mut copy.y, &mut copy.cb, &mut copy.cr);
        }
        let (luma, chroma) = (Window::luma(shape), Window::chroma(shape));
        for (window, source, copy) in [
            (luma, &source.y, &mut copy.y),
            (chroma, &source.cb, &mut copy.cb),
            (chroma, &source.cr, &mut copy.cr),
        ] {
            let inside = window.cut(source);
            let mut denoised = vec![0; inside.len()];
            grain::denoise_plane(&inside, &mut denoised, window.width, window.height)?;
            copy.clone_from(source);
            window.paste(&denoised, copy);
        }
        Ok(())
    }

    pub fn pair(&self) -> Result<Pair<'_>> {
        let denoised = self.denoised_picture()?.lent(self.shape);
        Ok(Pair::new(self.source(), denoised)?)
    }

    /// What to say where a call refuses this frame.
    pub fn refused(&self, refusal: Refusal) -> Error {
        let depth = self.shape.depth;
        let highest = (1u32 << depth) - 1;
        let words = match refusal {
            Refusal::SampleAboveDepth => {
                let number = refusal.number();
                format!(
                    "it has a sample above {highest}, the highest of {depth} bits (question {number})"
                )
            }
            _ => refusal.to_string(),
        };
        anyhow!("{}: frame {}: {words}", self.name, self.index)
    }
}

/// A frame to work on, and the one after it.
pub struct Task {
    pub first: Arc<Still>,
    pub second: Option<Arc<Still>>,
}
