//! The part of a plane that the active rectangle cuts out, for what the library takes no rectangle for.

use grain::{Format, Rectangle, Shape};
use std::borrow::Cow;

/// A part of a plane, in the plane's own samples.
#[derive(Clone, Copy)]
pub struct Window {
    left: usize,
    top: usize,
    pub width: usize,
    pub height: usize,
    /// Samples of a row of the plane.
    stride: usize,
}

impl Window {
    pub fn luma(shape: Shape) -> Self {
        let Rectangle {
            left,
            top,
            width,
            height,
        } = shape.active;
        Window {
            left,
            top,
            width,
            height,
            stride: shape.width,
        }
    }

    pub fn chroma(shape: Shape) -> Self {
        let (across, down) = halving(shape.format);
        let Rectangle {
            left,
            top,
            width,
            height,
        } = shape.active;
        let cut_out = Shape::new(width, height, shape.depth, shape.format);
        Window {
            left: left / across,
            top: top / down,
            width: cut_out.chroma_width(),
            height: cut_out.chroma_height(),
            stride: shape.chroma_width(),
        }
    }

    /// The samples in it, row after row.
    pub fn cut<'a>(&self, plane: &'a [u16]) -> Cow<'a, [u16]> {
        let rows = &plane[self.top * self.stride..][..self.height * self.stride];
        if self.width == self.stride {
            return rows.into();
        }
        let rows = rows.chunks_exact(self.stride);
        let inside: Vec<_> = rows.map(|row| &row[self.left..][..self.width]).collect();
        inside.concat().into()
    }

    /// Puts samples that were cut out back to their places.
    pub fn paste(&self, samples: &[u16], plane: &mut [u16]) {
        if samples.is_empty() {
            return;
        }
        let rows = plane.chunks_exact_mut(self.stride).skip(self.top);
        for (row, samples) in rows.zip(samples.chunks_exact(self.width)) {
            row[self.left..][..self.width].copy_from_slice(samples);
        }
    }
}

/// How many luma samples share a chroma sample, across and down.
pub fn halving(format: Format) -> (usize, usize) {
    match format {
        Format::Yuv420 => (2, 2),
        Format::Yuv422 => (2, 1),
        Format::Monochrome | Format::Yuv444 => (1, 1),
    }
}
