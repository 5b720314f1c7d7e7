//! YUV4MPEG2 clips: a header line, then for each frame a line and its planes, 16 bits little-endian above 8.

mod colour;
mod header;
mod reader;
mod writer;

pub use header::Header;
pub use reader::Reader;
pub use writer::Writer;

use grain::{Frame, Shape};

/// One frame's planes, and what its line says after the word FRAME.
#[derive(Default)]
pub struct Picture {
    pub words: String,
    pub y: Vec<u16>,
    pub cb: Vec<u16>,
    pub cr: Vec<u16>,
}

impl Picture {
    /// A picture of zeros.
    pub fn blank(shape: Shape) -> Self {
        Picture {
            words: String::new(),
            y: vec![0; shape.luma_samples()],
            cb: vec![0; shape.chroma_samples()],
            cr: vec![0; shape.chroma_samples()],
        }
    }

    /// The planes lent to a call.
    pub fn lent(&self, shape: Shape) -> Frame<'_> {
        Frame::new(shape, &self.y, &self.cb, &self.cr)
    }
}
