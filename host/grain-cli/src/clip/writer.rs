//! A clip that is written.

use super::{Header, Picture};
use std::io::{self, Write};

/// A clip that is written frame by frame. Its first line is the one it was made from, so that what this crate has no
/// use for (frame rate, interlacing, colour range) is kept.
pub struct Writer<W: Write> {
    output: W,
    wide: bool,
    bytes: Vec<u8>,
}

impl<W: Write> Writer<W> {
    pub fn new(mut output: W, header: &Header) -> io::Result<Self> {
        output.write_all(&header.line)?;
        output.write_all(b"\n")?;
        Ok(Writer {
            output,
            wide: header.bytes_per_sample() == 2,
            bytes: Vec::new(),
        })
    }

    pub fn picture(&mut self, picture: &Picture) -> io::Result<()> {
        self.bytes.clear();
        self.bytes.extend_from_slice(b"FRAME");
        if !picture.words.is_empty() {
            self.bytes.push(b' ');
            self.bytes.extend_from_slice(picture.words.as_bytes());
        }
        self.bytes.push(b'\n');
        for plane in [&picture.y, &picture.cb, &picture.cr] {
            if self.wide {
                self.bytes
                    .extend(plane.iter().flat_map(|s| s.to_le_bytes()));
            } else {
                // A sample of an 8-bit clip is below 256: the denoiser's result lies within its neighbours.
                self.bytes.extend(plane.iter().map(|&s| s as u8));
            }
        }
        self.output.write_all(&self.bytes)
    }

    /// Writes what is held back and gives the output back.
    pub fn end(mut self) -> io::Result<W> {
        self.output.flush()?;
        Ok(self.output)
    }
}
