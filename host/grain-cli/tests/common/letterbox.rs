//! Pictures with bars around them.
#![allow(dead_code)] // each test file uses a part

use super::Planes;
use grain::{Format, Rectangle, Shape};

/// What bars are made of: limited range's black.
pub fn black(shape: Shape) -> Planes {
    let plane = |samples: usize, level: u16| vec![level << (shape.depth - 8); samples];
    let (y, c) = (shape.luma_samples(), shape.chroma_samples());
    Planes {
        shape,
        planes: [plane(y, 16), plane(c, 128), plane(c, 128)],
    }
}

/// Puts a picture over a part of a frame, sample by sample. The place is one at which a rectangle may start.
pub fn put(picture: &Planes, (left, top): (usize, usize), frame: &mut Planes) {
    let (across, down) = match frame.shape.format {
        Format::Yuv420 => (2, 2),
        Format::Yuv422 => (2, 1),
        Format::Monochrome | Format::Yuv444 => (1, 1),
    };
    let (small, large) = (picture.shape, frame.shape);
    let places = [
        (left, top, small.width, large.width),
        (
            left / across,
            top / down,
            small.chroma_width(),
            large.chroma_width(),
        ),
        (
            left / across,
            top / down,
            small.chroma_width(),
            large.chroma_width(),
        ),
    ];
    let planes = picture.planes.iter().zip(&mut frame.planes).zip(places);
    for ((from, to), (left, top, width, stride)) in planes {
        for (at, &sample) in from.iter().enumerate() {
            to[(top + at / width) * stride + left + at % width] = sample;
        }
    }
}

/// A rectangle as the command line has it.
pub fn words(of: Rectangle) -> String {
    format!("{},{},{},{}", of.left, of.top, of.width, of.height)
}
