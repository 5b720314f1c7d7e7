//! The active rectangle of a frame: the part of a plane that it covers, and the frame that it cuts out.

pub mod draw;
pub mod outside;
pub mod rules;

use crate::input::{Input, plane_size};
use grain::Rectangle;
use oracle::YuvFrame;

/// Whether a format halves chroma's columns, and whether its rows.
pub fn halved(format: u8) -> [bool; 2] {
    match format {
        1 => [true, true],
        2 => [true, false],
        _ => [false, false],
    }
}

/// What a rectangle covers of a component's plane.
pub fn part(format: u8, active: Rectangle, component: usize) -> Rectangle {
    let (width, height) = plane_size(format, (active.width, active.height), component);
    let [along, down] = match component {
        0 => [0, 0],
        _ => halved(format).map(u32::from),
    };
    Rectangle {
        left: active.left >> along,
        top: active.top >> down,
        width,
        height,
    }
}

/// The part's samples, of a plane so wide.
pub fn crop(plane: &[u16], width: usize, part: Rectangle) -> Vec<u16> {
    let row = |r| &plane[r * width + part.left..][..part.width];
    let rows = part.top..part.top + part.height;
    rows.flat_map(row).copied().collect()
}

/// What the rectangle of an accepted input cuts out, as an input of its own: what the Rust is given. None where that is all
/// of it.
pub fn cut_out(input: &Input) -> Option<Input> {
    let Rectangle { width, height, .. } = input.active;
    let whole = Rectangle::whole(width, height);
    let frames = |frames: &[YuvFrame; 2]| frames.each_ref().map(|frame| cropped(input, frame));
    (input.active != Rectangle::whole(input.width, input.height)).then(|| Input {
        width,
        height,
        active: whole,
        frames: frames(&input.frames),
        denoised: frames(&input.denoised),
        destination: input.destination.clone(),
        system: input.system.clone(),
        header: input.header.clone(),
        ..*input
    })
}

fn cropped(input: &Input, frame: &YuvFrame) -> YuvFrame {
    let crop = |plane: &[u16], component| {
        let (width, _) = plane_size(input.format, (input.width, input.height), component);
        match plane {
            [] => Vec::new(), // not lent
            _ => crop(plane, width, part(input.format, input.active, component)),
        }
    };
    YuvFrame {
        width: input.active.width as u32,
        height: input.active.height as u32,
        y: crop(&frame.y, 0),
        u: crop(&frame.u, 1),
        v: crop(&frame.v, 2),
        ..*frame
    }
}
