//! Black bars, told by what is brighter than they are. The rule is tested, not proved; docs/REPORT.md has it in words.

use crate::window::halving;
use grain::{Rectangle, Shape};

/// How many frames are looked at. A pipe is read once, so they are held until they are worked on.
pub const LOOK: usize = 8;

/// The brightest luma sample of a bar, in 8-bit steps: limited range's black, 16, and what noise may add to it.
const BLACK: u16 = 24;

/// Bars leave one part in so many of the width and of the height at least: 2.76:1 in 4:3 leaves 48 %, 9:16 in 16:9 leaves
/// 32 %. Where less is bright, it is a title, or a light in the dark.
const PARTS: usize = 4;

/// The rows and the columns, each from the first to the last, that have a luma sample above black.
pub struct Bright {
    shape: Shape,
    rows: Option<(usize, usize)>,
    columns: Option<(usize, usize)>,
}

impl Bright {
    /// Before a frame is looked at.
    pub fn none(shape: Shape) -> Self {
        Bright {
            shape,
            rows: None,
            columns: None,
        }
    }

    pub fn look(&mut self, luma: &[u16]) {
        let black = BLACK << (self.shape.depth - 8);
        let above = |sample: &u16| *sample > black;
        for (at, row) in luma.chunks_exact(self.shape.width).enumerate() {
            if let Some(first) = row.iter().position(above)
                && let Some(last) = row.iter().rposition(above)
            {
                widen(&mut self.rows, (at, at));
                widen(&mut self.columns, (first, last));
            }
        }
    }

    /// The rectangle that the bars leave; `None` where too little is bright for bars to be told.
    pub fn between(&self) -> Option<Rectangle> {
        let (across, down) = halving(self.shape.format);
        let (left, width) = inside(self.columns?, across, self.shape.width)?;
        let (top, height) = inside(self.rows?, down, self.shape.height)?;
        Some(Rectangle {
            left,
            top,
            width,
            height,
        })
    }
}

fn widen(ends: &mut Option<(usize, usize)>, more: (usize, usize)) {
    let (first, last) = ends.unwrap_or(more);
    *ends = Some((first.min(more.0), last.max(more.1)));
}

/// Start and length of what is bright of a side, from the first place at which a rectangle may start.
fn inside((first, last): (usize, usize), step: usize, side: usize) -> Option<(usize, usize)> {
    let start = first.next_multiple_of(step);
    let length = (last + 1).saturating_sub(start);
    (PARTS * length >= side).then_some((start, length))
}
