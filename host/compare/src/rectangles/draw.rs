//! How a run draws rectangles.

use super::halved;
use crate::case::Case;
use crate::noise::Size;
use crate::random::Random;
use grain::{Rectangle, SIDE_LIMIT};

/// Puts a frame around the picture of a case, or leaves the picture a whole frame; once in a while the rectangle is one
/// that no frame can have.
pub fn place(random: &mut Random, case: &mut Case) {
    let sides = [case.width, case.height];
    let framed = sides.iter().all(|side| (1..=SIDE_LIMIT).contains(side));
    if framed && !random.once_in(3) {
        let ((width, height), active) = around(random, (case.width, case.height), case.format);
        (case.width, case.height, case.active) = (width, height, Some(active));
    }
    if random.once_in(10) {
        let mut active = case.rectangle();
        spoil(random, (case.width, case.height), &mut active);
        case.active = Some(active);
    }
}

/// A frame, and where a picture of this size is in it.
fn around(random: &mut Random, (width, height): Size, format: u8) -> (Size, Rectangle) {
    let [along, down] = halved(format);
    let (frame_width, left) = side(random, width, along);
    let (frame_height, top) = side(random, height, down);
    let active = Rectangle {
        left,
        top,
        width,
        height,
    };
    ((frame_width, frame_height), active)
}

/// A frame's side about a picture's, and where the picture's begins.
fn side(random: &mut Random, length: usize, halved: bool) -> (usize, usize) {
    let room = SIDE_LIMIT - length;
    let mut margin = || {
        let any = random.below(20);
        random.pick(&[0, 0, 1, 2, 3, any])
    };
    let (before, after) = (margin().min(room), margin());
    let before = if halved { before / 2 * 2 } else { before };
    (before + length + after.min(room - before), before)
}

const LARGE: [usize; 5] = [4097, 1 << 32, 1 << 63, usize::MAX - 1, usize::MAX];

/// Mostly breaks one rule.
fn spoil(random: &mut Random, (w, h): Size, active: &mut Rectangle) {
    let Rectangle {
        left,
        top,
        width,
        height,
    } = active;
    match random.below(12) {
        0 => *width = 0,
        1 => *height = 0,
        2 => *width = w.wrapping_sub(*left).wrapping_add(1),
        3 => *height = h.wrapping_sub(*top).wrapping_add(1),
        4 | 5 => (*left, *width) = (*left + 1, width.saturating_sub(1).max(1)),
        6 | 7 => (*top, *height) = (*top + 1, height.saturating_sub(1).max(1)),
        8 => (*left, *width) = wrapping(random, w),
        9 => (*top, *height) = wrapping(random, h),
        _ => {
            let number = random.pick(&LARGE);
            *[left, top, width, height][random.below(4)] = number;
        }
    }
}

/// An even start and a length whose sum is 2^64 and some place within a side.
fn wrapping(random: &mut Random, side: usize) -> (usize, usize) {
    let back: usize = random.pick(&[2, 4, 4096, 1 << 32, 1 << 63]);
    let place = random.below(side.min(SIDE_LIMIT) + 1);
    (back.wrapping_neg(), back + place)
}
