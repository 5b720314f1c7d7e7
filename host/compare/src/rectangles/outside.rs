//! The samples outside the rectangle.

use super::part;
use crate::calls::Call;
use crate::input::{Input, plane_size};
use crate::noise::Size;
use crate::random::Random;
use grain::Rectangle;

/// A plane with a picture in this part of it, and samples up to a largest around.
pub fn surrounded(
    random: &mut Random,
    picture: &[u16],
    (w, h): Size,
    part: Rectangle,
    largest: i32,
) -> Vec<u16> {
    let mut sample = || random.between(0, largest) as u16;
    let mut plane: Vec<u16> = (0..w * h).map(|_| sample()).collect();
    for (r, row) in picture.chunks(part.width.max(1)).enumerate() {
        plane[(part.top + r) * w + part.left..][..part.width].copy_from_slice(row);
    }
    plane
}

/// Makes every sample outside the rectangle of an accepted input another, in the planes that the call is lent; how many
/// there are.
pub fn change(random: &mut Random, call: &Call, input: &mut Input) -> usize {
    let most = (1 << input.depth) - 1;
    let mut changed = 0;
    for &place in call.lent {
        let (w, _) = plane_size(input.format, (input.width, input.height), place.component);
        let part = part(input.format, input.active, place.component);
        let rows = part.top..part.top + part.height;
        let columns = part.left..part.left + part.width;
        for (r, row) in input.plane_mut(place).chunks_mut(w.max(1)).enumerate() {
            for (c, sample) in row.iter_mut().enumerate() {
                if !(rows.contains(&r) && columns.contains(&c)) {
                    *sample ^= 1 + random.below(most) as u16;
                    changed += 1;
                }
            }
        }
    }
    changed
}
