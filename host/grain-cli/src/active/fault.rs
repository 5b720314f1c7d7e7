//! What stands against an active rectangle. The library's question 12 is one for all causes.

use crate::window::halving;
use grain::Shape;

/// Why the library refuses the shape's active rectangle, in words that go on from its name; `None` where it doesn't.
pub fn fault(shape: Shape) -> Option<String> {
    let active = shape.active;
    if active.width == 0 || active.height == 0 {
        return Some("is empty: width and height must each be at least 1".to_string());
    }
    let leaves = |start: usize, length: usize, side| {
        let end = start.checked_add(length);
        end.is_none_or(|end| end > side)
    };
    if leaves(active.left, active.width, shape.width)
        || leaves(active.top, active.height, shape.height)
    {
        let (width, height) = (shape.width, shape.height);
        return Some(format!("leaves the frame, which is {width}×{height}"));
    }
    let (across, down) = halving(shape.format);
    let starts = [
        (active.left % across, "an even column"),
        (active.top % down, "an even row"),
    ];
    let odd = starts.into_iter().filter(|(rest, _)| *rest != 0);
    let odd: Vec<_> = odd.map(|(_, place)| place).collect();
    let (places, format) = (odd.join(" and "), shape.format.name());
    (!odd.is_empty()).then(|| format!("must start at {places}, since the clip is {format}"))
}

#[cfg(test)]
mod tests {
    use super::*;
    use crate::args::FORMATS;
    use crate::clip::Picture;
    use grain::{Pair, Rectangle, Refusal};

    /// Every rectangle in and a little beyond small frames, and numbers whose sums don't fit.
    #[test]
    fn a_fault_is_what_the_library_refuses() {
        let starts = [0, 1, 2, 3, 4, 5, 6, usize::MAX - 1, usize::MAX];
        let lengths = [0, 1, 2, 3, 4, 5, 6, usize::MAX - 1, usize::MAX];
        for format in FORMATS {
            let shape = Shape::new(5, 4, 8, format);
            let picture = Picture::blank(shape);
            for (left, top) in starts.iter().flat_map(|l| starts.map(|t| (*l, t))) {
                for (width, height) in lengths.iter().flat_map(|w| lengths.map(|h| (*w, h))) {
                    let shape = shape.with_active(Rectangle {
                        left,
                        top,
                        width,
                        height,
                    });
                    let frame = picture.lent(shape);
                    let asked = grain::noise_estimate(&Pair::new(frame, frame).unwrap());
                    let refused = asked.err() == Some(Refusal::ActiveRectangle);
                    assert_eq!(fault(shape).is_some(), refused, "{shape}");
                }
            }
        }
    }
}
