use crate::{Frame, Shape};
use std::error::Error;
use std::fmt;

/// Two frames that belong together differ in shape. The library is told one shape for all planes of a call, so it can't
/// see this itself.
#[derive(Debug, Clone, Copy, PartialEq, Eq, Hash)]
#[non_exhaustive]
pub struct ShapeMismatch {
    /// The first frame's shape.
    pub first: Shape,
    /// The shape that differs from it.
    pub other: Shape,
}

impl fmt::Display for ShapeMismatch {
    fn fmt(&self, f: &mut fmt::Formatter<'_>) -> fmt::Result {
        let ShapeMismatch { first, other } = self;
        write!(f, "frames of one shape are wanted: {first} is not {other}")
    }
}

impl Error for ShapeMismatch {}

fn same(first: Shape, other: Shape) -> Result<(), ShapeMismatch> {
    match first == other {
        true => Ok(()),
        false => Err(ShapeMismatch { first, other }),
    }
}

/// A frame and its denoised copy, of one shape.
///
/// ```
/// use grain::{Format, Frame, Pair, Shape};
///
/// let wide = Frame::new(Shape::new(3, 2, 8, Format::Monochrome), &[9; 6], &[], &[]);
/// let high = Frame::new(Shape::new(2, 3, 8, Format::Monochrome), &[9; 6], &[], &[]);
/// assert!(Pair::new(wide, wide).is_ok());
/// assert_eq!(
///     Pair::new(wide, high).unwrap_err().to_string(),
///     "frames of one shape are wanted: 3×2, 8 bits, mono is not 2×3, 8 bits, mono"
/// );
/// ```
#[derive(Debug, Clone, Copy)]
pub struct Pair<'a> {
    frame: Frame<'a>,
    denoised: Frame<'a>,
}

impl<'a> Pair<'a> {
    /// The two as one value, if they have one shape.
    pub fn new(frame: Frame<'a>, denoised: Frame<'a>) -> Result<Self, ShapeMismatch> {
        same(frame.shape, denoised.shape)?;
        Ok(Self { frame, denoised })
    }

    /// The shape of both.
    pub fn shape(&self) -> Shape {
        self.frame.shape
    }

    /// The frame itself.
    pub fn frame(&self) -> &Frame<'a> {
        &self.frame
    }

    /// Its denoised copy.
    pub fn denoised(&self) -> &Frame<'a> {
        &self.denoised
    }
}

/// Two successive frames with their denoised copies, all of one shape.
#[derive(Debug, Clone, Copy)]
pub struct TwoFrames<'a> {
    first: Pair<'a>,
    second: Pair<'a>,
}

impl<'a> TwoFrames<'a> {
    /// The two as one value, if they have one shape.
    pub fn new(first: Pair<'a>, second: Pair<'a>) -> Result<Self, ShapeMismatch> {
        same(first.shape(), second.shape())?;
        Ok(Self { first, second })
    }

    /// The shape of all.
    pub fn shape(&self) -> Shape {
        self.first.shape()
    }

    /// The first frame, its copy, the second frame and its copy.
    pub fn frames(&self) -> [&Frame<'a>; 4] {
        let (first, second) = (&self.first, &self.second);
        [
            &first.frame,
            &first.denoised,
            &second.frame,
            &second.denoised,
        ]
    }
}

/// What a function of the C interface answers of a frame and its denoised copy, and of the numbers it takes besides.
macro_rules! of_pair {
    ($name:ident, $pair:expr $(, $number:expr)*) => {{
        let (frame, denoised) = ($pair.frame(), $pair.denoised());
        let (y, cb, cr) = (frame.y, frame.cb, frame.cr);
        let (y_den, cb_den, cr_den) = (denoised.y, denoised.cb, denoised.cr);
        let shape = $pair.shape().into();
        // SAFETY: the slices are borrowed, and none is written.
        unsafe {
            $crate::sys::call!($name, [shape], [y, cb, cr, y_den, cb_den, cr_den], [$($number),*])
        }
    }};
}
pub(crate) use of_pair;
