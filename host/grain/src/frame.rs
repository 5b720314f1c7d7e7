use crate::{Refusal, sys};
use std::fmt;

/// Width and height are at most this.
pub const SIDE_LIMIT: usize = 4096;

/// Which chroma planes a frame has.
#[derive(Debug, Clone, Copy, PartialEq, Eq, Hash)]
#[repr(u8)]
pub enum Format {
    /// Luma alone.
    Monochrome = 0,
    /// Chroma of half the width and half the height.
    Yuv420 = 1,
    /// Chroma of half the width.
    Yuv422 = 2,
    /// Chroma of luma's size.
    Yuv444 = 3,
}

impl Format {
    /// "mono", "4:2:0", "4:2:2" or "4:4:4".
    pub const fn name(self) -> &'static str {
        match self {
            Format::Monochrome => "mono",
            Format::Yuv420 => "4:2:0",
            Format::Yuv422 => "4:2:2",
            Format::Yuv444 => "4:4:4",
        }
    }
}

impl TryFrom<u8> for Format {
    type Error = Refusal;

    /// ```
    /// use grain::{Format, Refusal};
    ///
    /// assert_eq!(Format::try_from(1), Ok(Format::Yuv420));
    /// assert_eq!(Format::try_from(4), Err(Refusal::Format));
    /// ```
    fn try_from(number: u8) -> Result<Self, Refusal> {
        match number {
            0 => Ok(Format::Monochrome),
            1 => Ok(Format::Yuv420),
            2 => Ok(Format::Yuv422),
            3 => Ok(Format::Yuv444),
            _ => Err(Refusal::Format),
        }
    }
}

/// A part of a frame, in luma samples.
#[derive(Debug, Clone, Copy, PartialEq, Eq, Hash)]
pub struct Rectangle {
    /// Columns to the left of it.
    pub left: usize,
    /// Rows above it.
    pub top: usize,
    /// Its columns.
    pub width: usize,
    /// Its rows.
    pub height: usize,
}

impl Rectangle {
    /// All of a frame of this size.
    pub const fn whole(width: usize, height: usize) -> Self {
        Self {
            left: 0,
            top: 0,
            width,
            height,
        }
    }
}

impl fmt::Display for Rectangle {
    fn fmt(&self, f: &mut fmt::Formatter<'_>) -> fmt::Result {
        let Rectangle {
            left,
            top,
            width,
            height,
        } = self;
        write!(f, "{width}×{height} at {left},{top}")
    }
}

/// A frame's size in luma samples, its depth in bits (8, 10 or 12), its format and its active rectangle, outside which
/// there is no picture: black bars have no grain. Profiles, correlations, fits and gates of a frame are those of the frame
/// that the rectangle cuts out.
///
/// A frame is denoised as a whole: a result beside a bar has some of the bar in it, alike in every frame, which a gate takes
/// for no grain. So keep the rectangle a sample away from the bars, or two where the format halves; or denoise the planes
/// that it cuts out, each by [`crate::denoise_plane`].
///
/// ```
/// use grain::{Format, Rectangle, Shape};
///
/// let shape = Shape::new(5, 3, 8, Format::Yuv422);
/// assert_eq!((shape.luma_samples(), shape.chroma_samples()), (15, 9));
/// assert_eq!(shape.active, Rectangle::whole(5, 3));
/// assert_eq!(shape.to_string(), "5×3, 8 bits, 4:2:2");
///
/// let letterboxed = shape.with_active(Rectangle { left: 0, top: 1, width: 5, height: 1 });
/// assert_eq!(letterboxed.to_string(), "5×3, 8 bits, 4:2:2, active 5×1 at 0,1");
/// ```
#[derive(Debug, Clone, Copy, PartialEq, Eq, Hash)]
#[non_exhaustive]
pub struct Shape {
    /// Luma samples of a row.
    pub width: usize,
    /// Rows of luma.
    pub height: usize,
    /// Bits of a sample.
    pub depth: u8,
    /// Which chroma planes there are.
    pub format: Format,
    /// Where the picture is. It starts at an even place in a direction that the format halves, and ends anywhere.
    pub active: Rectangle,
}

impl Shape {
    /// A frame that is active as a whole. Any numbers make a shape; a call asks about them.
    pub const fn new(width: usize, height: usize, depth: u8, format: Format) -> Self {
        Self {
            width,
            height,
            depth,
            format,
            active: Rectangle::whole(width, height),
        }
    }

    /// The same frame with another active rectangle.
    ///
    /// ```
    /// use grain::{Format, Frame, Pair, Rectangle, Refusal, Shape, noise_estimate};
    ///
    /// // Two rows of picture between black bars.
    /// let shape = Shape::new(3, 4, 8, Format::Monochrome);
    /// let y = [0, 0, 0, 33, 33, 33, 33, 33, 33, 0, 0, 0];
    /// let clean = [0, 0, 0, 32, 32, 32, 32, 32, 32, 0, 0, 0];
    /// let profile = |top, height| {
    ///     let active = Rectangle { left: 0, top, width: 3, height };
    ///     let frame = |plane| Frame::new(shape.with_active(active), plane, &[], &[]);
    ///     noise_estimate(&Pair::new(frame(&y), frame(&clean)).expect("one shape"))
    /// };
    /// assert_eq!(profile(0, 4)?.luma.sigma16, 11);
    /// assert_eq!(profile(1, 2)?.luma.sigma16, 16);
    /// assert_eq!(profile(1, 4), Err(Refusal::ActiveRectangle));
    /// # Ok::<(), Refusal>(())
    /// ```
    pub const fn with_active(self, active: Rectangle) -> Self {
        Self { active, ..self }
    }

    /// 0 of a monochrome frame, half of luma's rounded up in 4:2:0 and 4:2:2, luma's in 4:4:4.
    pub const fn chroma_width(&self) -> usize {
        match self.format {
            Format::Monochrome => 0,
            Format::Yuv420 | Format::Yuv422 => self.width.div_ceil(2),
            Format::Yuv444 => self.width,
        }
    }

    /// 0 of a monochrome frame, half of luma's rounded up in 4:2:0, luma's in 4:2:2 and 4:4:4.
    pub const fn chroma_height(&self) -> usize {
        match self.format {
            Format::Monochrome => 0,
            Format::Yuv420 => self.height.div_ceil(2),
            Format::Yuv422 | Format::Yuv444 => self.height,
        }
    }

    /// Samples of the luma plane.
    pub const fn luma_samples(&self) -> usize {
        self.width.saturating_mul(self.height)
    }

    /// Samples of each chroma plane.
    pub const fn chroma_samples(&self) -> usize {
        self.chroma_width().saturating_mul(self.chroma_height())
    }
}

impl fmt::Display for Shape {
    fn fmt(&self, f: &mut fmt::Formatter<'_>) -> fmt::Result {
        let (w, h, depth, format) = (self.width, self.height, self.depth, self.format.name());
        write!(f, "{w}×{h}, {depth} bits, {format}")?;
        match self.active == Rectangle::whole(w, h) {
            true => Ok(()),
            false => write!(f, ", active {}", self.active),
        }
    }
}

impl From<Rectangle> for sys::Rectangle {
    fn from(rectangle: Rectangle) -> Self {
        sys::Rectangle {
            left: rectangle.left,
            top: rectangle.top,
            width: rectangle.width,
            height: rectangle.height,
        }
    }
}

impl From<Shape> for sys::Shape {
    fn from(shape: Shape) -> Self {
        sys::Shape {
            width: shape.width,
            height: shape.height,
            depth: shape.depth,
            format: shape.format as u8,
            active: shape.active.into(),
        }
    }
}

/// A frame's planes in row order, with its shape. A monochrome frame's `cb` and `cr` are empty.
#[derive(Debug, Clone, Copy)]
#[non_exhaustive]
pub struct Frame<'a> {
    /// Its size, depth, format and active rectangle.
    pub shape: Shape,
    /// Luma.
    pub y: &'a [u16],
    /// The first chroma plane.
    pub cb: &'a [u16],
    /// The second.
    pub cr: &'a [u16],
}

/// One of the two chroma planes.
#[derive(Debug, Clone, Copy, PartialEq, Eq, Hash)]
pub enum Chroma {
    /// The first.
    Cb,
    /// The second.
    Cr,
}

impl<'a> Frame<'a> {
    /// Planes of any lengths make a frame; a call asks about them.
    pub const fn new(shape: Shape, y: &'a [u16], cb: &'a [u16], cr: &'a [u16]) -> Self {
        Self { shape, y, cb, cr }
    }

    /// The plane of one component.
    pub fn chroma(&self, plane: Chroma) -> &'a [u16] {
        match plane {
            Chroma::Cb => self.cb,
            Chroma::Cr => self.cr,
        }
    }
}
