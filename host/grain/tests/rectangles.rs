//! The figures of a frame with an active rectangle are those of the frame that it cuts out, and a frame is denoised as a
//! whole.

use grain::*;

const FORMATS: [Format; 4] = [
    Format::Monochrome,
    Format::Yuv420,
    Format::Yuv422,
    Format::Yuv444,
];

const fn part(left: usize, top: usize, width: usize, height: usize) -> Rectangle {
    Rectangle {
        left,
        top,
        width,
        height,
    }
}

/// A frame with planes of its own.
struct Scan {
    shape: Shape,
    planes: [Vec<u16>; 3],
}

impl Scan {
    fn random(shape: Shape, seed: u16) -> Self {
        let mut register = RandomRegister::new(seed);
        let mut sample = || register.next(8).expect("8 bits") as u16;
        let (luma, chroma) = (shape.luma_samples(), shape.chroma_samples());
        let planes = [luma, chroma, chroma].map(|n| (0..n).map(|_| sample()).collect());
        Scan { shape, planes }
    }

    fn lent(&self, active: Rectangle) -> Frame<'_> {
        let [y, cb, cr] = &self.planes;
        Frame::new(self.shape.with_active(active), y, cb, cr)
    }

    /// The frame that a rectangle cuts out.
    fn cut(&self, active: Rectangle) -> Scan {
        let Shape { depth, format, .. } = self.shape;
        let shape = Shape::new(active.width, active.height, depth, format);
        let along = usize::from(matches!(format, Format::Yuv420 | Format::Yuv422));
        let down = usize::from(format == Format::Yuv420);
        let (left, top) = (active.left >> along, active.top >> down);
        let chroma = part(left, top, shape.chroma_width(), shape.chroma_height());
        let wide = self.shape.chroma_width();
        let [y, cb, cr] = &self.planes;
        let planes = [
            cut(y, self.shape.width, active),
            cut(cb, wide, chroma),
            cut(cr, wide, chroma),
        ];
        Scan { shape, planes }
    }
}

fn cut(plane: &[u16], width: usize, part: Rectangle) -> Vec<u16> {
    let rows = part.top..part.top + part.height;
    let row = |r| &plane[r * width + part.left..][..part.width];
    rows.flat_map(row).copied().collect()
}

#[derive(Debug, PartialEq)]
struct Figures {
    profile: NoiseEstimate,
    correlation: ChromaCorr,
    fits: [Option<ArFit>; 3],
    gates: [bool; 3],
}

/// Of two frames and their copies.
fn figures(
    [first, copy, second, other]: [Frame; 4],
) -> Result<Figures, Box<dyn std::error::Error>> {
    let pair = Pair::new(first, copy)?;
    let frames = TwoFrames::new(pair, Pair::new(second, other)?)?;
    Ok(Figures {
        profile: noise_estimate(&pair)?,
        correlation: fit_chroma_corr(&pair)?,
        fits: [
            fit_ar_lag(&pair, 1)?,
            fit_ar_lag(&pair, 2)?,
            fit_ar_lag(&pair, 3)?,
        ],
        gates: [
            film_grain_probe(&frames)?,
            chroma_noise_gate(&frames, Chroma::Cb, 8)?,
            chroma_noise_gate(&frames, Chroma::Cr, 8)?,
        ],
    })
}

/// At each edge of the frame and at none, with odd ends, of one row and of one column.
const PARTS: [Rectangle; 7] = [
    part(0, 4, 23, 9),
    part(4, 0, 19, 17),
    part(2, 2, 11, 9),
    part(0, 0, 21, 15),
    part(6, 16, 16, 1),
    part(22, 2, 1, 12),
    part(0, 0, 1, 1),
];

#[test]
fn figures_of_the_part() {
    for format in FORMATS {
        let shape = Shape::new(23, 17, 8, format);
        let scans = [1, 2, 3, 4].map(|seed| Scan::random(shape, seed));
        let of = |active| figures(scans.each_ref().map(|scan| scan.lent(active)));
        let whole = of(shape.active).expect("accepted");
        for active in PARTS {
            let cut = scans.each_ref().map(|scan| scan.cut(active));
            let own = figures(cut.each_ref().map(|scan| scan.lent(scan.shape.active)));
            let found = of(active).expect("accepted");
            assert_eq!(found, own.expect("accepted"), "{format:?}, {active}");
            assert_ne!(found, whole, "{format:?}, {active}");
        }
    }
}

/// A start at an odd place is taken in a direction that the format doesn't halve.
#[test]
fn odd_starts() {
    for (format, left, top) in [
        (Format::Monochrome, true, true),
        (Format::Yuv420, false, false),
        (Format::Yuv422, false, true),
        (Format::Yuv444, true, true),
    ] {
        let scan = Scan::random(Shape::new(6, 4, 8, format), 9);
        let taken = |active| match noise_estimate(&pair(&scan, active)) {
            Ok(found) => {
                let own = scan.cut(active);
                let due = noise_estimate(&pair(&own, own.shape.active));
                assert_eq!(Ok(found), due);
                true
            }
            Err(refusal) => {
                assert_eq!(refusal, Refusal::ActiveRectangle);
                false
            }
        };
        assert_eq!(taken(part(3, 2, 2, 1)), left, "{format:?}");
        assert_eq!(taken(part(2, 1, 3, 3)), top, "{format:?}");
        assert!(taken(part(2, 2, 3, 1)), "{format:?}");
    }
}

fn pair(scan: &Scan, active: Rectangle) -> Pair<'_> {
    let frame = scan.lent(active);
    Pair::new(frame, frame).expect("one shape")
}

#[test]
fn denoised_as_a_whole() {
    for format in FORMATS {
        let shape = Shape::new(7, 5, 8, format);
        let scan = Scan::random(shape, 5);
        let [whole, within] = [shape.active, part(2, 2, 3, 1)].map(|active| {
            let [mut y, mut cb, mut cr] = scan.planes.clone();
            denoise_frame(&scan.lent(active), &mut y, &mut cb, &mut cr).expect("accepted");
            [y, cb, cr]
        });
        assert_eq!(whole, within, "{format:?}");
        assert_ne!(whole, scan.planes, "{format:?}");
    }
}
