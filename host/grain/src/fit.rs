use crate::pair::of_pair;
use crate::refusal::accepted;
use crate::{Mark, Pair, Refusal, sys};

/// The luma tap of each chroma plane where no neighbour has one.
#[derive(Debug, Clone, Copy, PartialEq, Eq)]
#[non_exhaustive]
pub struct ChromaCorr {
    /// Of Cb, in 64ths.
    pub cb: i32,
    /// Of Cr, in 64ths.
    pub cr: i32,
    /// What became of Cb's value.
    pub cb_mark: Mark,
    /// What became of Cr's value.
    pub cr_mark: Mark,
}

/// How far each chroma plane's noise follows luma's, quantised.
///
/// ```
/// use grain::{Format, Frame, Pair, Shape};
///
/// let shape = Shape::new(3, 1, 8, Format::Yuv420);
/// let frame = Frame::new(shape, &[0, 4, 8], &[1, 1], &[0, 0]);
/// let flat = Frame::new(shape, &[0; 3], &[0; 2], &[0; 2]);
/// let found = grain::fit_chroma_corr(&Pair::new(frame, flat)?)?;
/// assert_eq!((found.cb, found.cr), (9, 0));
/// assert_eq!(found.cb_mark, grain::Mark::Inside);
/// # Ok::<(), Box<dyn std::error::Error>>(())
/// ```
pub fn fit_chroma_corr(pair: &Pair) -> Result<ChromaCorr, Refusal> {
    let found = of_pair!(grain_fit_chroma_corr, pair);
    accepted(found.refusal).map(|()| ChromaCorr {
        cb: found.cb,
        cr: found.cr,
        cb_mark: Mark::numbered(found.cb_mark),
        cr_mark: Mark::numbered(found.cr_mark),
    })
}

/// The neighbours of a sample in coefficient order, as (rows, columns) away from it.
///
/// ```
/// assert_eq!(grain::ar_positions(1)?, [(-1, -1), (-1, 0), (-1, 1), (0, -1)]);
/// # Ok::<(), grain::Refusal>(())
/// ```
pub fn ar_positions(lag: usize) -> Result<Vec<(i32, i32)>, Refusal> {
    // SAFETY: numbers alone are passed.
    let found = unsafe { sys::grain_ar_positions(lag) };
    accepted(found.refusal)?;
    let places = found.rows.into_iter().zip(found.columns);
    Ok(places.take(found.count).collect())
}

/// Auto-regressive coefficients from −128 to 127, in the order of [`ar_positions`]; `cb` and `cr` have one more, the
/// luma tap.
#[derive(Debug, Clone, PartialEq, Eq)]
#[non_exhaustive]
pub struct ArFit {
    /// From 1 to 3.
    pub lag: u8,
    /// Luma's, in 64ths.
    pub y: Vec<i32>,
    /// Those of Cb, and its luma tap.
    pub cb: Vec<i32>,
    /// Those of Cr, and its luma tap.
    pub cr: Vec<i32>,
    /// What became of each value of luma.
    pub y_marks: Vec<Mark>,
    /// The same of Cb, its luma tap last.
    pub cb_marks: Vec<Mark>,
    /// The same of Cr, its luma tap last.
    pub cr_marks: Vec<Mark>,
}

/// The auto-regressive fit of a frame's noise at one lag, or `None` where there is no fit.
///
/// ```
/// use grain::{Format, Frame, Pair, Shape};
///
/// let shape = Shape::new(5, 2, 8, Format::Monochrome);
/// let flat = Frame::new(shape, &[9; 10], &[], &[]);
/// assert_eq!(grain::fit_ar_lag(&Pair::new(flat, flat)?, 1)?, None);
/// # Ok::<(), Box<dyn std::error::Error>>(())
/// ```
pub fn fit_ar_lag(pair: &Pair, lag: usize) -> Result<Option<ArFit>, Refusal> {
    let found = of_pair!(grain_fit_ar_lag, pair, lag);
    accepted(found.refusal)?;
    let marks = |bytes: &[u8]| bytes.iter().copied().map(Mark::numbered).collect();
    Ok(found.found.then(|| ArFit {
        lag: lag as u8,
        y: found.luma[..found.count].to_vec(),
        cb: found.cb[..=found.count].to_vec(),
        cr: found.cr[..=found.count].to_vec(),
        y_marks: marks(&found.luma_marks[..found.count]),
        cb_marks: marks(&found.cb_marks[..=found.count]),
        cr_marks: marks(&found.cr_marks[..=found.count]),
    }))
}

/// The solution of the first `order` equations of a × x = b, or `None` where a pivot's magnitude is below 1e-9.
///
/// ```
/// let (mut a, mut b) = ([[0.0; 25]; 25], [0.0; 25]);
/// (a[0][1], a[1][0]) = (1.0, 1.0);
/// (b[0], b[1]) = (3.0, 4.0);
/// assert_eq!(grain::solve_normal(&a, &b, 2)?, Some(vec![4.0, 3.0]));
/// assert_eq!(grain::solve_normal(&a, &b, 3)?, None);
/// assert_eq!(grain::solve_normal(&a, &b, 26), Err(grain::Refusal::SolverOrder));
/// # Ok::<(), grain::Refusal>(())
/// ```
pub fn solve_normal(
    a: &[[f64; 25]; 25],
    b: &[f64; 25],
    order: usize,
) -> Result<Option<Vec<f64>>, Refusal> {
    // SAFETY: the pointers are to 25 rows of 25 and to 25 values, as the interface has it.
    let found = unsafe { sys::grain_solve_normal(a.as_flattened().as_ptr(), b.as_ptr(), order) };
    accepted(found.refusal)?;
    let solution = found.solution;
    Ok(found
        .found
        .then(|| solution.values[..solution.order].to_vec()))
}
