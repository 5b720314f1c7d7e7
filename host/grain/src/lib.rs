//! Film-grain figures for an AV1 encoder: safe functions over libgrain.a, whose every function is proved against its
//! contract.
//!
//! The Rust's functions keep their names. Planes are u16 samples in row order, lent by the caller;
//! width and height are at most 4,096, and the depth is 8, 10 or 12 bits. A call asks its questions first and answers a
//! [`Refusal`] with the first that fails, having changed nothing.
//!
//! Frames that are compared, a frame and its denoised copy or two such pairs, travel as one value ([`Pair`],
//! [`TwoFrames`]), which can be made of frames of one shape only.
//!
//! A frame with black bars has its picture in a part of it, its active rectangle ([`Shape::with_active`]).
//!
//! ```
//! use grain::{Format, Frame, Pair, Refusal, Shape};
//!
//! let shape = Shape::new(64, 64, 10, Format::Monochrome);
//! let y: Vec<u16> = (0..4096u32).map(|i| 512 + (i * i % 11) as u16).collect();
//! let frame = Frame::new(shape, &y, &[], &[]);
//!
//! let mut clean = vec![0; shape.luma_samples()];
//! grain::denoise_frame(&frame, &mut clean, &mut [], &mut [])?;
//! let pair = Pair::new(frame, Frame::new(shape, &clean, &[], &[]))?;
//! let profile = grain::noise_estimate(&pair)?;
//! assert_eq!(profile.luma.bins[4].count, 4096);
//!
//! let short = Pair::new(frame, Frame::new(shape, &clean[1..], &[], &[]))?;
//! assert_eq!(grain::noise_estimate(&short), Err(Refusal::PlaneLength));
//! # Ok::<(), Box<dyn std::error::Error>>(())
//! ```
//!
//! Shapes, refusals and answers may gain fields and cases in later versions.

#![deny(missing_docs)]

mod denoise;
mod fit;
mod frame;
mod gate;
mod header;
mod pair;
mod profile;
mod quant;
mod random;
mod refusal;
mod root;
#[allow(missing_docs)] // include/grain.h says what each is
pub mod sys;

pub use denoise::{denoise_frame, denoise_plane};
pub use fit::{ArFit, ChromaCorr, ar_positions, fit_ar_lag, fit_chroma_corr, solve_normal};
pub use frame::{Chroma, Format, Frame, Rectangle, SIDE_LIMIT, Shape};
pub use gate::{chroma_noise_gate, film_grain_probe, lag_h_rho};
pub use header::{FilmGrainParams, FrameType, MAX_HEADER_BYTES, write_film_grain_params};
pub use pair::{Pair, ShapeMismatch, TwoFrames};
pub use profile::{Bin, NoiseEstimate, Profile, noise_estimate, plane_sigma16};
pub use quant::{Mark, Quantised, quant_ar};
pub use random::{RandomRegister, grain_seed_for};
pub use refusal::Refusal;
pub use root::{Root, sqrt_digits};
