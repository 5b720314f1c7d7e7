//! The Rust that was ported, built from unchanged files, with every ported function in [`reach`].
//!
//! `upstream/` has the files as published; `missing` has what they name and the published part lacks. What the Rust keeps
//! inside of its fits is in [`values`], and what became of it in [`marks`]; how many digits a root has is in [`digits`].
#![allow(dead_code, unused_imports, clippy::all, rustdoc::all)]

mod missing;
pub use missing::{Error, bitreader, cdf, frame_header, platform, sequence_header, tile_info};

// The published files stay as they are, so rustfmt isn't to follow these.
#[rustfmt::skip]
#[path = "../upstream/src/film_grain.rs"]
pub mod film_grain;
#[rustfmt::skip]
#[path = "../upstream/src/film_grain_tables.rs"]
pub mod film_grain_tables;
#[rustfmt::skip]
#[path = "../upstream/src/loop_filter.rs"]
pub mod loop_filter;
#[rustfmt::skip]
#[path = "../upstream/src/superres.rs"]
pub mod superres;
#[rustfmt::skip]
#[path = "../upstream/src/uncompressed_header_tail.rs"]
pub mod uncompressed_header_tail;

pub mod digits;
pub mod encoder;
pub mod marks;
pub mod values;

pub use encoder::film_grain_elect::reach;
pub use encoder::yuv_frame::{ChromaFormat, YuvFrame};
pub use film_grain::RandomRegister;
pub use uncompressed_header_tail::{FilmGrainContext, FilmGrainParams, parse_film_grain_params};
