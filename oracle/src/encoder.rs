pub use crate::missing::key_frame;

#[rustfmt::skip]
#[path = "../upstream/src/encoder/yuv_frame.rs"]
pub mod yuv_frame;

// `film_grain_elect`, as the build script copied it.
include!(concat!(env!("OUT_DIR"), "/elect.rs"));
