//! The library beside the Rust that it ports: the same calls on the same planes and headers, to compare and to time.
#![deny(unsafe_code)]

pub mod branches;
pub mod calls;
pub mod case;
pub mod clock;
pub mod draw;
pub mod floats;
pub mod headers;
pub mod input;
pub mod noise;
mod ours;
pub mod outcome;
pub mod questions;
pub mod random;
pub mod raw;
pub mod rectangles;
mod rust;
pub mod scan;
pub mod system;
pub mod tally;
mod words;
