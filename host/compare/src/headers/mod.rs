//! Headers: a record beside what its frame says, the rules that it is held to, and the bits that it is written to.
//!
//! All of it follows the syntax table of 5.9.30 and the semantics of its fields, not the library.

pub mod bits;
pub mod draw;
pub mod fields;
mod kept;
pub mod read;
pub mod rules;

use grain::{FilmGrainParams, FrameType};

#[derive(Debug, Clone, Default)]
pub struct Header {
    pub params: FilmGrainParams,
    pub inter: bool,
    /// By its number, above 3 as well.
    pub format: u8,
    /// What it should be written to: nothing where it breaks a rule, unless the Rust has read it from them.
    pub bits: Vec<bool>,
}

impl Header {
    pub fn new(params: FilmGrainParams, inter: bool, format: u8) -> Self {
        let mut header = Header {
            params,
            inter,
            format,
            bits: Vec::new(),
        };
        if !rules::broken(&header) {
            header.bits = bits::of(&header);
        }
        header
    }

    pub fn frame(&self) -> FrameType {
        match self.inter {
            true => FrameType::Inter,
            false => FrameType::Other,
        }
    }

    pub fn is_not_applied(&self) -> bool {
        !self.params.apply_grain
    }

    /// A slot's record is repeated.
    pub fn names_a_slot(&self) -> bool {
        self.params.apply_grain && !self.params.update_grain
    }

    /// The fields below the slot are there.
    pub fn is_updated(&self) -> bool {
        self.params.apply_grain && self.params.update_grain
    }

    pub fn is_monochrome(&self) -> bool {
        self.is_updated() && self.format == 0
    }

    pub fn is_from_luma(&self) -> bool {
        self.is_updated() && self.format != 0 && self.params.chroma_scaling_from_luma
    }

    /// 4:2:0 without luma points, where chroma has none either.
    pub fn is_bare(&self) -> bool {
        let alone = self.is_updated() && !self.is_from_luma();
        alone && self.format == 1 && self.params.num_y_points == 0
    }

    /// Cb and Cr have counts of their own.
    pub fn has_chroma_counts(&self) -> bool {
        let skipped = self.is_monochrome() || self.is_from_luma() || self.is_bare();
        self.is_updated() && !skipped
    }

    /// numPosLuma
    pub fn luma_neighbours(&self) -> usize {
        let lag = usize::from(self.params.ar_coeff_lag);
        2 * lag * (lag + 1)
    }

    /// numPosChroma
    pub fn chroma_neighbours(&self) -> usize {
        self.luma_neighbours() + usize::from(self.params.num_y_points > 0)
    }
}

/// Lends a plane's samples as bytes.
pub fn lent_bytes<T>(plane: &mut [u16], call: impl FnOnce(&mut [u8]) -> T) -> T {
    let mut bytes: Vec<u8> = plane.iter().map(|&byte| byte as u8).collect();
    let answer = call(&mut bytes);
    for (to, byte) in plane.iter_mut().zip(bytes) {
        *to = byte.into();
    }
    answer
}
