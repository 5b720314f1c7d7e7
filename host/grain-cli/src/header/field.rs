//! The fields of a record, each by its name: set from JSON, and changed to see what comes of it.

use crate::words::{plain, shorten};
use anyhow::{Context, Result, bail};
use grain::FilmGrainParams;
use serde_json::Value;
use std::fmt::Display;

pub struct Field {
    pub name: &'static str,
    /// Sets it from JSON.
    pub set: fn(&mut FilmGrainParams, &Value) -> Result<()>,
    /// The record with other values in this field alone.
    pub others: fn(&FilmGrainParams) -> Vec<FilmGrainParams>,
}

macro_rules! fields {
    ($($name:ident)*) => {
        /// In the syntax's order.
        pub const FIELDS: &[Field] = &[$(Field {
            name: stringify!($name),
            set: |params, value| {
                params.$name = Kind::read(stringify!($name), value)?;
                Ok(())
            },
            others: |params| {
                let trials = Kind::trials().into_iter();
                trials.map(|$name| FilmGrainParams { $name, ..*params }).collect()
            },
        }),*];

        // None is missing.
        const _: fn(FilmGrainParams) = |FilmGrainParams { $($name: _),* }| {};
    };
}

fields! {
    apply_grain
    grain_seed
    update_grain
    film_grain_params_ref_idx
    num_y_points
    point_y_value
    point_y_scaling
    chroma_scaling_from_luma
    num_cb_points
    point_cb_value
    point_cb_scaling
    num_cr_points
    point_cr_value
    point_cr_scaling
    grain_scaling
    ar_coeff_lag
    ar_coeffs_y_plus_128
    ar_coeffs_cb_plus_128
    ar_coeffs_cr_plus_128
    ar_coeff_shift
    grain_scale_shift
    cb_mult
    cb_luma_mult
    cb_offset
    cr_mult
    cr_luma_mult
    cr_offset
    overlap_flag
    clip_to_restricted_range
    predicted
}

/// What a field holds.
trait Kind: Sized {
    fn read(name: &str, value: &Value) -> Result<Self>;
    /// Few values, and enough: where any lets a record pass, one of these does.
    fn trials() -> Vec<Self>;
}

impl Kind for bool {
    fn read(name: &str, value: &Value) -> Result<Self> {
        let read = value.as_bool();
        read.with_context(|| format!("{name} isn't true or false: {}", shown(value)))
    }

    fn trials() -> Vec<Self> {
        vec![false, true]
    }
}

impl Kind for u8 {
    fn read(name: &str, value: &Value) -> Result<Self> {
        whole(name, value, u8::MAX)
    }

    fn trials() -> Vec<Self> {
        (0..16).collect()
    }
}

impl Kind for u16 {
    fn read(name: &str, value: &Value) -> Result<Self> {
        whole(name, value, u16::MAX)
    }

    fn trials() -> Vec<Self> {
        vec![0]
    }
}

/// A list; its last places are 0 where fewer are given.
impl<const PLACES: usize> Kind for [u8; PLACES] {
    fn read(name: &str, value: &Value) -> Result<Self> {
        let given = value.as_array();
        let given = given.with_context(|| format!("{name} isn't a list: {}", shown(value)))?;
        if given.len() > PLACES {
            let count = given.len();
            bail!("{name} has {count} numbers, where at most {PLACES} are held");
        }
        let mut list = [0; PLACES];
        for (at, value) in given.iter().enumerate() {
            list[at] = u8::read(&format!("{name}[{at}]"), value)?;
        }
        Ok(list)
    }

    /// Rising for so many places, and 0 after them.
    fn trials() -> Vec<Self> {
        let rising = |count| std::array::from_fn(|at| if at < count { at as u8 } else { 0 });
        (0..=PLACES).map(rising).collect()
    }
}

fn whole<T: TryFrom<u64> + Display>(name: &str, value: &Value, most: T) -> Result<T> {
    let read = value.as_u64().and_then(|number| number.try_into().ok());
    read.with_context(|| {
        let value = shown(value);
        format!("{name} isn't a whole number from 0 to {most}: {value}")
    })
}

fn shown(value: &Value) -> String {
    shorten(&plain(&value.to_string()), 40)
}
