//! The grain part of a frame header, from a record.

mod field;
mod record;
mod table;
mod trial;

use crate::args::Header;
use crate::files::{self, Place, Stream};
use crate::output::Output;
use crate::{json, print};
use anyhow::{Context, Result, anyhow};
use grain::{FilmGrainParams, MAX_HEADER_BYTES, Refusal, write_film_grain_params};
use serde::Serialize;
use std::io::Write;
use std::path::Path;
use std::slice;

/// What JSON says of a header.
#[derive(Serialize)]
pub struct Written {
    bits: usize,
    bytes: usize,
    hex: String,
}

pub fn run(asked: &Header) -> Result<()> {
    let read = Place::new(&asked.params, Stream::Input);
    let written = [Some(Path::new("-")), asked.output.as_deref()];
    let written = written.into_iter().flatten();
    let written: Vec<_> = written.map(|to| Place::new(to, Stream::Output)).collect();
    files::apart(slice::from_ref(&read), &written)?;
    let params = record::read(&asked.params).with_context(|| read.name.clone())?;
    let mut room = [0; MAX_HEADER_BYTES];
    let bits = write_film_grain_params(&params, asked.frame, asked.format, &mut room)
        .map_err(|refusal| told(refusal, &params, asked))
        .with_context(|| read.name.clone())?;
    let bytes = &room[..bits.div_ceil(8)];
    if let Some(path) = &asked.output {
        let mut output = Output::create(path, asked.force)?;
        output
            .write_all(bytes)
            .with_context(|| format!("{} isn't written", files::shown(path)))?;
        output.finish()?;
    }
    let shown = match asked.json {
        true => json::header(&Written {
            bits,
            bytes: bytes.len(),
            hex: bytes.iter().map(|byte| format!("{byte:02x}")).collect(),
        })?,
        false => table::header(&read.name, asked, bits, bytes),
    };
    print(shown.as_bytes())
}

/// The library's words, and for a field at fault what is found about it.
fn told(refusal: Refusal, params: &FilmGrainParams, asked: &Header) -> anyhow::Error {
    match refusal {
        Refusal::HeaderField => anyhow!("{refusal}; {}", trial::words(params, asked)),
        refusal => refusal.into(),
    }
}
