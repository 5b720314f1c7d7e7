//! The record as JSON: one object with the syntax's names. A field that is missing is as after a reset.

use super::field::FIELDS;
use crate::words::{plain, shorten};
use anyhow::{Context, Result, anyhow, bail};
use grain::FilmGrainParams;
use serde::de::{Deserialize, Deserializer, Error, MapAccess, Visitor};
use serde_json::Value;
use std::fmt;
use std::fs::File;
use std::io::{self, Read};
use std::path::Path;

/// The longest text that is read: a record with every field takes a thousand or two.
const LONGEST_TEXT: u64 = 1 << 16;

/// Reads a record; `-` is standard input.
pub fn read(path: &Path) -> Result<FilmGrainParams> {
    let input: Box<dyn Read> = match path == Path::new("-") {
        true => Box::new(io::stdin()),
        false => Box::new(File::open(path)?),
    };
    let mut text = Vec::new();
    input.take(LONGEST_TEXT + 1).read_to_end(&mut text)?;
    if text.len() as u64 > LONGEST_TEXT {
        bail!("no record: it has more than {LONGEST_TEXT} bytes");
    }
    let parsed = serde_json::from_slice(&text);
    let Entries(entries) =
        parsed.map_err(|error| anyhow!(shorten(&plain(&error.to_string()), 200)))?;
    let mut params = FilmGrainParams::reset();
    for (at, (name, value)) in entries.iter().enumerate() {
        let field = FIELDS.iter().find(|field| field.name == name);
        let field = field.with_context(|| {
            let name = shorten(name, 40);
            format!("{name:?} is no field of film_grain_params")
        })?;
        if entries[..at].iter().any(|(before, _)| before == name) {
            bail!("{name} is there twice");
        }
        (field.set)(&mut params, value)?;
    }
    Ok(params)
}

/// Names and values as they stand in the text. A map would keep one of two that have the same name.
struct Entries(Vec<(String, Value)>);

impl<'de> Deserialize<'de> for Entries {
    fn deserialize<D: Deserializer<'de>>(from: D) -> Result<Self, D::Error> {
        from.deserialize_map(Object)
    }
}

struct Object;

impl<'de> Visitor<'de> for Object {
    type Value = Entries;

    fn expecting(&self, f: &mut fmt::Formatter<'_>) -> fmt::Result {
        f.write_str("an object with fields of film_grain_params")
    }

    fn visit_map<A: MapAccess<'de>>(self, mut map: A) -> Result<Entries, A::Error> {
        let mut entries = Vec::new();
        while let Some(name) = map.next_key::<String>()? {
            let value = map.next_value();
            let value = value.map_err(|error| A::Error::custom(format!("{name}: {error}")))?;
            entries.push((name, value));
        }
        Ok(Entries(entries))
    }
}
