//! How a run draws headers, and where they are written to.

use super::{Header, fields, kept, read};
use crate::random::Random;
use grain::{FilmGrainParams, MAX_HEADER_BYTES};

/// A header of a record that keeps every rule, but for so many faults, of which one may be that it is another format's.
pub fn record(random: &mut Random, format: u8, faults: u64) -> Header {
    let inter = random.once_in(2);
    let (drawn_for, faults) = match faults.checked_sub(1) {
        Some(rest) if random.once_in(8) => (random.below(4) as u8, rest),
        _ => (format, faults),
    };
    let mut params = kept::record(random, inter, drawn_for);
    for _ in 0..faults {
        spoil(random, &mut params);
    }
    Header::new(params, inter, format)
}

/// Another number in some field, at some place.
fn spoil(random: &mut Random, params: &mut FilmGrainParams) {
    let mut fields = fields::all(params);
    let at = random.below(fields.len());
    let field = &mut fields[at];
    let place = random.below(field.places());
    let (old, before) = (field.get(place), field.get(place.saturating_sub(1)));
    let near = random.pick(&[old.wrapping_add(1), old.wrapping_sub(1), before]);
    let edge = random.pick(&[1, 4, 8, 12, 15, 200, 512]);
    let any = random.bits() as u16;
    field.put(place, random.pick(&[near, near, edge, any]));
}

/// A header that the Rust reads from drawn bits.
pub fn read(random: &mut Random, format: u8, turned: u64) -> Header {
    let inter = random.once_in(2);
    loop {
        let mut bits = bits(random, inter, format, turned);
        if let Some((params, count)) = read::read(&bits, inter, format) {
            bits.truncate(count);
            return Header {
                params,
                inter,
                format,
                bits,
            };
        }
    }
}

/// As many bits as a header can have: any, or first those of a record, so many of them turned. The record may be another
/// format's.
fn bits(random: &mut Random, inter: bool, format: u8, turned: u64) -> Vec<bool> {
    let mut bits = Vec::new();
    if random.once_in(2) {
        let other = random.below(4) as u8;
        let format = random.pick(&[format, format, other]);
        bits = Header::new(kept::record(random, inter, format), inter, format).bits;
        for _ in 0..turned {
            let at = random.below(bits.len());
            bits[at] = !bits[at];
        }
    }
    bits.resize_with(8 * MAX_HEADER_BYTES, || random.once_in(2));
    bits
}

/// Old bytes to write a header to: just enough, more, one too few, or none at all.
pub fn destination(random: &mut Random, header: &Header) -> Vec<u8> {
    let exact = match header.bits.len() {
        0 => random.below(MAX_HEADER_BYTES),
        bits => bits.div_ceil(8),
    };
    let more = exact + 1 + random.below(20);
    let fewer = random.pick(&[0, exact.saturating_sub(1)]);
    let length = random.pick(&[exact, exact, more, MAX_HEADER_BYTES, fewer]);
    (0..length).map(|_| random.bits() as u8).collect()
}
