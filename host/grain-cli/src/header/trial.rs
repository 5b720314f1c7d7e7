//! What a refused record would pass with. The library says only that some field is at fault, so it is asked again about
//! the record with one field changed, or two, and about other frames.

use super::field::FIELDS;
use crate::args::{FORMATS, FRAME_TYPES, Header};
use grain::{FilmGrainParams, Format, FrameType, MAX_HEADER_BYTES, write_film_grain_params};

pub fn words(params: &FilmGrainParams, asked: &Header) -> String {
    let mut ways = one_change(params, asked);
    if ways.is_empty() {
        ways = two_changes(params, asked);
    }
    match ways.is_empty() {
        true => "no change of one field or two was found with which it passes".to_string(),
        false => format!("it would pass with {}", ways.join(", or with ")),
    }
}

fn one_change(params: &FilmGrainParams, asked: &Header) -> Vec<String> {
    let passing = |params: &FilmGrainParams| passes(params, asked.frame, asked.format);
    let fields = FIELDS
        .iter()
        .filter(|field| (field.others)(params).iter().any(passing))
        .map(|field| format!("another {}", field.name));
    let frames = FRAME_TYPES
        .iter()
        .filter(|(_, frame)| passes(params, *frame, asked.format))
        .map(|(name, _)| format!("--frame {name}"));
    let formats = FORMATS
        .iter()
        .filter(|format| passes(params, asked.frame, **format))
        .map(|format| format!("--format {}", format.name()));
    fields.chain(frames).chain(formats).collect()
}

fn two_changes(params: &FilmGrainParams, asked: &Header) -> Vec<String> {
    let passing = |params: &FilmGrainParams| passes(params, asked.frame, asked.format);
    let mut ways = Vec::new();
    for (at, first) in FIELDS.iter().enumerate() {
        let changed = (first.others)(params);
        for second in &FIELDS[at + 1..] {
            let mut both = changed.iter().flat_map(second.others);
            if both.any(|params| passing(&params)) {
                ways.push(format!(
                    "another {} and another {}",
                    first.name, second.name
                ));
            }
        }
    }
    ways
}

fn passes(params: &FilmGrainParams, frame: FrameType, format: Format) -> bool {
    write_film_grain_params(params, frame, format, &mut [0; MAX_HEADER_BYTES]).is_ok()
}

#[cfg(test)]
mod tests {
    use super::*;
    use crate::header::field::Field;

    /// Where no trial of a field passes, no number does that the field can hold.
    #[test]
    fn trials_are_enough() {
        let own = FilmGrainParams {
            apply_grain: true,
            update_grain: true,
            num_y_points: 1,
            num_cb_points: 1,
            num_cr_points: 1,
            grain_scaling: 8,
            ar_coeff_shift: 6,
            ..FilmGrainParams::reset()
        };
        let passing = |params: &FilmGrainParams| passes(params, FrameType::Inter, Format::Yuv420);
        let mut barred = 0;
        let changed = FIELDS.iter().flat_map(|field| (field.others)(&own));
        for params in changed.filter(|params| !passing(params)) {
            let hopeless = |field: &&Field| !(field.others)(&params).iter().any(passing);
            for field in FIELDS.iter().filter(hopeless) {
                for number in 0..=255 {
                    let mut params = params;
                    if (field.set)(&mut params, &number.into()).is_ok() {
                        assert!(!passing(&params), "{} {number}", field.name);
                        barred += 1;
                    }
                }
            }
        }
        assert!(barred > 100_000, "{barred}");
    }
}
