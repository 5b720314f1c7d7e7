//! What is said of a record that isn't one, or that the library refuses.

mod common;

use common::record::{full_json, luma, put, slot, with, words};
use common::{folder, said, written};
use std::fs;

#[test]
fn what_is_no_record() {
    let folder = folder("header-input");
    for (record, expected) in [
        (
            r#"{"num_y_point": 1}"#,
            r#""num_y_point" is no field of film_grain_params"#,
        ),
        (
            r#"{"grain_scaling_minus_8": 1}"#,
            r#""grain_scaling_minus_8" is no field"#,
        ),
        (
            r#"{"\u001b[2J\u009b": 1}"#,
            r#""\u{1b}[2J\u{9b}" is no field"#,
        ),
        (
            r#"{"apply_grain": 1}"#,
            "apply_grain isn't true or false: 1",
        ),
        (
            r#"{"overlap_flag": null}"#,
            "overlap_flag isn't true or false: null",
        ),
        (
            r#"{"predicted": "no"}"#,
            r#"predicted isn't true or false: "no""#,
        ),
        (
            r#"{"grain_seed": "4"}"#,
            r#"grain_seed isn't a whole number from 0 to 65535: "4""#,
        ),
        (
            r#"{"grain_seed": 65536}"#,
            "grain_seed isn't a whole number from 0 to 65535: 65536",
        ),
        (
            r#"{"num_y_points": 256}"#,
            "num_y_points isn't a whole number from 0 to 255: 256",
        ),
        (
            r#"{"cb_mult": -1}"#,
            "cb_mult isn't a whole number from 0 to 255: -1",
        ),
        (
            r#"{"cb_mult": 1.5}"#,
            "cb_mult isn't a whole number from 0 to 255: 1.5",
        ),
        (
            r#"{"cb_mult": [1]}"#,
            "cb_mult isn't a whole number from 0 to 255: [1]",
        ),
        (
            r#"{"cb_mult": 99999999999999999999}"#,
            "cb_mult isn't a whole number",
        ),
        (
            r#"{"cb_mult": 1e999}"#,
            "cb_mult: number out of range at line 1 column",
        ),
        (r#"{"point_y_value": 5}"#, "point_y_value isn't a list: 5"),
        (
            r#"{"point_y_value": {"0": 5}}"#,
            r#"point_y_value isn't a list: {"0":5}"#,
        ),
        (
            r#"{"point_cb_value": [0,0,0,0,0,0,0,0,0,0,0]}"#,
            "point_cb_value has 11 numbers, where at most 10 are held",
        ),
        (
            r#"{"ar_coeffs_y_plus_128": [1, 2, 300]}"#,
            "ar_coeffs_y_plus_128[2] isn't a whole number from 0 to 255: 300",
        ),
        (
            r#"{"cr_mult": "\u009b2J"}"#,
            "from 0 to 255: \"\u{fffd}2J\"",
        ),
        (r#"{"cb_mult": 1, "cb_mult": 1}"#, "cb_mult is there twice"),
        (
            r#"[]"#,
            "expected an object with fields of film_grain_params",
        ),
        (
            r#""apply_grain""#,
            "expected an object with fields of film_grain_params",
        ),
        ("", "EOF while parsing a value"),
        (
            r#"{"cb_mult": "#,
            "cb_mult: EOF while parsing a value at line 1 column",
        ),
        (
            r#"{"cb_mult": 1} {}"#,
            "trailing characters at line 1 column 16",
        ),
        ("{'cb_mult': 1}", "key must be a string at line 1 column 2"),
    ] {
        put(&folder, record);
        let said = said(&folder, &words(&["-o", "out"]));
        assert!(said.starts_with("grain: params.json: "), "{said}");
        assert!(said.contains(expected), "{record}: {said}");
        assert!(!said.trim_end().contains(char::is_control), "{said:?}");
    }
    put(&folder, b"{\"cb_mult\": \"\xff\"}");
    assert!(said(&folder, &words(&[])).contains("cb_mult: invalid unicode"));
    for (start, end) in [("{\"", "\": 1}"), ("\"", "\""), ("{\"cb_mult\": \"", "\"}")] {
        put(&folder, [start, &"x".repeat(60_000), end].concat());
        let said = said(&folder, &words(&[]));
        assert!(said.len() < 300 && said.contains('…'), "{said}");
    }
    put(&folder, " ".repeat(65_537));
    let said_long = said(&folder, &words(&[]));
    assert!(
        said_long.contains("no record: it has more than 65536 bytes"),
        "{said_long}"
    );
    put(&folder, format!("{{}}{}", " ".repeat(65_534)));
    written(&folder, &words(&[]));
    let nothing = said(&folder, &["header", "none.json"]);
    assert!(nothing.contains("none.json: No such file"), "{nothing}");
    let place = said(&folder, &["header", "."]);
    assert!(place.contains(".: Is a directory"), "{place}");
    assert_eq!(
        fs::read_dir(&folder).unwrap().count(),
        1,
        "params.json alone"
    );
}

/// The library's words, and with which changes, all of them, the record would pass.
#[test]
fn what_the_library_refuses() {
    let folder = folder("header-refused");
    let full = full_json;
    let one = |name| format!("it would pass with another {name}");
    for (record, more, expected) in [
        (
            with(full(), "num_y_points", 200),
            &[][..],
            one("num_y_points"),
        ),
        (
            with(full(), "point_y_value", vec![3, 2, 1]),
            &[],
            one("point_y_value"),
        ),
        (
            with(full(), "point_cb_scaling", vec![1; 10]),
            &[],
            one("point_cb_scaling"),
        ),
        (with(full(), "num_cr_points", 11), &[], one("num_cr_points")),
        (with(full(), "grain_scaling", 12), &[], one("grain_scaling")),
        (
            with(full(), "ar_coeff_shift", 5),
            &[],
            one("ar_coeff_shift"),
        ),
        (with(full(), "ar_coeff_lag", 4), &[], one("ar_coeff_lag")),
        (with(full(), "cr_offset", 512), &[], one("cr_offset")),
        (
            with(full(), "update_grain", false),
            &[],
            one("update_grain"),
        ),
        (with(full(), "apply_grain", false), &[], one("apply_grain")),
        (
            with(luma(), "ar_coeffs_y_plus_128", vec![128]),
            &[],
            one("ar_coeff_lag, or with another ar_coeffs_y_plus_128"),
        ),
        (
            with(slot(), "film_grain_params_ref_idx", 8),
            &[],
            one("film_grain_params_ref_idx"),
        ),
        (
            slot(),
            &["--frame", "other"],
            "it would pass with --frame inter".to_string(),
        ),
        (
            full(),
            &["--format", "mono"],
            "it would pass with --format 4:2:0, or with --format 4:2:2, or with --format 4:4:4"
                .to_string(),
        ),
        (
            with(luma(), "num_cb_points", 1),
            &[],
            one(
                "num_cb_points, or with another num_cr_points, or with --format 4:2:2, or with --format 4:4:4",
            ),
        ),
        (
            with(with(luma(), "grain_scaling", 0), "ar_coeff_shift", 0),
            &[],
            one("grain_scaling and another ar_coeff_shift"),
        ),
        (
            with(
                with(with(full(), "grain_scaling", 0), "ar_coeff_shift", 0),
                "cb_offset",
                512,
            ),
            &[],
            "no change of one field or two was found with which it passes".to_string(),
        ),
    ] {
        put(&folder, record.to_string());
        let said = said(&folder, &words(&[&["-o", "out"], more].concat()));
        let question = grain::Refusal::HeaderField;
        assert_eq!(
            said,
            format!("grain: params.json: {question}; {expected}\n")
        );
    }
    assert_eq!(
        fs::read_dir(&folder).unwrap().count(),
        1,
        "params.json alone"
    );
}
