//! The numbers of include/grain.h and those of this crate are the same ones.

use grain::*;

const HEADER: &str = include_str!("../../../include/grain.h");

/// The constants of one enum of the header: name and number.
fn constants(name: &str) -> Vec<(&'static str, u32)> {
    let (_, rest) = HEADER
        .split_once(&format!("enum {name} {{"))
        .expect("the enum");
    let (body, _) = rest.split_once('}').expect("its end");
    let constant = |line: &'static str| {
        let (name, number) = line.trim().split_once(" = ")?;
        let digits = number.split(|c: char| !c.is_ascii_digit()).next()?;
        Some((name, digits.parse().expect("a number")))
    };
    body.lines().filter_map(constant).collect()
}

/// What `#define`s a macro.
fn defined(name: &str) -> &'static str {
    let mut lines = HEADER.lines();
    let value = lines.find_map(|line| line.strip_prefix("#define ")?.strip_prefix(name));
    value.expect("the macro").trim()
}

/// A name of this crate as C writes it: `LagAbove3` is `GRAIN_LAG_ABOVE_3`.
fn constant(name: &str) -> String {
    let mut text = String::from("GRAIN");
    let mut digits = false;
    for c in name.chars() {
        if c.is_ascii_uppercase() || (c.is_ascii_digit() && !digits) {
            text.push('_');
        }
        digits = c.is_ascii_digit();
        text.push(c.to_ascii_uppercase());
    }
    text
}

#[test]
fn refusals() {
    let listed = constants("grain_refusal");
    assert_eq!(listed[0], ("GRAIN_ACCEPTED", 0));
    let named = Refusal::ALL
        .iter()
        .map(|refusal| (constant(&format!("{refusal:?}")), refusal.number()));
    let listed = listed[1..].iter().map(|&(name, n)| (name.to_string(), n));
    assert!(listed.eq(named));
}

#[test]
fn formats() {
    let named = [
        ("GRAIN_MONOCHROME", Format::Monochrome),
        ("GRAIN_YUV420", Format::Yuv420),
        ("GRAIN_YUV422", Format::Yuv422),
        ("GRAIN_YUV444", Format::Yuv444),
    ];
    assert_eq!(
        constants("grain_format"),
        named.map(|(name, format)| (name, format as u32))
    );
}

#[test]
fn marks() {
    let named = [
        Mark::Inside,
        Mark::HeldLow,
        Mark::HeldHigh,
        Mark::NotANumber,
    ]
    .map(|mark| (constant(&format!("{mark:?}")), mark as u32));
    let listed = constants("grain_mark").into_iter();
    assert!(listed.map(|(name, n)| (name.to_string(), n)).eq(named));
}

#[test]
fn limits_and_version() {
    assert_eq!(defined("GRAIN_MAX_SIDE"), SIDE_LIMIT.to_string());
    assert_eq!(
        defined("GRAIN_MAX_HEADER_BYTES"),
        MAX_HEADER_BYTES.to_string()
    );
    let version = ["MAJOR", "MINOR", "PATCH"].map(|part| defined(&format!("GRAIN_VERSION_{part}")));
    assert_eq!(version.join("."), env!("CARGO_PKG_VERSION"));
}
