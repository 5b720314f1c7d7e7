//! The grain part of a header: the bytes of a record, and where they go.

mod common;

use common::record::{full, full_json, luma, put, slot, with, words};
use common::{command, folder, parsed, run, said, written};
use grain::{Format, FrameType, MAX_HEADER_BYTES, write_film_grain_params};
use serde_json::{Value, json};
use std::ffi::OsStr;
use std::fs::{self, File};
use std::os::unix::ffi::OsStrExt;
use std::path::Path;

fn shown(folder: &Path, record: &Value, more: &[&str]) -> String {
    put(folder, record.to_string());
    String::from_utf8(written(folder, &words(more))).unwrap()
}

/// The bits, and the bytes in hex, of a record that must pass.
fn passed(folder: &Path, record: &Value, more: &[&str]) -> (usize, String) {
    let lines = shown(folder, record, &[&["--json"], more].concat());
    let line = &parsed(&lines)[..];
    let [line] = line else {
        panic!("one line: {lines}")
    };
    let (bits, hex) = (
        line["bits"].as_u64().unwrap(),
        line["hex"].as_str().unwrap(),
    );
    let bytes = bits.div_ceil(8);
    let whole = json!({"schema": 1, "kind": "header", "bits": bits, "bytes": bytes, "hex": hex});
    assert_eq!(line, &whole);
    assert_eq!(hex.len() as u64, 2 * bytes);
    (bits as usize, hex.to_string())
}

fn hex(bytes: &[u8]) -> String {
    bytes.iter().map(|byte| format!("{byte:02x}")).collect()
}

#[test]
fn known_bytes() {
    let folder = folder("header-known");
    assert_eq!(passed(&folder, &json!({}), &[]), (1, "00".to_string()));
    assert_eq!(passed(&folder, &slot(), &[]), (21, "891a28".to_string()));
    // Applied, seed, updated; two points; chroma's flag and counts; scaling less 8, lag; shift less 6, scale; flags.
    let bits =
        "1 1010101111001101 1 0010 00010000 00101000 11101011 01010000 0 0000 0000 10 00 01 01 1 0";
    let bits = bits.replace(' ', "");
    let filled = format!("{bits:0<80}");
    let byte = |at: usize| u8::from_str_radix(&filled[8 * at..][..8], 2).unwrap();
    let bytes: Vec<u8> = (0..10).map(byte).collect();
    assert_eq!(passed(&folder, &luma(), &[]), (73, hex(&bytes)));
    assert_eq!(bits.len(), 73);
    // Less both counts, and a luma tap for either plane.
    let follows = with(luma(), "chroma_scaling_from_luma", true);
    assert_eq!(passed(&folder, &follows, &[]).0, 73 - 8 + 16);
}

#[test]
fn as_a_person_reads_it() {
    let folder = folder("header-read");
    assert_eq!(
        shown(&folder, &slot(), &[]),
        "params.json: film_grain_params of an INTER_FRAME, 4:2:0\n  21 bits in 3 bytes\n  89 1a 28\n"
    );
    assert_eq!(
        shown(
            &folder,
            &json!({}),
            &["--frame", "other", "--format", "mono"]
        ),
        "params.json: film_grain_params of a frame that is no INTER_FRAME, mono\n  1 bit in 1 byte\n  00\n"
    );
    let (_, hex) = passed(&folder, &full_json(), &[]);
    let rows = shown(&folder, &full_json(), &[]);
    let rows: Vec<String> = rows
        .lines()
        .skip(2)
        .map(|row| row.replace(' ', ""))
        .collect();
    assert_eq!(rows.concat(), hex);
    assert!(
        rows[..rows.len() - 1].iter().all(|row| row.len() == 32),
        "{rows:?}"
    );
}

/// Each name goes to the field of that name, whatever the frame.
#[test]
fn every_field() {
    let folder = folder("header-fields");
    for (name, format) in [
        ("4:2:0", Format::Yuv420),
        ("4:2:2", Format::Yuv422),
        ("4:4:4", Format::Yuv444),
    ] {
        for (kind, frame) in [("inter", FrameType::Inter), ("other", FrameType::Other)] {
            let mut room = [0; MAX_HEADER_BYTES];
            let bits = write_film_grain_params(&full(), frame, format, &mut room).unwrap();
            let expected = (bits, hex(&room[..bits.div_ceil(8)]));
            let more = ["--format", name, "--frame", kind];
            assert_eq!(passed(&folder, &full_json(), &more), expected, "{more:?}");
            let predicted = with(full_json(), "predicted", true);
            assert_eq!(passed(&folder, &predicted, &more), expected, "{more:?}");
        }
    }
    let [inter, other] =
        ["inter", "other"].map(|kind| passed(&folder, &full_json(), &["--frame", kind]).0);
    assert_eq!(inter, other + 1, "the bit of update_grain");
    let [colour, mono] =
        ["4:4:4", "mono"].map(|name| passed(&folder, &luma(), &["--format", name]).0);
    assert_eq!(colour, mono + 9, "chroma's flag and counts");
}

#[test]
fn standard_input() {
    let folder = folder("header-input-stream");
    put(&folder, slot().to_string());
    let stream = || File::open(folder.join("params.json")).unwrap();
    let run = command(&folder, &["header", "-"]).stdin(stream()).output();
    let shown = String::from_utf8(run.unwrap().stdout).unwrap();
    assert!(
        shown.starts_with("standard input: ") && shown.ends_with("\n  89 1a 28\n"),
        "{shown}"
    );
    let words = ["header", "-", "--frame", "other"];
    let run = command(&folder, &words).stdin(stream()).output().unwrap();
    let said = String::from_utf8(run.stderr).unwrap();
    assert!(
        said.starts_with("grain: standard input: every field"),
        "{said}"
    );
    assert_eq!(run.status.code(), Some(1));
    let words = ["header", "-", "-o", "params.json", "--force"];
    let run = command(&folder, &words).stdin(stream()).output().unwrap();
    let said = String::from_utf8(run.stderr).unwrap();
    assert!(
        said.contains("params.json and standard input are one file"),
        "{said}"
    );
}

#[test]
fn the_file() {
    let folder = folder("header-file");
    let out = folder.join("out");
    let first = shown(&folder, &slot(), &["-o", "out"]);
    assert!(first.ends_with("\n  89 1a 28\n"), "{first}");
    assert_eq!(fs::read(&out).unwrap(), [0x89, 0x1a, 0x28]);
    let odd = OsStr::from_bytes(b"out\xff");
    let run = command(&folder, &words(&["-o"])).arg(odd).output().unwrap();
    assert!(run.status.success());
    assert_eq!(fs::read(folder.join(odd)).unwrap(), [0x89, 0x1a, 0x28]);
    fs::remove_file(folder.join(odd)).unwrap();
    put(&folder, "{}");
    let refused = said(&folder, &words(&["-o", "out"]));
    assert!(
        refused.contains("out is there already: --force replaces it"),
        "{refused}"
    );
    assert_eq!(fs::read(&out).unwrap(), [0x89, 0x1a, 0x28]);
    let words_forced = words(&["--output", "out", "--force"]);
    written(&folder, &words_forced);
    assert_eq!(fs::read(&out).unwrap(), [0]);
    let refused = said(&folder, &words(&["-o", "./params.json", "--force"]));
    assert!(
        refused.contains("./params.json and params.json are one file"),
        "{refused}"
    );
    assert_eq!(fs::read(folder.join("params.json")).unwrap(), b"{}");
    let stdout = File::options().append(true).open(&out).unwrap();
    let run = command(&folder, &words_forced)
        .stdout(stdout)
        .output()
        .unwrap();
    let refused = String::from_utf8(run.stderr).unwrap();
    assert!(
        refused.contains("out and standard output are one file"),
        "{refused}"
    );
    assert_eq!(fs::read(&out).unwrap(), [0]);
    assert_eq!(
        fs::read_dir(&folder).unwrap().count(),
        2,
        "nothing half-written"
    );
}

#[test]
fn words_that_are_not_understood() {
    let folder = folder("header-words");
    put(&folder, "{}");
    for (more, expected) in [
        (&["-o", "-"][..], "standard output has the figures"),
        (&["--force"], "--output"),
        (
            &["--format", "4:1:1"],
            "a format is one of mono, 4:2:0, 4:2:2, 4:4:4",
        ),
        (&["--frame", "key"], "inter"),
    ] {
        let run = run(&folder, &words(more));
        let said = String::from_utf8(run.stderr).unwrap();
        assert_eq!(run.status.code(), Some(2), "{said}");
        assert!(said.contains(expected), "{said}");
    }
    assert_eq!(
        fs::read_dir(&folder).unwrap().count(),
        1,
        "params.json alone"
    );
}

#[test]
fn a_long_name_is_cut() {
    let folder = folder("header-name");
    let name = format!("{}.json", "n".repeat(120));
    fs::write(folder.join(&name), "{}").unwrap();
    for kind in ["inter", "other"] {
        let shown = written(&folder, &["header", &name, "--frame", kind]);
        let shown = String::from_utf8(shown).unwrap();
        assert_eq!(shown.lines().next().unwrap().chars().count(), 80, "{shown}");
    }
}
