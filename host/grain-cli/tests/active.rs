//! `grain report --active L,T,W,H`: the figures are those of the clip that the rectangle cuts out.

mod common;

use common::letterbox::{put, words};
use common::{Planes, clip, folder, json, run, said, shapes, written};
use grain::{Format, Rectangle, Shape};
use serde_json::{Value, json};
use std::fs;
use std::path::Path;

const FRAMES: u64 = 3;

fn rectangle(left: usize, top: usize, width: usize, height: usize) -> Rectangle {
    Rectangle {
        left,
        top,
        width,
        height,
    }
}

/// Writes a clip and its denoised copy as they are cut out, and both with other pictures around them.
fn clips(folder: &Path, shape: Shape, active: Rectangle) {
    let small = Shape::new(active.width, active.height, shape.depth, shape.format);
    let pictures: Vec<_> = (0..FRAMES).map(|at| Planes::random(small, at)).collect();
    let copies: Vec<_> = pictures.iter().map(Planes::denoised).collect();
    let around = |pictures: &[Planes], seed: u64| -> Vec<Planes> {
        let within = |(picture, at): (&Planes, u64)| {
            let mut frame = Planes::random(shape, seed + at);
            put(picture, (active.left, active.top), &mut frame);
            frame
        };
        pictures.iter().zip(0..).map(within).collect()
    };
    for (name, frames) in [
        ("cut.y4m", &pictures),
        ("cut-copy.y4m", &copies),
        ("clip.y4m", &around(&pictures, 10)),
        ("copy.y4m", &around(&copies, 20)),
    ] {
        fs::write(folder.join(name), clip(frames)).unwrap();
    }
}

/// The report of a clip, without what only names it.
fn figures(folder: &Path, words: &[&str]) -> Value {
    let mut report = json(folder, &[&["report"], words, &["--json"]].concat());
    let clip = report["clip"].as_object_mut().unwrap();
    for name in ["name", "denoised", "width", "height", "active"] {
        clip.remove(name).unwrap();
    }
    report
}

/// Also where the rectangle ends at an odd place, and where it starts at one that the format doesn't halve.
#[test]
fn figures_are_those_of_the_clip_cut_out() {
    let folder = folder("active-figures");
    for shape in shapes(37, 29) {
        let start = match shape.format {
            Format::Yuv420 => (6, 4),
            Format::Yuv422 => (6, 3),
            Format::Monochrome | Format::Yuv444 => (5, 3),
        };
        for active in [
            rectangle(start.0, start.1, 25, 19),
            rectangle(0, 4, 37, 22),
            rectangle(6, 0, 30, 29),
        ] {
            clips(&folder, shape, active);
            let active = words(active);
            let cut = figures(&folder, &["cut.y4m"]);
            let found = figures(&folder, &["clip.y4m", "--active", &active]);
            assert_eq!(found, cut, "{shape} {active}");
            assert_ne!(figures(&folder, &["clip.y4m"])["frames"], cut["frames"]);
            let copy = ["clip.y4m", "--denoised", "copy.y4m", "--active", &active];
            let cut = figures(&folder, &["cut.y4m", "--denoised", "cut-copy.y4m"]);
            assert_eq!(figures(&folder, &copy), cut, "{shape} {active}");
        }
    }
}

/// The plot is the cut clip's as well, but for its title.
#[test]
fn the_plot_is_that_of_the_clip_cut_out() {
    let folder = folder("active-plot");
    let shape = Shape::new(37, 29, 10, Format::Yuv420);
    clips(&folder, shape, rectangle(6, 4, 25, 19));
    let drawn = |words: &[&str]| {
        let plot = ["--brief", "--plot", "noise.svg", "--force"];
        written(&folder, &[&["report"], words, &plot].concat());
        fs::read_to_string(folder.join("noise.svg")).unwrap()
    };
    let found = drawn(&["clip.y4m", "--active", "6,4,25,19"]);
    let title = "Noise of clip.y4m, active 25×19 at 6,4\n";
    assert!(found.contains(title), "{found}");
    assert!(found.contains("37×29, 10 bits"), "{found}");
    let cut = found
        .replace(title, "Noise of cut.y4m\n")
        .replace("37×29, 10 bits", "25×19, 10 bits");
    assert_eq!(cut, drawn(&["cut.y4m"]));
}

#[test]
fn the_report_says_which() {
    let folder = folder("active-words");
    let shape = Shape::new(37, 29, 8, Format::Yuv422);
    clips(&folder, shape, rectangle(6, 3, 25, 19));
    let table = |words: &[&str]| {
        let words = [&["report", "clip.y4m", "--brief"], words].concat();
        String::from_utf8(written(&folder, &words)).unwrap()
    };
    let found = table(&["--active", "6,3,25,19"]);
    let start = "clip.y4m: 37×29, 8 bits, 4:2:2, 3 frames\n  \
                 active rectangle: 25×19 at 6,3, as given\n  denoised copy: made by";
    assert!(found.starts_with(start), "{found}");
    assert!(!table(&[]).contains("active"), "nothing was asked for");
    let clip = |words: &[&str]| {
        let words = [&["report", "clip.y4m", "--brief", "--json"], words].concat();
        json(&folder, &words)["clip"]["active"].clone()
    };
    assert_eq!(
        clip(&["--active", "6,3,25,19"]),
        json!({"left": 6, "top": 3, "width": 25, "height": 19, "how": "given"})
    );
    assert_eq!(
        clip(&[]),
        json!({"left": 0, "top": 0, "width": 37, "height": 29, "how": "whole"})
    );
}

/// In one line, before any figure.
#[test]
fn a_rectangle_that_is_refused() {
    let folder = folder("active-refused");
    let (empty, leaves) = (
        "is empty: width and height must each be at least 1",
        "leaves the frame, which is 16×9",
    );
    let even = |places: &str, format: Format| {
        let format = format.name();
        format!("must start at {places}, since the clip is {format}")
    };
    let both = even("an even column and an even row", Format::Yuv420);
    for (format, given, cause) in [
        (Format::Yuv444, "0,0,0,9", empty),
        (Format::Yuv444, "3,3,5,0", empty),
        (Format::Yuv444, "1,0,16,9", leaves),
        (Format::Yuv444, "0,1,16,9", leaves),
        (Format::Yuv444, "16,0,1,1", leaves),
        (Format::Yuv444, "18446744073709551615,0,1,1", leaves),
        (Format::Monochrome, "0,0,1,18446744073709551615", leaves),
        (
            Format::Yuv420,
            "2,3,4,4",
            &even("an even row", Format::Yuv420),
        ),
        (
            Format::Yuv420,
            "3,2,4,4",
            &even("an even column", Format::Yuv420),
        ),
        (Format::Yuv420, "3,3,4,4", &both),
        (
            Format::Yuv422,
            "3,3,4,4",
            &even("an even column", Format::Yuv422),
        ),
    ] {
        let frame = Planes::random(Shape::new(16, 9, 8, format), 1);
        fs::write(folder.join("clip.y4m"), clip(&[frame])).unwrap();
        let run = run(&folder, &["report", "clip.y4m", "--active", given]);
        assert_eq!(String::from_utf8(run.stdout).unwrap(), "");
        let words = [
            "report",
            "clip.y4m",
            "--plot",
            "noise.svg",
            "--active",
            given,
        ];
        assert_eq!(
            said(&folder, &words),
            format!("grain: clip.y4m: --active {given} {cause} (question 12)\n")
        );
    }
    assert_eq!(fs::read_dir(&folder).unwrap().count(), 1, "clip.y4m alone");
}

#[test]
fn what_is_no_rectangle() {
    let folder = folder("active-no-words");
    for given in [
        "",
        "1,2,3",
        "1,2,3,4,5",
        "1,2,3,x",
        "1,2,,4",
        "-1,0,4,4",
        "Auto",
        "18446744073709551616,0,1,1",
    ] {
        let given = format!("--active={given}");
        let run = run(&folder, &["report", "clip.y4m", &given]);
        assert_eq!(run.status.code(), Some(2), "{given}");
        let said = String::from_utf8(run.stderr).unwrap();
        let way = "give left, top, width and height, as 0,138,1920,804, or auto";
        assert!(said.contains(way), "{said}");
    }
}

/// Whole planes are asked about, so a damaged bar is seen.
#[test]
fn a_sample_above_the_depth_outside() {
    let folder = folder("active-depth");
    let shape = Shape::new(16, 8, 10, Format::Yuv420);
    let mut frames = [1, 2].map(|seed| Planes::random(shape, seed));
    frames[1].planes[0][3] = 1024;
    fs::write(folder.join("clip.y4m"), clip(&frames)).unwrap();
    let words = said(&folder, &["report", "clip.y4m", "--active", "0,2,16,6"]);
    let expected = "frame 1: it has a sample above 1023, the highest of 10 bits (question 6)";
    assert!(words.contains(expected), "{words}");
}
