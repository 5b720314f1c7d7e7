//! `grain report --active auto`: which bars are found, and that the frames looked at are worked on all the same.

mod common;

use common::letterbox::{black, put, words};
use common::{Planes, clip, command, folder, json, said, written};
use grain::{Format, Rectangle, Shape};
use serde_json::{Value, json};
use std::fs::{self, File};
use std::path::Path;

const WIDTH: usize = 48;
const HEIGHT: usize = 40;

fn shape(format: Format) -> Shape {
    Shape::new(WIDTH, HEIGHT, 8, format)
}

/// Bars of so many samples on the left, above, on the right and below.
type Bars = [usize; 4];

/// A picture in a black frame, of luma alone: bars are told by luma.
fn barred(shape: Shape, [left, top, right, bottom]: Bars, seed: u64) -> Planes {
    let (width, height) = (shape.width - left - right, shape.height - top - bottom);
    let picture = Planes::random(
        Shape::new(width, height, shape.depth, Format::Monochrome),
        seed,
    );
    let mut frame = black(shape);
    put(&picture, (left, top), &mut frame);
    frame
}

/// What the report says of the active rectangle, found from these frames.
fn found(folder: &Path, frames: &[Planes]) -> Value {
    fs::write(folder.join("clip.y4m"), clip(frames)).unwrap();
    let words = [
        "report", "clip.y4m", "--active", "auto", "--brief", "--json",
    ];
    json(folder, &words)["clip"]["active"].clone()
}

fn active(left: usize, top: usize, width: usize, height: usize, how: &str) -> Value {
    json!({"left": left, "top": top, "width": width, "height": height, "how": how})
}

#[test]
fn bars_on_any_side() {
    let folder = folder("bars-sides");
    for (bars, expected) in [
        ([0, 6, 0, 8], active(0, 6, 48, 26, "found")),
        ([4, 0, 10, 0], active(4, 0, 34, 40, "found")),
        ([4, 6, 10, 8], active(4, 6, 34, 26, "found")),
        ([0, 2, 0, 0], active(0, 2, 48, 38, "found")),
        ([0, 0, 0, 2], active(0, 0, 48, 38, "found")),
        ([2, 0, 0, 0], active(2, 0, 46, 40, "found")),
        ([0, 0, 2, 0], active(0, 0, 46, 40, "found")),
        ([0, 0, 0, 0], active(0, 0, 48, 40, "no_bars")),
    ] {
        let frames = [1, 2].map(|seed| barred(shape(Format::Yuv420), bars, seed));
        assert_eq!(found(&folder, &frames), expected, "{bars:?}");
    }
}

/// A start moves inwards to the next place at which a rectangle may start; an end stays.
#[test]
fn odd_bars() {
    let folder = folder("bars-odd");
    for (format, left, top) in [
        (Format::Monochrome, 5, 3),
        (Format::Yuv420, 6, 4),
        (Format::Yuv422, 6, 3),
        (Format::Yuv444, 5, 3),
    ] {
        let frame = barred(shape(format), [5, 3, 7, 9], 1);
        let expected = active(left, top, 41 - left, 31 - top, "found");
        assert_eq!(found(&folder, &[frame]), expected, "{format:?}");
    }
}

/// Every frame that is looked at counts, and the ninth isn't.
#[test]
fn the_first_eight_frames() {
    let folder = folder("bars-eight");
    let shape = shape(Format::Yuv420);
    let narrow = |count: u64| (0..count).map(move |at| barred(shape, [8, 8, 8, 8], at));
    let wide = barred(shape, [0, 4, 2, 8], 9);
    let expected = [active(8, 8, 32, 24, "found"), active(0, 4, 46, 28, "found")];
    for (before, expected) in [(8, &expected[0]), (7, &expected[1]), (0, &expected[1])] {
        let frames: Vec<_> = narrow(before)
            .chain([wide.clone()])
            .chain(narrow(2))
            .collect();
        assert_eq!(found(&folder, &frames), *expected, "{before}");
    }
}

/// Black is up to 24 in 8-bit steps, in either range; one sample above it is picture.
#[test]
fn noise_in_the_bars() {
    let folder = folder("bars-noise");
    for depth in [8, 10, 12] {
        let shape = Shape::new(WIDTH, HEIGHT, depth, Format::Yuv444);
        let most = 24 << (depth - 8);
        let mut frame = barred(shape, [4, 6, 10, 8], 1);
        let inside = |at: usize| (4..38).contains(&(at % WIDTH)) && (6..32).contains(&(at / WIDTH));
        let bars = (0..WIDTH * HEIGHT).filter(|&at| !inside(at));
        for at in bars {
            frame.planes[0][at] = ((at * 2654435761) >> 5) as u16 % (most + 1);
        }
        frame.planes[0][0] = most;
        let expected = active(4, 6, 34, 26, "found");
        assert_eq!(found(&folder, &[frame.clone()]), expected, "{depth}");
        frame.planes[0][2 * WIDTH + 1] = most + 1;
        let expected = active(1, 2, 37, 30, "found");
        assert_eq!(found(&folder, &[frame]), expected, "{depth}");
    }
}

/// Black, and a title in it, show no bars; a quarter of each side is enough of a picture.
#[test]
fn too_dark() {
    let folder = folder("bars-dark");
    let shape = shape(Format::Yuv420);
    let whole = active(0, 0, WIDTH, HEIGHT, "too_dark");
    assert_eq!(found(&folder, &[black(shape)]), whole);
    let quarter = active(18, 14, 12, 10, "found");
    for (bars, expected) in [
        ([18, 14, 18, 16], &quarter),
        ([18, 14, 19, 16], &whole),
        ([18, 14, 18, 17], &whole),
        // Nothing is left from the next even place on.
        ([47, 0, 0, 0], &whole),
    ] {
        let frame = barred(shape, bars, 1);
        assert_eq!(found(&folder, &[frame]), *expected, "{bars:?}");
    }
}

#[test]
fn the_report_says_what_was_found() {
    let folder = folder("bars-words");
    let shape = shape(Format::Yuv420);
    for (frame, expected) in [
        (
            barred(shape, [0, 6, 0, 8], 1),
            "48×26 at 0,6, between black bars",
        ),
        (
            barred(shape, [0; 4], 1),
            "the whole frame; no black bars were found",
        ),
        (
            black(shape),
            "the whole frame; the first frames are too dark to show bars",
        ),
    ] {
        fs::write(folder.join("clip.y4m"), clip(&[frame])).unwrap();
        let table = written(&folder, &["report", "clip.y4m", "--active", "auto"]);
        let table = String::from_utf8(table).unwrap();
        let line = format!("\n  active rectangle: {expected}\n");
        assert!(table.contains(&line), "{table}");
    }
}

/// From a file and from a pipe, whichever frames are taken: as if the rectangle had been given.
#[test]
fn every_frame_is_worked_on_once() {
    let folder = folder("bars-frames");
    let shape = shape(Format::Yuv420);
    let frames: Vec<_> = (0..20).map(|at| barred(shape, [4, 6, 10, 8], at)).collect();
    let copies: Vec<_> = frames.iter().map(Planes::denoised).collect();
    fs::write(folder.join("clip.y4m"), clip(&frames)).unwrap();
    fs::write(folder.join("copy.y4m"), clip(&copies)).unwrap();
    let given = words(Rectangle {
        left: 4,
        top: 6,
        width: 34,
        height: 26,
    });
    for more in [
        &[][..],
        &["--denoised", "copy.y4m"],
        &["--from", "3"],
        &["--every", "3"],
        &["--every", "30"],
        &["--frames", "5"],
        &["--frames", "1"],
        &[
            "--from",
            "2",
            "--every",
            "5",
            "--frames",
            "13",
            "--denoised",
            "copy.y4m",
        ],
    ] {
        let of = |clip, active| [&["report", clip, "--json", "--active", active], more].concat();
        let file = written(&folder, &of("clip.y4m", "auto"));
        let file = String::from_utf8(file).unwrap();
        let given = String::from_utf8(written(&folder, &of("clip.y4m", &given))).unwrap();
        assert_eq!(
            file.replace(r#""how":"found""#, r#""how":"given""#),
            given,
            "{more:?}"
        );
        let pipe = command(&folder, &of("-", "auto"))
            .stdin(File::open(folder.join("clip.y4m")).unwrap())
            .output()
            .unwrap();
        assert!(pipe.status.success());
        let pipe = String::from_utf8(pipe.stdout).unwrap();
        assert_eq!(pipe.replace("standard input", "clip.y4m"), file, "{more:?}");
    }
}

/// A frame that is looked at and then passed over may be damaged, and leaves nothing behind in the others.
#[test]
fn a_damaged_frame_between() {
    let folder = folder("bars-between");
    let shape = Shape::new(WIDTH, HEIGHT, 10, Format::Yuv420);
    let whole: Vec<_> = (0..20).map(|at| barred(shape, [4, 6, 10, 8], at)).collect();
    let mut damaged = whole.clone();
    for frame in &mut damaged[2..8] {
        frame.planes[1][0] = 1024;
    }
    let reports = [whole, damaged].map(|frames| {
        fs::write(folder.join("clip.y4m"), clip(&frames)).unwrap();
        let words = [
            "report", "clip.y4m", "--active", "auto", "--every", "15", "--json",
        ];
        json(&folder, &words)
    });
    assert_eq!(reports[0], reports[1]);
    assert_eq!(reports[0]["clip"]["reported"], 2);
}

/// A leader has no bars to show; `--from` begins after it.
#[test]
fn past_a_leader() {
    let folder = folder("bars-leader");
    let shape = shape(Format::Yuv420);
    let leader = vec![black(shape); 10];
    let frames = [leader, vec![barred(shape, [0, 6, 0, 8], 1); 2]].concat();
    assert_eq!(
        found(&folder, &frames),
        active(0, 0, WIDTH, HEIGHT, "too_dark")
    );
    let words = [
        "report", "clip.y4m", "--active", "auto", "--from", "10", "--json",
    ];
    let report = json(&folder, &words);
    assert_eq!(report["clip"]["active"], active(0, 6, 48, 26, "found"));
    assert_eq!(report["frames"][0]["frame"], 10);
}

/// The same is said as without it.
#[test]
fn damaged_where_it_looks() {
    let folder = folder("bars-damaged");
    let shape = shape(Format::Yuv420);
    let frames: Vec<_> = (0..5).map(|at| barred(shape, [0, 6, 0, 8], at)).collect();
    let bytes = clip(&frames);
    fs::write(folder.join("cut.y4m"), &bytes[..bytes.len() - 10]).unwrap();
    fs::write(folder.join("whole.y4m"), &bytes).unwrap();
    fs::write(folder.join("short.y4m"), clip(&frames[..3])).unwrap();
    fs::write(
        folder.join("none.y4m"),
        &bytes[..bytes.iter().position(|&b| b == b'\n').unwrap() + 1],
    )
    .unwrap();
    for words in [
        &["cut.y4m"][..],
        &["cut.y4m", "--from", "2"],
        &["none.y4m"],
        &["whole.y4m", "--from", "5"],
        &["whole.y4m", "--denoised", "short.y4m"],
        &["short.y4m", "--denoised", "whole.y4m", "--from", "1"],
    ] {
        let words = [&["report"], words].concat();
        let auto = [&words[..], &["--active", "auto"]].concat();
        assert_eq!(said(&folder, &auto), said(&folder, &words), "{words:?}");
    }
}
