//! Clips that can't be reported, and what is said of each.

mod common;

use common::{Planes, clip, folder, json, run, said, sample};
use grain::{Format, Shape};
use std::fs;

const SHAPE: Shape = Shape::new(16, 8, 10, Format::Yuv420);

/// What is said of a clip with these bytes.
fn of(name: &str, bytes: &[u8]) -> String {
    let folder = folder(name);
    fs::write(folder.join("clip.y4m"), bytes).unwrap();
    said(&folder, &["report", "clip.y4m"])
}

fn frames(count: u64) -> Vec<Planes> {
    (0..count).map(|seed| Planes::random(SHAPE, seed)).collect()
}

#[test]
fn cut_off() {
    let bytes = clip(&frames(3));
    let frame = 6 + 2 * (16 * 8 * 3 / 2);
    let words = of("cut-planes", &bytes[..bytes.len() - 10]);
    assert!(
        words.contains("clip.y4m: cut off: frame 2 has 374 of its 384 bytes"),
        "{words}"
    );
    assert!(words.contains("--frames 2 takes that"), "{words}");
    let words = of("cut-line", &bytes[..bytes.len() - frame + 3]);
    assert!(
        words.contains("cut off where frame 2 should begin"),
        "{words}"
    );
    let words = of("cut-header", &bytes[..20]);
    assert!(words.contains("the header's line has no end"), "{words}");
    let words = of("no-frame", &bytes[..bytes.len() - 3 * frame]);
    assert!(
        words.contains("clip.y4m: there is no frame after the header"),
        "{words}"
    );
}

#[test]
fn unknown_header() {
    for (name, head, expected) in [
        (
            "riff",
            "RIFF....AVI LIST",
            "not a YUV4MPEG2 clip: it begins with \"RIFF....AVI LIST\"",
        ),
        ("empty", "", "it is empty"),
        (
            "magic",
            "YUV4MPEG22 W16 H8 F1:1 C420\n",
            "not a YUV4MPEG2 clip",
        ),
        ("magic-alone", "YUV4MPEG2\n", "the header has no width (W)"),
        (
            "space",
            "YUV4MPEG2 W16 H8 F1:1 CRGB\n",
            "the colour space \"CRGB\", which isn't read. These are: mono, mono10",
        ),
        (
            "space-411",
            "YUV4MPEG2 W16 H8 F1:1 C411\n",
            "the colour space \"C411\": 4:1:1 and 4:1:0 aren't read. ffmpeg makes a clip that is read: \
             ffmpeg -i INPUT -pix_fmt yuv422p -strict -1 OUTPUT.y4m",
        ),
        (
            "depth-16",
            "YUV4MPEG2 W16 H8 F1:1 C420p16\n",
            "the colour space \"C420p16\": 16 bits aren't read, but 8, 10 and 12. ffmpeg makes a clip that is \
             read: ffmpeg -i INPUT -pix_fmt yuv420p12le -strict -1 OUTPUT.y4m",
        ),
        (
            "depth-9",
            "YUV4MPEG2 W16 H8 F1:1 Cmono9\n",
            "-pix_fmt gray10le ",
        ),
        (
            "old-space",
            "YUV4MPEG2 W16 H8 F1:1 XYSCSS=411\n",
            "the colour space \"XYSCSS=411\": 4:1:1",
        ),
        (
            "two-widths",
            "YUV4MPEG2 W16 H8 W32 C420\n",
            "the header says one thing twice: \"W16\" and \"W32\"",
        ),
        (
            "two-spaces",
            "YUV4MPEG2 W16 H8 C420 C420p10\n",
            "the header says one thing twice: \"C420\" and \"C420p10\"",
        ),
        (
            "width",
            "YUV4MPEG2 Wide H8 F1:1 C420\n",
            "the header's width isn't a number: \"Wide\"",
        ),
        (
            "no-width",
            "YUV4MPEG2 H8 F1:1 C420\n",
            "the header has no width (W)",
        ),
        (
            "no-height",
            "YUV4MPEG2 W8 F1:1 C420\n",
            "the header has no height (H)",
        ),
        (
            "zero",
            "YUV4MPEG2 W0 H8 F1:1 C420\n",
            "the frames are 0×8: width and height must each be at least 1 (question 2)",
        ),
    ] {
        let words = of(name, head.as_bytes());
        assert!(
            words.contains("clip.y4m: ") && words.contains(expected),
            "{words}"
        );
    }
}

/// Old programs give the colour space as XYSCSS alone; C goes before it.
#[test]
fn an_old_word_for_the_colour_space() {
    let folder = folder("old-space");
    let frame = |head: &str, bytes: usize| {
        let planes = vec![16; bytes];
        let bytes = [head.as_bytes(), b"\nFRAME\n", &planes].concat();
        fs::write(folder.join("clip.y4m"), bytes).unwrap();
        json(&folder, &["report", "clip.y4m", "--json"])["clip"]["format"].clone()
    };
    assert_eq!(frame("YUV4MPEG2 W4 H4 XYSCSS=444", 48), "4:4:4");
    assert_eq!(frame("YUV4MPEG2 W4 H4 XYSCSS=420JPEG", 24), "4:2:0");
    assert_eq!(frame("YUV4MPEG2 W4 H4 C422 XYSCSS=420JPEG", 32), "4:2:2");
}

/// Not refused: each frame is taken as one picture, and that is said.
#[test]
fn interlaced() {
    let folder = folder("interlaced");
    let bytes = clip(&frames(2));
    let head = bytes.iter().position(|&byte| byte == b'\n').unwrap();
    let line = String::from_utf8(bytes[..head].to_vec())
        .unwrap()
        .replace(" Ip", " It");
    fs::write(
        folder.join("clip.y4m"),
        [line.as_bytes(), &bytes[head..]].concat(),
    )
    .unwrap();
    let run = run(&folder, &["report", "clip.y4m"]);
    assert!(run.status.success());
    let said = String::from_utf8(run.stderr).unwrap();
    assert!(said.contains("clip.y4m is interlaced"), "{said}");
}

#[test]
fn too_large() {
    for size in [
        "W4097 H8",
        "W8 H4097",
        "W18446744073709551615 H18446744073709551615",
    ] {
        let words = of(
            "large",
            format!("YUV4MPEG2 {size} F25:1 C420\nFRAME\n").as_bytes(),
        );
        assert!(
            words.contains("width and height must each be at most 4,096 (question 1)"),
            "{words}"
        );
    }
}

#[test]
fn damaged_between_frames() {
    let mut bytes = clip(&frames(2));
    let at = bytes.len() - 384 - 6;
    bytes[at] = b'G';
    let words = of("between", &bytes);
    assert!(
        words.contains("where frame 1 should begin: no line FRAME"),
        "{words}"
    );
}

#[test]
fn a_sample_above_the_depth() {
    let mut all = frames(2);
    all[1].planes[2][3] = 1024;
    let words = of("depth", &clip(&all));
    assert!(
        words.contains(
            "clip.y4m: frame 1: it has a sample above 1023, the highest of 10 bits (question 6)"
        ),
        "{words}"
    );
}

#[test]
fn another_shape() {
    let folder = folder("shapes");
    fs::write(folder.join("clip.y4m"), clip(&frames(2))).unwrap();
    fs::write(folder.join("short.y4m"), clip(&frames(1))).unwrap();
    let shape = Shape::new(16, 8, 10, Format::Yuv422);
    fs::write(folder.join("other.y4m"), clip(&[Planes::random(shape, 1)])).unwrap();
    let with = |clip, copy| said(&folder, &["report", clip, "--denoised", copy]);
    let words = with("clip.y4m", "other.y4m");
    assert!(
        words.contains("other.y4m is no denoised copy of clip.y4m: it is 16×8, 10 bits, 4:2:2, not 16×8, 10 bits, 4:2:0"),
        "{words}"
    );
    let words = with("clip.y4m", "short.y4m");
    assert!(
        words.contains("short.y4m ends after 1 frames and clip.y4m has more"),
        "{words}"
    );
    let words = with("short.y4m", "clip.y4m");
    assert!(
        words.contains("short.y4m ends after 1 frames and clip.y4m has more"),
        "{words}"
    );
}

#[test]
fn no_such_file() {
    let (folder, _) = sample();
    let words = said(folder, &["report", "none.y4m"]);
    assert!(
        words.contains("none.y4m: No such file or directory"),
        "{words}"
    );
    let words = said(folder, &["report", "."]);
    assert!(words.contains("is a folder, not a clip"), "{words}");
    let words = said(folder, &["report", "-", "--denoised", "-"]);
    assert!(words.contains("standard input can't be both"), "{words}");
    let words = said(folder, &["denoise", "grain.y4m", "no/folder/out.y4m"]);
    assert!(
        words.contains("no/folder/out.y4m can't be written: No such file or directory"),
        "{words}"
    );
}
