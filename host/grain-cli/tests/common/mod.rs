//! Clips for the tests, and the command run on them.
#![allow(dead_code)] // each test file uses a part

pub mod letterbox;
pub mod record;

use grain::{Format, Frame, Shape};
use serde_json::{Value, json};
use std::fs;
use std::path::{Path, PathBuf};
use std::process::{Command, Output, Stdio};
use std::sync::OnceLock;

/// Every format at every depth.
pub fn shapes(width: usize, height: usize) -> impl Iterator<Item = Shape> {
    [
        Format::Monochrome,
        Format::Yuv420,
        Format::Yuv422,
        Format::Yuv444,
    ]
    .into_iter()
    .flat_map(move |format| [8, 10, 12].map(|depth| Shape::new(width, height, depth, format)))
}

/// A fresh folder for one test.
pub fn folder(name: &str) -> PathBuf {
    let path = Path::new(env!("CARGO_TARGET_TMPDIR")).join(name);
    let _ = fs::remove_dir_all(&path);
    fs::create_dir_all(&path).unwrap();
    path
}

/// The command, ready to run in a folder.
pub fn command(folder: &Path, words: &[&str]) -> Command {
    let mut command = Command::new(env!("CARGO_BIN_EXE_grain"));
    command.current_dir(folder).args(words).stdin(Stdio::null());
    command
}

pub fn run(folder: &Path, words: &[&str]) -> Output {
    command(folder, words).output().unwrap()
}

/// What a run that must succeed writes.
pub fn written(folder: &Path, words: &[&str]) -> Vec<u8> {
    let run = run(folder, words);
    let said = String::from_utf8_lossy(&run.stderr);
    assert!(run.status.success(), "grain {words:?}: {said}");
    assert_eq!(said, "", "grain {words:?}");
    run.stdout
}

/// The report's lines: its frames as a list, and its clip. Each line says what it is.
pub fn json(folder: &Path, words: &[&str]) -> Value {
    let lines = String::from_utf8(written(folder, words)).unwrap();
    let mut frames = parsed(&lines);
    let clip = frames.pop().unwrap();
    let kinds = frames.iter().map(|frame| (frame, "frame"));
    for (line, kind) in kinds.chain([(&clip, "clip")]) {
        assert_eq!((&line["schema"], &line["kind"]), (&json!(1), &json!(kind)));
    }
    json!({"frames": frames, "clip": clip})
}

/// JSON Lines.
pub fn parsed(lines: &str) -> Vec<Value> {
    let parse = |line| serde_json::from_str(line).unwrap();
    lines.lines().map(parse).collect()
}

/// What a run that must fail says, in one line.
pub fn said(folder: &Path, words: &[&str]) -> String {
    let run = run(folder, words);
    let said = String::from_utf8(run.stderr).unwrap();
    assert_eq!(run.status.code(), Some(1), "grain {words:?}: {said}");
    assert!(
        said.starts_with("grain: ") && said.lines().count() == 1,
        "{said}"
    );
    said
}

/// A frame's planes, random but the same each time.
#[derive(Clone)]
pub struct Planes {
    pub shape: Shape,
    pub planes: [Vec<u16>; 3],
}

impl Planes {
    pub fn random(shape: Shape, seed: u64) -> Self {
        let mut state = seed * 2 + 1;
        let mut plane = |samples: usize| -> Vec<u16> {
            let sample = |_| {
                state = state
                    .wrapping_mul(6364136223846793005)
                    .wrapping_add(1442695040888963407);
                let level = 1 << (shape.depth - 1);
                level + (state >> 58) as u16
            };
            (0..samples).map(sample).collect()
        };
        let (y, c) = (shape.luma_samples(), shape.chroma_samples());
        Planes {
            shape,
            planes: [plane(y), plane(c), plane(c)],
        }
    }

    pub fn lent(&self) -> Frame<'_> {
        let [y, cb, cr] = &self.planes;
        Frame::new(self.shape, y, cb, cr)
    }

    pub fn denoised(&self) -> Self {
        let mut copy = self.clone();
        let [y, cb, cr] = &mut copy.planes;
        grain::denoise_frame(&self.lent(), y, cb, cr).unwrap();
        copy
    }

    /// The planes as a clip has them.
    pub fn bytes(&self) -> Vec<u8> {
        let wide = self.shape.depth > 8;
        let samples = self.planes.iter().flatten();
        samples
            .flat_map(|s| s.to_le_bytes().into_iter().take(if wide { 2 } else { 1 }))
            .collect()
    }
}

/// The word for a shape's format and depth.
pub fn colour_space(shape: Shape) -> String {
    let format = ["mono", "420", "422", "444"][shape.format as usize];
    match (shape.depth, shape.format) {
        (8, _) => format.to_string(),
        (depth, Format::Monochrome) => format!("mono{depth}"),
        (depth, _) => format!("{format}p{depth}"),
    }
}

pub fn header(shape: Shape) -> String {
    format!(
        "YUV4MPEG2 W{} H{} F30000:1001 Ip A4:3 C{} XCOLORRANGE=LIMITED",
        shape.width,
        shape.height,
        colour_space(shape)
    )
}

/// A clip, byte by byte.
pub fn clip(frames: &[Planes]) -> Vec<u8> {
    let mut bytes = (header(frames[0].shape) + "\n").into_bytes();
    for frame in frames {
        bytes.extend_from_slice(b"FRAME\n");
        bytes.extend(frame.bytes());
    }
    bytes
}

/// The sample clip and the same without grain, made once, and its script.
pub fn sample() -> &'static (PathBuf, String) {
    static MADE: OnceLock<(PathBuf, String)> = OnceLock::new();
    MADE.get_or_init(|| {
        let folder = folder("sample");
        let script = Path::new(env!("CARGO_MANIFEST_DIR")).join("../sample");
        let words = [folder.join("grain.y4m"), folder.join("clean.y4m")];
        let run = Command::new("python3")
            .arg(&script)
            .args(&words)
            .status()
            .unwrap();
        assert!(run.success());
        (folder, fs::read_to_string(script).unwrap())
    })
}

/// The words of a report on the sample clip with its true copy, and more.
pub fn on_sample<'a>(more: &[&'a str]) -> Vec<&'a str> {
    let mut words = vec!["report", "grain.y4m", "--denoised", "clean.y4m"];
    words.extend(more);
    words
}
