//! The words of the command line.

use crate::active::Wanted;
use clap::builder::{PathBufValueParser, PossibleValuesParser, TypedValueParser};
use clap::{Args, Parser, Subcommand};
use clap_complete::Shell;
use grain::{Format, FrameType, Rectangle};
use std::num::NonZeroUsize;
use std::path::{Path, PathBuf};

/// Film-grain figures of a YUV4MPEG2 clip: what an AV1 encoder is told, and why.
///
/// Clips are monochrome, 4:2:0, 4:2:2 or 4:4:4, of 8, 10 or 12 bits, and at most 4,096 wide and high. Frames are counted
/// from 0.
#[derive(Parser)]
#[command(name = "grain", version)]
pub struct Arguments {
    #[command(subcommand)]
    pub command: Command,
    /// Work on so many threads, in place of one for each core
    #[arg(long, value_name = "N", global = true)]
    pub threads: Option<NonZeroUsize>,
}

#[derive(Subcommand)]
pub enum Command {
    Report(Report),
    Denoise(Denoise),
    Header(Header),
    Completions(Completions),
    /// Write the manual page
    Man,
}

/// Show the noise profile, gates, fits, chroma taps and seeds of a clip, and a verdict.
#[derive(Args)]
pub struct Report {
    /// The clip; - is standard input
    pub clip: PathBuf,
    /// Take this clip as the denoised copy, in place of the built-in denoiser's
    #[arg(long, value_name = "CLIP")]
    pub denoised: Option<PathBuf>,
    /// Take only this part of each frame: left, top, width and height in luma samples; auto leaves black bars out
    #[arg(long, value_name = "L,T,W,H|auto", value_parser = active)]
    pub active: Option<Wanted>,
    /// Begin at frame N, past a leader; the verdict goes by the first pair from there
    #[arg(long, value_name = "N", default_value = "0")]
    pub from: usize,
    /// Report the first frame and every Nth after it, each with the frame that follows it
    #[arg(long, value_name = "N", default_value = "1")]
    pub every: NonZeroUsize,
    /// Take only N frames
    #[arg(long, value_name = "N")]
    pub frames: Option<NonZeroUsize>,
    /// Leave the frames out and show the clip's figures alone
    #[arg(long)]
    pub brief: bool,
    /// Write JSON, one object in a line for each frame and a last one for the clip; docs/REPORT.md has its fields
    #[arg(long)]
    pub json: bool,
    /// Draw the noise profile and the noise's autocorrelation
    #[arg(long, value_name = "FILE.svg", value_parser = svg)]
    pub plot: Option<PathBuf>,
    /// Replace a plot that is there already
    #[arg(long, requires = "plot")]
    pub force: bool,
}

/// Write the clip that the built-in denoiser makes.
#[derive(Args)]
pub struct Denoise {
    /// The clip; - is standard input
    pub input: PathBuf,
    /// The denoised clip; - is standard output
    pub output: PathBuf,
    /// Take only the first N frames
    #[arg(long, value_name = "N")]
    pub frames: Option<NonZeroUsize>,
    /// Replace a file that is there already
    #[arg(long)]
    pub force: bool,
}

/// Write a frame header's film_grain_params from a record, if the record is allowed.
#[derive(Args)]
pub struct Header {
    /// The record, as JSON with the names that docs/REPORT.md has; - is standard input
    #[arg(value_name = "PARAMS.json")]
    pub params: PathBuf,
    /// The frame's format: mono, 4:2:0, 4:2:2 or 4:4:4
    #[arg(long, default_value = Format::Yuv420.name(), value_parser = format)]
    pub format: Format,
    /// The frame's type: inter for INTER_FRAME, other for any other
    #[arg(long, value_name = "TYPE", default_value = FRAME_TYPES[0].0)]
    #[arg(value_parser = frame_type(), hide_possible_values = true)]
    pub frame: FrameType,
    /// Write JSON, an object in one line; docs/REPORT.md has its fields
    #[arg(long)]
    pub json: bool,
    /// Write the bytes to this file as well
    #[arg(short, long, value_name = "OUT", value_parser = PathBufValueParser::new().try_map(file))]
    pub output: Option<PathBuf>,
    /// Replace a file that is there already
    #[arg(long, requires = "output")]
    pub force: bool,
}

/// Write the completions of a shell
#[derive(Args)]
pub struct Completions {
    /// Whose completions
    #[arg(value_enum)]
    pub shell: Shell,
}

fn active(words: &str) -> Result<Wanted, String> {
    if words == "auto" {
        return Ok(Wanted::Auto);
    }
    let numbers: Result<Vec<usize>, _> = words.split(',').map(str::parse).collect();
    match numbers.as_deref() {
        Ok(&[left, top, width, height]) => Ok(Wanted::Given(Rectangle {
            left,
            top,
            width,
            height,
        })),
        _ => Err("give left, top, width and height, as 0,138,1920,804, or auto".to_string()),
    }
}

fn svg(name: &str) -> Result<PathBuf, String> {
    let path = PathBuf::from(name);
    match path.extension() {
        Some(end) if end.eq_ignore_ascii_case("svg") => Ok(path),
        _ => Err("a plot is written as SVG: give a name that ends in .svg".to_string()),
    }
}

pub const FORMATS: [Format; 4] = [
    Format::Monochrome,
    Format::Yuv420,
    Format::Yuv422,
    Format::Yuv444,
];

/// Not a list of values to clap, whose completions would stumble over the colons.
fn format(name: &str) -> Result<Format, String> {
    let format = FORMATS.into_iter().find(|format| format.name() == name);
    format.ok_or_else(|| {
        format!(
            "a format is one of {}",
            FORMATS.map(Format::name).join(", ")
        )
    })
}

pub const FRAME_TYPES: [(&str, FrameType); 2] =
    [("inter", FrameType::Inter), ("other", FrameType::Other)];

fn frame_type() -> impl TypedValueParser<Value = FrameType> {
    PossibleValuesParser::new(FRAME_TYPES.map(|(name, _)| name)).map(|given| {
        let mut types = FRAME_TYPES.into_iter();
        let (_, frame) = types
            .find(|(name, _)| *name == given)
            .expect("one of these");
        frame
    })
}

fn file(path: PathBuf) -> Result<PathBuf, &'static str> {
    match path == Path::new("-") {
        true => Err("standard output has the figures: give a file's name"),
        false => Ok(path),
    }
}
