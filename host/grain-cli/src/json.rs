//! JSON Lines. The report has an object in a line for each frame, and a last one for the clip; a header is one.

use crate::figures::FrameFigures;
use crate::header::Written;
use crate::summary::ClipFigures;
use anyhow::Result;
use serde::Serialize;

/// Goes up when a name or a meaning changes; names may be added without that.
const SCHEMA: u32 = 1;

#[derive(Serialize)]
struct Line<'a, T> {
    schema: u32,
    kind: &'static str,
    #[serde(flatten)]
    of: &'a T,
}

pub fn frame(figures: &FrameFigures) -> Result<String> {
    line("frame", figures)
}

pub fn clip(figures: &ClipFigures) -> Result<String> {
    line("clip", figures)
}

pub fn header(written: &Written) -> Result<String> {
    line("header", written)
}

fn line(kind: &'static str, of: &impl Serialize) -> Result<String> {
    let schema = SCHEMA;
    Ok(serde_json::to_string(&Line { schema, kind, of })? + "\n")
}
