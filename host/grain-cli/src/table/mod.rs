//! The report as a person reads it, at most 80 columns wide.

mod cell;
mod fits;
mod gates;
mod legend;
mod profile;

use crate::figures::{ChromaTaps, Fit, FrameFigures};
use crate::summary::ClipFigures;
use crate::words::{shorten, wrapped};
use cell::Cell;
use console::style;
use std::fmt::Write;

const COLUMNS: usize = 80;

/// One frame's part.
pub fn frame(figures: &FrameFigures, depth: u8) -> String {
    let mut out = String::new();
    let head = format!("Frame {}, seed {}", figures.frame, figures.seed);
    line(&mut out, style(head).bold());
    profile::show(&mut out, &figures.profile, depth);
    gates::of_frame(&mut out, figures);
    let fits = [0, 1, 2].map(|at| Some(figures.fits[at].as_ref()?.fit.map(Cell::of_frame)));
    let taps = figures.chroma_taps.map(|taps| taps.map(Cell::of_frame));
    let planes: Vec<_> = figures.profile.named().map(|(name, _)| name).collect();
    coefficients(&mut out, &fits, taps, &planes, legend::OF_FRAME);
    out.push('\n');
    out
}

/// The clip's part, which comes last, where a terminal shows it. It ends with the verdict.
pub fn clip(clip: &ClipFigures) -> String {
    let mut out = String::new();
    line(&mut out, style(head(clip)).bold());
    if let Some(active) = clip.active.words() {
        line(&mut out, format!("  active rectangle: {active}"));
    }
    let copy = match &clip.denoised {
        Some(name) => shorten(name, COLUMNS - 17),
        None => "made by the built-in denoiser; picture detail counts as noise".to_string(),
    };
    line(&mut out, format!("  denoised copy: {copy}"));
    profile::show(&mut out, &clip.profile, clip.depth);
    gates::of_clip(&mut out, clip.gates.as_ref());
    let fits = [0, 1, 2].map(|at| Some(clip.fits[at].as_ref()?.fit.map(Cell::of_clip)));
    let taps = clip.chroma_taps.map(|taps| taps.map(Cell::of_clip));
    let planes: Vec<_> = clip.profile.named().map(|(name, _)| name).collect();
    coefficients(&mut out, &fits, taps, &planes, legend::OF_CLIP);
    legend::frames(&mut out, clip);
    out.push('\n');
    let verdict = &clip.verdict;
    let sentence = format!("Verdict: {}", verdict.sentence);
    line(&mut out, style(wrapped(&sentence, COLUMNS, "")).bold());
    let cautions = [verdict.held.as_deref(), verdict.caution];
    for caution in cautions.into_iter().flatten() {
        line(&mut out, wrapped(caution, COLUMNS, ""));
    }
    out
}

fn line(out: &mut String, words: impl std::fmt::Display) {
    writeln!(out, "{words}").expect("a string takes every word");
}

fn head(clip: &ClipFigures) -> String {
    let about = clip.about();
    let room = COLUMNS.saturating_sub(about.chars().count() + 2);
    format!("{}: {about}", shorten(&clip.name, room))
}

/// The fits at lags 1, 2 and 3, the taps, and what the marks among them mean.
fn coefficients(
    out: &mut String,
    fits: &[Option<Fit<Cell>>; 3],
    taps: Option<ChromaTaps<Cell>>,
    planes: &[&str],
    meanings: [&str; 3],
) {
    fits::show(out, fits, planes);
    if let Some(ChromaTaps { cb, cr }) = &taps {
        let (cb, cr) = (cb.shown(), cr.shown());
        line(out, format!("  taps without neighbours: Cb {cb}, Cr {cr}"));
    }
    let taps = taps.iter().flat_map(|taps| [&taps.cb, &taps.cr]);
    let all = fits.iter().flatten().flat_map(Fit::iter).chain(taps);
    legend::show(out, all, meanings);
}
