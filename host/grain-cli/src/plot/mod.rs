//! The clip's noise as a picture: sigma over intensity, and how alike the noise is to itself nearby.

mod maps;
mod profile;

use crate::figures::Planes;
use crate::noise::Autocorrelation;
use crate::summary::ClipFigures;
use crate::words::shorten;
use anyhow::Result;
use plotters::coord::Shift;
use plotters::prelude::*;
use plotters::style::text_anchor::{HPos, Pos, VPos};

type Area<'a> = DrawingArea<SVGBackend<'a>, Shift>;

const FONT: &str = "sans-serif";
const WIDE: u32 = 960;
/// Height of the title, of the profile and of the autocorrelations.
const TITLE: u32 = 62;
const PROFILE: u32 = 370;
const MAPS: u32 = 300;
/// Width of one autocorrelation, and of their scale.
const MAP: u32 = 286;
const SCALE: u32 = WIDE - 3 * MAP;

/// The picture as SVG. A colour clip has its three autocorrelations below the profile, a monochrome one beside it.
pub fn svg(clip: &ClipFigures, noise: &Planes<Autocorrelation>) -> Result<String> {
    let colour = noise.cb.is_some();
    let tall = TITLE + PROFILE + if colour { MAPS } else { 0 };
    let mut words = String::new();
    {
        let root = SVGBackend::with_string(&mut words, (WIDE, tall)).into_drawing_area();
        root.fill(&WHITE)?;
        let (head, rest) = root.split_vertically(TITLE);
        title(clip, &head)?;
        let (upper, lower) = if colour {
            rest.split_vertically(PROFILE)
        } else {
            let (left, right) = rest.split_horizontally(WIDE - MAP - SCALE);
            (left, right.margin((PROFILE - MAPS) / 2, 0, 0, 0))
        };
        profile::draw(clip, &upper)?;
        let planes: Vec<_> = noise.named().collect();
        let (maps, scale) = lower.split_horizontally(MAP * planes.len() as u32);
        for (area, (name, noise)) in maps.split_evenly((1, planes.len())).iter().zip(planes) {
            maps::draw(name, noise, area)?;
        }
        maps::scale(&scale)?;
        root.present()?;
    }
    Ok(words)
}

/// Which clip, which part of its frames, less which copy, and of how many frames.
fn title(clip: &ClipFigures, area: &Area) -> Result<()> {
    let copy = match &clip.denoised {
        Some(name) => shorten(file(name), 40),
        None => "the built-in denoiser's copy (picture detail counts as noise)".to_string(),
    };
    let part = clip.active.part();
    let part = part.map_or(String::new(), |part| format!(", active {part}"));
    let name = shorten(file(&clip.name), 70 - part.chars().count());
    let lines = [
        (20, format!("Noise of {name}{part}")),
        (14, format!("{}; source less {copy}", clip.about())),
    ];
    let middle = Pos::new(HPos::Center, VPos::Center);
    for ((size, words), y) in lines.into_iter().zip([22, 48]) {
        let style = TextStyle::from((FONT, size)).pos(middle);
        area.draw(&Text::new(words, (WIDE as i32 / 2, y), style))?;
    }
    Ok(())
}

/// A clip's name without its folders.
fn file(name: &str) -> &str {
    name.rsplit('/').next().unwrap_or(name)
}

/// A whole number with the sign that the scale has.
fn signed(number: f64) -> String {
    let whole = number.round() as i32;
    format!("{}{}", if whole < 0 { "−" } else { "" }, whole.abs())
}
