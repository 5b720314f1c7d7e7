//! Sigma over intensity.

use super::{Area, FONT};
use crate::figures::{Bin, Profile};
use crate::summary::ClipFigures;
use anyhow::Result;
use plotters::prelude::*;
use plotters::style::text_anchor::{HPos, Pos, VPos};

/// Sigma of each bin, over the intensities it spans.
pub fn draw(clip: &ClipFigures, area: &Area) -> Result<()> {
    let planes: Vec<_> = clip.profile.named().collect();
    let (width, _) = area.dim_in_pixel();
    let (keys, area) = area.split_vertically(26);
    let shown = planes
        .iter()
        .flat_map(|(_, plane)| plane.bins.iter().filter(|bin| bin.count > 0));
    let top = shown.map(|bin| bin.sigma).fold(0.0, f64::max) * 1.08;
    let top = if top > 0.0 { top } else { 1.0 };
    let places = if top < 0.5 { 2 } else { 1 };
    let edges = (0..=256).step_by(32).collect();
    let mut chart = ChartBuilder::on(&area)
        .margin(12)
        .margin_top(4)
        .x_label_area_size(48)
        .y_label_area_size(58)
        .build_cartesian_2d((0..256).with_key_points(edges), 0.0..top)?;
    chart
        .configure_mesh()
        .y_labels(8)
        .y_label_formatter(&|y| format!("{y:.places$}"))
        .x_desc("intensity, in 8-bit steps (a thin line: too few samples, so the plane's sigma)")
        .y_desc("sigma, in 8-bit steps")
        .label_style((FONT, 14))
        .axis_desc_style((FONT, 15))
        .light_line_style(WHITE)
        .draw()?;
    for (name, plane) in &planes {
        let (colour, width) = stroke(name);
        chart.draw_series(LineSeries::new(steps(plane), colour.stroke_width(1)))?;
        let own = plane.bins.iter().filter(|bin| bin.own);
        chart
            .draw_series(own.map(|bin| PathElement::new(ends(bin), colour.stroke_width(width))))?;
    }
    for (at, (name, plane)) in planes.iter().rev().enumerate() {
        let (colour, stroke) = stroke(name);
        let x = width as i32 - 112 * (at as i32 + 1);
        keys.draw(&PathElement::new(
            [(x, 14), (x + 26, 14)],
            colour.stroke_width(stroke),
        ))?;
        let style = TextStyle::from((FONT, 15)).pos(Pos::new(HPos::Left, VPos::Center));
        let words = format!("{name}: {:.2}", plane.sigma);
        keys.draw(&Text::new(words, (x + 34, 14), style))?;
    }
    Ok(())
}

/// The corners of a plane's profile, bin after bin, without bins that have no samples.
fn steps(plane: &Profile) -> Vec<(i32, f64)> {
    let there = plane.bins.iter().filter(|bin| bin.count > 0);
    there.flat_map(ends).collect()
}

fn ends(bin: &Bin) -> [(i32, f64); 2] {
    [(bin.from, bin.sigma), (bin.to + 1, bin.sigma)]
}

/// A plane's colour and width: Cr's line is thinner, since it is drawn over Cb's.
fn stroke(plane: &str) -> (RGBColor, u32) {
    match plane {
        "Y" => (RGBColor(60, 60, 60), 5),
        "Cb" => (RGBColor(31, 119, 180), 5),
        _ => (RGBColor(200, 50, 40), 3),
    }
}
