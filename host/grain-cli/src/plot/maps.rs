//! The autocorrelation of a plane's noise, and the scale of its shades.

use super::{Area, FONT, signed};
use crate::noise::{Autocorrelation, REACH};
use anyhow::Result;
use plotters::prelude::*;
use plotters::style::text_anchor::{HPos, Pos, VPos};

/// A square for each displacement, with the correlation in it.
pub fn draw(name: &str, noise: &Autocorrelation, area: &Area) -> Result<()> {
    let reach = REACH as isize;
    let edge = REACH as f64 + 0.5;
    let mut chart = ChartBuilder::on(area)
        .caption(format!("{name}: autocorrelation of the noise"), (FONT, 16))
        .margin(8)
        .x_label_area_size(40)
        .y_label_area_size(46)
        .build_cartesian_2d(-edge..edge, -edge..edge)?;
    chart
        .configure_mesh()
        .disable_mesh()
        .x_labels(5)
        .y_labels(5)
        .x_label_formatter(&|x| signed(*x))
        .y_label_formatter(&|y| signed(-*y))
        .x_desc("columns")
        .y_desc("rows")
        .label_style((FONT, 12))
        .axis_desc_style((FONT, 13))
        .draw()?;
    let places = (-reach..=reach).flat_map(|row| (-reach..=reach).map(move |column| (row, column)));
    chart.draw_series(places.map(|(row, column)| {
        let (x, y) = (column as f64, -row as f64);
        let rho = noise.at(row, column).unwrap_or(0.0);
        Rectangle::new(
            [(x - 0.5, y - 0.5), (x + 0.5, y + 0.5)],
            shade(rho).filled(),
        )
    }))?;
    if noise.at(0, 0).is_none() {
        let middle = TextStyle::from((FONT, 14)).pos(Pos::new(HPos::Center, VPos::Center));
        chart.draw_series([Text::new("no noise", (0.0, 0.0), middle)])?;
    }
    Ok(())
}

/// Purple at −1, white at 0, green at 1: no plane's colours. The root of the magnitude sets weak correlations apart.
fn shade(rho: f64) -> RGBColor {
    let weight = rho.abs().min(1.0).sqrt();
    let mix = |end: u8| (255.0 - weight * (255.0 - f64::from(end))).round() as u8;
    let (r, g, b) = if rho < 0.0 {
        (100, 30, 120)
    } else {
        (20, 105, 50)
    };
    RGBColor(mix(r), mix(g), mix(b))
}

/// What the shades mean.
pub fn scale(area: &Area) -> Result<()> {
    let (left, top, tall, step) = (12, 36, 212, 2);
    for at in (0..tall).step_by(step) {
        let rho = 1.0 - 2.0 * f64::from(at) / f64::from(tall - step as i32);
        // Down to the bottom, so that no edge of one shows between it and the next.
        let ends = [(left, top + at), (left + 18, top + tall)];
        area.draw(&Rectangle::new(ends, shade(rho).filled()))?;
    }
    let style = TextStyle::from((FONT, 13)).pos(Pos::new(HPos::Left, VPos::Center));
    area.draw(&Text::new(
        "correlation",
        (left - 2, top - 16),
        style.clone(),
    ))?;
    for (rho, at) in [
        ("1", 0),
        ("0.5", tall / 4),
        ("0", tall / 2),
        ("−0.5", 3 * tall / 4),
        ("−1", tall),
    ] {
        area.draw(&Text::new(rho, (left + 26, top + at), style.clone()))?;
    }
    Ok(())
}
