//! The gates, as a table.

use super::line;
use crate::figures::{FRAME_LIMIT, FrameFigures, LEAST_SIGMA, Planes, ROW_LIMIT};
use crate::summary::{GateCount, Spread};
use console::style;

/// A frame's gates against the next.
pub fn of_frame(out: &mut String, figures: &FrameFigures) {
    let Some(gates) = &figures.gates else {
        line(out, "  gates: none, since no frame follows");
        return;
    };
    let head = format!("gates, frame {} to {}", figures.frame, figures.frame + 1);
    let [sigma, row, between] = ["sigma", "along a row", "frame to frame"];
    line(
        out,
        format!("  {head:<32}{sigma:>12}{row:>14}{between:>18}"),
    );
    let [sigma, row, between] = limits(gates.cb.is_some());
    line(
        out,
        format!("  {:<14}{sigma:>30}{row:>14}{between:>18}", "limits"),
    );
    for (name, gate) in gates.named() {
        let answer = answer(gate.grain, 26);
        let (sigma, row) = (gate.sigma, correlation(gate.row_correlation));
        let between = gate.frame_correlation.map_or("–".to_string(), correlation);
        line(
            out,
            format!("  {name:<4}{answer}{sigma:>14.2}{row:>14}{between:>18}"),
        );
        why(out, gate.why);
    }
}

/// The clip's gates: the first pair's answer, how many pairs pass, and from where to where the figures go.
pub fn of_clip(out: &mut String, gates: Option<&Planes<GateCount>>) {
    let Some(gates) = gates else {
        line(out, "  gates: none, since no frame follows another");
        return;
    };
    let [head, passed] = ["gates, first pair", "pairs passed"];
    let [row, between] = ["along a row", "frame to frame"];
    line(
        out,
        format!("  {head:<18}{passed:>20}{row:>20}{between:>20}"),
    );
    let [sigma, row, between] = limits(gates.cb.is_some());
    let sigma = format!("limits: sigma {sigma}");
    line(out, format!("  {sigma:<38}{row:>20}{between:>20}"));
    for (name, gate) in gates.named() {
        let answer = answer(gate.first, 14);
        let passed = format!("{} of {}", gate.passed, gate.pairs);
        let [row, between] = [gate.row_correlation, gate.frame_correlation].map(spread);
        line(
            out,
            format!("  {name:<4}{answer}{passed:>20}{row:>20}{between:>20}"),
        );
        why(out, gate.why);
    }
}

/// What sigma and the two correlations must hold to.
fn limits(colour: bool) -> [String; 3] {
    let [luma, chroma] = LEAST_SIGMA;
    let chroma = match colour {
        true => format!(", Cb and Cr ≥ {chroma}"),
        false => String::new(),
    };
    [
        format!("Y ≥ {luma}{chroma}"),
        format!("within ±{ROW_LIMIT}"),
        format!("within ±{FRAME_LIMIT}"),
    ]
}

fn answer(grain: bool, width: usize) -> String {
    let padded = format!("{:<width$}", if grain { "grain" } else { "no" });
    let shown = if grain {
        style(padded).green()
    } else {
        style(padded).red()
    };
    shown.to_string()
}

fn spread(of: Option<Spread>) -> String {
    match of {
        None => "–".to_string(),
        Some(Spread { least, most, .. }) if least == most => correlation(most),
        Some(Spread { least, most, .. }) => {
            format!("{} to {}", correlation(least), correlation(most))
        }
    }
}

/// Three places, without a sign at 0.
fn correlation(rho: f64) -> String {
    format!("{:.3}", (rho * 1000.0).round() / 1000.0 + 0.0)
}

fn why(out: &mut String, why: Option<&str>) {
    if let Some(why) = why {
        line(out, format!("      since {why}"));
    }
}
