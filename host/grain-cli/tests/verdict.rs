//! What a report says of a clip in the end, and what it warns of.

mod common;

use common::{Planes, clip, folder, json, on_sample, sample, written};
use grain::{Format, Shape};
use serde_json::{Value, json};
use std::fs;
use std::path::Path;

const SHAPE: Shape = Shape::new(96, 64, 8, Format::Yuv420);

fn filled(shape: Shape, sample: impl Fn(usize, usize) -> u16) -> Planes {
    let plane = |width: usize, height: usize| {
        (0..width * height)
            .map(|at| sample(at % width, at / width))
            .collect()
    };
    let chroma = || plane(shape.chroma_width(), shape.chroma_height());
    Planes {
        shape,
        planes: [plane(shape.width, shape.height), chroma(), chroma()],
    }
}

fn table(folder: &Path, words: &[&str]) -> String {
    String::from_utf8(written(folder, words)).unwrap()
}

/// The verdict as one line.
fn verdict(table: &str) -> String {
    let at = table.find("\nVerdict: ").unwrap();
    table[at + 1..].lines().collect::<Vec<_>>().join(" ")
}

/// A first pair of black leader says no; past it the grain is found.
#[test]
fn past_a_leader() {
    let folder = folder("leader");
    let flat = filled(SHAPE, |_, _| 159);
    let mut frames = vec![filled(SHAPE, |_, _| 16); 2];
    frames.extend((0..4).map(|seed| Planes::random(SHAPE, seed)));
    let mut copies = vec![flat; 6];
    copies[..2].clone_from_slice(&frames[..2]);
    fs::write(folder.join("clip.y4m"), clip(&frames)).unwrap();
    fs::write(folder.join("copy.y4m"), clip(&copies)).unwrap();
    let words = ["report", "clip.y4m", "--denoised", "copy.y4m", "--brief"];
    assert_eq!(
        verdict(&table(&folder, &words)),
        "Verdict: No grain, since in the first pair sigma is too low; 3 of 5 pairs pass; --from N begins at \
         another frame."
    );
    let words = [&words[..], &["--from", "2"]].concat();
    let shown = table(&folder, &words);
    assert!(
        shown.starts_with("clip.y4m: 96×64, 8 bits, 4:2:0, 4 frames from 2\n"),
        "{shown}"
    );
    assert!(verdict(&shown).starts_with("Verdict: Grain, by the first pair; 3 of 3 pairs pass. Lag 0 (white) is enough, since farther off the lag-3 fit has at most "), "{shown}");
    let words = [
        "report",
        "clip.y4m",
        "--denoised",
        "copy.y4m",
        "--json",
        "--from",
        "2",
        "--frames",
        "3",
    ];
    let report = json(&folder, &words);
    let numbers: Vec<&Value> = report["frames"]
        .as_array()
        .unwrap()
        .iter()
        .map(|f| &f["frame"])
        .collect();
    assert_eq!(
        numbers,
        [&json!(2), &json!(3), &json!(4)],
        "frames keep their numbers"
    );
    let clip = &report["clip"];
    assert_eq!((&clip["from"], &clip["frames"]), (&json!(2), &json!(3)));
    assert_eq!(
        (&clip["verdict"]["grain"], &clip["verdict"]["lag"]),
        (&json!(true), &json!(0))
    );
    let words = common::said(&folder, &["report", "clip.y4m", "--from", "6"]);
    assert!(
        words.contains("clip.y4m: --from 6 passes over all of its 6 frames"),
        "{words}"
    );
}

#[test]
fn the_lag_is_that_of_the_grain() {
    let (folder, _) = sample();
    let verdict = json(folder, &on_sample(&["--brief", "--json"]))["clip"]["verdict"].clone();
    assert_eq!(
        (&verdict["grain"], &verdict["lag"]),
        (&json!(true), &json!(1))
    );
    let sentence = verdict["sentence"].as_str().unwrap();
    assert!(
        sentence.starts_with(
            "Grain, by the first pair; 5 of 5 pairs pass. Lag 1 is enough, since farther off"
        ),
        "{sentence}"
    );
    let one = json(folder, &["report", "grain.y4m", "--frames", "1", "--json"]);
    let verdict = &one["clip"]["verdict"];
    assert_eq!(
        (&verdict["grain"], &verdict["lag"]),
        (&Value::Null, &Value::Null)
    );
    assert_eq!(
        verdict["sentence"],
        "No verdict: no frame follows another, and the gates want two."
    );
}

/// A sharp picture without grain, panned, passes without a denoised copy, and the report warns of that where the
/// verdict is read; with a true copy it fails, and there is no warning.
#[test]
fn detail_is_no_grain() {
    let folder = folder("detail");
    let busy = |x: usize, y: usize| 90 + ((x * x * 7 + y * y * 13 + x * y * 5) % 61) as u16;
    let frames: Vec<Planes> = (0..3)
        .map(|pan| filled(SHAPE, |x, y| busy(x + 11 * pan, y)))
        .collect();
    fs::write(folder.join("clip.y4m"), clip(&frames)).unwrap();
    let shown = table(&folder, &["report", "clip.y4m", "--brief"]);
    let caution = "The denoised copy is the built-in denoiser's, so picture detail counts as noise: a picture \
                   without grain may pass. --denoised CLIP with a true copy settles it.";
    assert!(verdict(&shown).starts_with("Verdict: Grain"), "{shown}");
    assert!(verdict(&shown).ends_with(caution), "{shown}");
    assert!(
        shown.contains("made by the built-in denoiser; picture detail counts as noise"),
        "{shown}"
    );
    assert_eq!(
        json(&folder, &["report", "clip.y4m", "--json"])["clip"]["verdict"]["caution"],
        caution
    );
    fs::write(folder.join("copy.y4m"), clip(&frames)).unwrap();
    let words = ["report", "clip.y4m", "--denoised", "copy.y4m", "--brief"];
    let shown = table(&folder, &words);
    assert_eq!(
        verdict(&shown),
        "Verdict: No grain, since in the first pair sigma is too low; 0 of 2 pairs pass."
    );
    let words = [&words[..], &["--json"]].concat();
    assert_eq!(
        json(&folder, &words)["clip"]["verdict"]["caution"],
        Value::Null
    );
}

/// Noise of one step up and down: the library's sigma cuts it to whole 8-bit steps first, which at 12 bits makes
/// eleven times as much of it; the unshifted one doesn't.
#[test]
fn sigma_before_the_cut() {
    let folder = folder("unshifted");
    for (depth, sigma, unshifted) in [(8, 1.0, 1.0), (10, 0.6875, 0.25), (12, 0.6875, 0.0625)] {
        let shape = Shape::new(64, 48, depth, Format::Yuv444);
        let level = 1 << (depth - 1);
        let copy = filled(shape, |_, _| level);
        let frame = filled(shape, |x, y| {
            if (x + y) % 2 == 0 {
                level + 1
            } else {
                level - 1
            }
        });
        fs::write(folder.join("clip.y4m"), clip(&[frame.clone(), frame])).unwrap();
        fs::write(folder.join("copy.y4m"), clip(&[copy.clone(), copy])).unwrap();
        let words = ["report", "clip.y4m", "--denoised", "copy.y4m"];
        let report = json(&folder, &[&words[..], &["--json"]].concat());
        for part in [&report["frames"][0], &report["frames"][1], &report["clip"]] {
            for plane in ["y", "cb", "cr"] {
                assert_eq!(part["profile"][plane]["sigma_unshifted"], unshifted);
            }
        }
        assert_eq!(report["frames"][0]["profile"]["y"]["sigma"], sigma);
        let shown = table(&folder, &words);
        let line = format!(
            "sigma before noise is cut to 8-bit steps: Y {unshifted:.3}, Cb {unshifted:.3}, Cr {unshifted:.3}"
        );
        assert_eq!(
            shown.matches(&line).count(),
            if depth == 8 { 0 } else { 3 },
            "{shown}"
        );
    }
}

/// The limits have names, and 80 columns hold a long name, coefficients of three digits with a sign, and a refusal.
#[test]
fn eighty_columns() {
    let folder = folder("columns");
    let shape = Shape::new(16, 64, 12, Format::Yuv444);
    let grows = |x: usize| (-1.7f64).powi(x as i32);
    let mut frames = [Planes::random(shape, 1), Planes::random(shape, 2)];
    for plane in frames.iter_mut().flat_map(|frame| &mut frame.planes) {
        for (at, sample) in plane.iter_mut().enumerate() {
            let (x, y) = (at % 16, at / 16);
            let strong = ((y * y * 31) % 17) as f64 / 34.0 - 0.25;
            *sample = (2048.0 + strong * grows(x)).round() as u16;
        }
    }
    let copies = [filled(shape, |_, _| 2048), filled(shape, |_, _| 2048)];
    let name = format!("{}.y4m", "a name that is long, ".repeat(10).trim_end());
    fs::write(folder.join(&name), clip(&frames)).unwrap();
    fs::write(folder.join("copy.y4m"), clip(&copies)).unwrap();
    for words in [
        &["report", &name, "--denoised", "copy.y4m"][..],
        &["report", &name],
    ] {
        let shown = table(&folder, words);
        let wide = shown.lines().filter(|line| line.chars().count() > 80);
        assert_eq!(wide.collect::<Vec<_>>(), [""; 0]);
        assert!(
            shown.contains("  limits: sigma Y ≥ 1, Cb and Cr ≥ 0.5"),
            "{shown}"
        );
        assert!(
            shown.contains("within ±0.75") && shown.contains("within ±0.4"),
            "{shown}"
        );
        assert!(shown.contains("\na name that is long, "), "{shown}");
        assert!(
            shown.contains("….y4m") || shown.contains("is long,.y4m: 16×64"),
            "{shown}"
        );
    }
    let words = ["report", &name, "--denoised", "copy.y4m", "--brief"];
    let shown = table(&folder, &words);
    assert!(shown.contains("  Y    -109    ·"), "{shown}");
}
