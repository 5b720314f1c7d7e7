//! Coefficients that the header's range can't hold: what the table and JSON say of each, and what the verdict says.

mod common;

use common::{Planes, clip, folder, json, on_sample, sample, written};
use grain::{Format, Shape};
use serde_json::{Value, json};
use std::fs;
use std::path::{Path, PathBuf};

/// The denoised copy's samples.
const LEVEL: i32 = 2048;

/// A frame of 4:4:4 at 12 bits from the noises of Y, Cb and Cr. Those of each row come from its random numbers, one of
/// 0 to 63 for each sample of each plane.
fn noisy(
    (width, height): (usize, usize),
    seed: u64,
    row: impl Fn(&[[i32; 3]]) -> Vec<[i32; 3]>,
) -> Planes {
    let shape = Shape::new(width, height, 12, Format::Yuv444);
    let mut frame = Planes::random(shape, seed);
    for at in (0..width * height).step_by(width) {
        let chance = |x| [0, 1, 2].map(|plane| i32::from(frame.planes[plane][at + x]) - LEVEL);
        let noises = row(&(0..width).map(chance).collect::<Vec<_>>());
        for (x, noise) in noises.into_iter().enumerate() {
            for (plane, noise) in noise.into_iter().enumerate() {
                frame.planes[plane][at + x] = (LEVEL + noise) as u16;
            }
        }
    }
    frame
}

/// Luma's noise triples from column to column, Cb's is −3 times luma's and Cr's 3 times.
fn tripling(seed: u64) -> Planes {
    noisy((6, 400), seed, |chances| {
        let mut luma = 0;
        let noise = |&[y, cb, cr]: &[i32; 3]| {
            luma = 3 * luma + y % 3 - 1;
            [luma, cb % 5 - 2 - 3 * luma, cr % 5 - 2 + 3 * luma]
        };
        chances.iter().map(noise).collect()
    })
}

/// Noise that nothing goes by.
fn white(seed: u64) -> Planes {
    let centred = |of: &[i32; 3]| of.map(|chance| chance - 32);
    noisy((6, 400), seed, |chances| {
        chances.iter().map(centred).collect()
    })
}

/// A folder with these frames as a clip, and its denoised copy.
fn made(name: &str, frames: &[Planes]) -> PathBuf {
    let folder = folder(name);
    let mut copy = frames[0].clone();
    copy.planes
        .iter_mut()
        .for_each(|plane| plane.fill(LEVEL as u16));
    fs::write(folder.join("clip.y4m"), clip(frames)).unwrap();
    fs::write(folder.join("copy.y4m"), clip(&vec![copy; frames.len()])).unwrap();
    folder
}

const WORDS: [&str; 4] = ["report", "clip.y4m", "--denoised", "copy.y4m"];

fn in_json(folder: &Path) -> Value {
    json(folder, &[&WORDS[..], &["--json"]].concat())
}

/// The table's parts, one for each frame and a last one for the clip, none wider than 80 columns.
fn tables(folder: &Path, words: &[&str]) -> Vec<String> {
    let table = String::from_utf8(written(folder, words)).unwrap();
    let wide = table.lines().filter(|line| line.chars().count() > 80);
    assert_eq!(wide.collect::<Vec<_>>(), [""; 0]);
    let (parts, verdict) = table.split_once("\n\nVerdict").unwrap();
    let mut parts: Vec<String> = parts.split("\n\n").map(String::from).collect();
    parts
        .last_mut()
        .unwrap()
        .push_str(&format!("\n\nVerdict{verdict}"));
    parts
}

/// A line that begins like this must be there.
fn has(table: &str, start: &str) {
    assert!(
        table.lines().any(|line| line.starts_with(start)),
        "{start:?} in {table}"
    );
}

fn unmarked(table: &str) {
    assert!(!table.contains(['<', '>']), "{table}");
    assert!(!table.contains("held") && !table.contains("NaN"), "{table}");
}

#[test]
fn held_coefficients_of_a_frame() {
    let folder = made("held", &[tripling(1), tripling(2), white(3), white(4)]);
    let report = in_json(&folder);
    let tables = tables(&folder, &WORDS);
    let inside = vec!["inside"; 4];
    for frame in [0, 1] {
        let (table, frame) = (&tables[frame], &report["frames"][frame]);
        let fit = &frame["fits"][0];
        assert_eq!(fit["y"][3], 127);
        assert_eq!(
            fit["marks"],
            json!({
                "y": ["inside", "inside", "inside", "held_high"],
                "cb": {"coefficients": inside, "luma_tap": "held_low"},
                "cr": {"coefficients": inside, "luma_tap": "held_high"},
            })
        );
        assert_eq!(fit["cb"]["luma_tap"], -128);
        assert_eq!(fit["cr"]["luma_tap"], 127);
        let marks = json!({"cb": "held_low", "cr": "held_high"});
        assert_eq!(
            frame["chroma_taps"],
            json!({"cb": -128, "cr": 127, "marks": marks})
        );
        has(table, "  Y     >127     ·");
        has(table, "  luma       <-128                     <-128");
        has(table, "  luma        >127                      >127");
        has(table, "  taps without neighbours: Cb <-128, Cr >127");
        has(
            table,
            "  <-128: too low, held at -128; >127: too high, held at 127",
        );
    }
    for frame in [2, 3] {
        unmarked(&tables[frame]);
        let words = report["frames"][frame].to_string();
        assert!(
            words.contains("inside") && !words.contains("held"),
            "{words}"
        );
    }
}

#[test]
fn held_coefficients_of_a_clip() {
    let folder = made("held-clip", &[tripling(1), tripling(2), white(3), white(4)]);
    let clip = &in_json(&folder)["clip"];
    let table = tables(&folder, &[&WORDS[..], &["--brief"]].concat()).remove(0);
    let fit = &clip["fits"][0];
    let marks = |of: &Value| ["held_low", "held_high", "nan"].map(|name| of[name].as_u64());
    let [none, low, high] = [[0, 0, 0], [2, 0, 0], [0, 2, 0]].map(|marks| marks.map(Some));
    assert_eq!(marks(&fit["y"][2]), none);
    assert_eq!(marks(&fit["y"][3]), high);
    assert_eq!(marks(&fit["cb"]["luma_tap"]), low);
    assert_eq!(marks(&fit["cr"]["luma_tap"]), high);
    assert_eq!(marks(&clip["chroma_taps"]["cb"]), low);
    assert_eq!(marks(&clip["chroma_taps"]["cr"]), high);
    let marked = |y: u32, cb: u32, cr: u32| json!({"y": y, "cb": cb, "cr": cr});
    let [taps, both, none] = [marked(0, 2, 2), marked(2, 2, 2), marked(0, 0, 0)];
    assert_eq!(clip["marked"], json!([taps, both, both, none]));
    let mean = |of: &Value| of["mean"].as_f64().unwrap().round();
    let taps = &clip["chroma_taps"];
    let (cb, cr) = (mean(&taps["cb"]), mean(&taps["cr"]));
    has(
        &table,
        &format!("  Y   {:>5}    ·", format!(">{}", mean(&fit["y"][3]))),
    );
    has(
        &table,
        &format!("  taps without neighbours: Cb <{cb}, Cr >{cr}"),
    );
    let (_, rest) = table.split_once(" <: ").unwrap();
    let (legend, verdict) = rest.split_once("\n\nVerdict: ").unwrap();
    assert_eq!(
        legend,
        "held at -128 in some frames; >: held at 127 in some frames
    lag 1: Y in 2, Cb in 2, Cr in 2 of 4 frames
    lag 2: Y in 2, Cb in 2, Cr in 2 of 4 frames
    taps without neighbours: Cb in 2, Cr in 2 of 4 frames"
    );
    let held = clip["verdict"]["held"].as_str().unwrap();
    let lag = &clip["verdict"]["lag"];
    assert_eq!(
        held,
        format!(
            "At lag {lag} the header can't hold every value: Y in 2, Cb in 2, Cr in 2 of 4 frames."
        )
    );
    assert!(verdict.replace('\n', " ").contains(held), "{verdict}");
}

/// White luma noise of 64 steps up or down; its sign times `cb` is Cb's, and Cr's goes by the sign and the column.
fn following(seed: u64, cb: i32, cr: impl Fn(i32, usize) -> i32) -> Planes {
    noisy((96, 64), seed, |chances| {
        let chances = chances.iter().enumerate();
        let noise = |(x, &[y, _, _]): (usize, &[i32; 3])| {
            let sign = 2 * (y % 2) - 1;
            [64 * sign, cb * sign, cr(sign, x)]
        };
        chances.map(noise).collect()
    })
}

/// A true 127 or −128 is inside, one step farther is held. The verdict of white grain speaks of the taps alone.
#[test]
fn the_ends_are_inside() {
    for (end, held, word, name) in [
        (127, 128, ">127", "held_high"),
        (-128, -129, "<-128", "held_low"),
    ] {
        let frame = |seed| following(seed, end, |sign, _| held * sign);
        let folder = made(&format!("end{end}"), &[1, 2, 3].map(frame));
        let report = in_json(&folder);
        for frame in report["frames"].as_array().unwrap() {
            assert_eq!(
                frame["chroma_taps"],
                json!({"cb": end, "cr": end, "marks": {"cb": "inside", "cr": name}})
            );
            // At a lower lag all of luma's coefficients may be 0, which is no fit.
            let fit = &frame["fits"][2];
            assert_eq!(
                (&fit["cb"]["luma_tap"], &fit["cr"]["luma_tap"]),
                (&json!(end), &json!(end))
            );
            assert_eq!(fit["marks"]["cb"]["luma_tap"], "inside");
            assert_eq!(fit["marks"]["cr"]["luma_tap"], name);
        }
        for table in tables(&folder, &WORDS) {
            has(
                &table,
                &format!("  taps without neighbours: Cb {end}, Cr {word}"),
            );
        }
        assert_eq!(
            report["clip"]["verdict"]["held"],
            "At lag 0 the header can't hold every value: Cr in 3 of 3 frames."
        );
    }
}

/// Cr has a pattern that stays from frame to frame, so its gate says no, and the verdict leaves it out.
#[test]
fn a_plane_without_grain() {
    let still = |sign, x| 3 * 64 * sign + if x * x % 7 < 3 { 256 } else { -256 };
    let folder = made("still", &[1, 2, 3].map(|seed| following(seed, 64, still)));
    let clip = &in_json(&folder)["clip"];
    assert_eq!(clip["gates"]["cr"]["first"], false);
    assert_eq!(clip["marked"][0], json!({"y": 0, "cb": 0, "cr": 3}));
    assert_eq!(
        (&clip["verdict"]["lag"], &clip["verdict"]["held"]),
        (&json!(0), &Value::Null)
    );
}

#[test]
fn ordinary_grain_has_no_marks() {
    let (folder, _) = sample();
    tables(folder, &on_sample(&[]))
        .iter()
        .for_each(|table| unmarked(table));
    let report = json(folder, &on_sample(&["--json"]));
    let words = report["frames"].to_string();
    assert!(
        words.contains("inside") && !words.contains("held"),
        "{words}"
    );
    let clip = &report["clip"];
    let none = json!({"y": 0, "cb": 0, "cr": 0});
    assert_eq!(clip["marked"], json!(vec![none; 4]));
    assert_eq!(clip["verdict"]["held"], Value::Null);
}
