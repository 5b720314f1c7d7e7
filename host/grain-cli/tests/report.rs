//! `grain report`: the figures of the library, for every format and depth, in JSON and as a table.

mod common;

use common::{Planes, clip, command, folder, json, on_sample, sample, shapes, written};
use grain::{Chroma, Format, Mark, Pair, Shape, TwoFrames};
use serde_json::{Value, json};
use std::fs;
use std::io::Write;
use std::process::Stdio;

/// Coefficients that the sample's script states, by the name it gives them.
fn known(script: &str, name: &str) -> Vec<i64> {
    let start = format!("{name} = (");
    let line = script
        .lines()
        .find_map(|line| line.strip_prefix(&start))
        .unwrap();
    let list = line.strip_suffix(')').unwrap();
    list.split(", ").map(|word| word.parse().unwrap()).collect()
}

/// The largest distance of two lists.
fn apart(found: &[i64], known: &[i64]) -> i64 {
    assert_eq!(found.len(), known.len());
    found
        .iter()
        .zip(known)
        .map(|(a, b)| (a - b).abs())
        .max()
        .unwrap()
}

fn whole(list: &Value) -> Vec<i64> {
    list.as_array()
        .unwrap()
        .iter()
        .map(|n| n.as_i64().unwrap())
        .collect()
}

#[test]
fn known_coefficients_come_back() {
    let (folder, script) = sample();
    let report = json(folder, &on_sample(&["--json"]));
    assert_eq!(report["clip"]["denoised"], "clean.y4m");
    let frames = report["frames"].as_array().unwrap();
    assert_eq!(frames.len(), 6);
    for frame in frames {
        let fit = &frame["fits"][0];
        assert!(
            apart(&whole(&fit["y"]), &known(script, "LUMA")) <= 1,
            "{fit}"
        );
        for (plane, name) in [("cb", "CB"), ("cr", "CR")] {
            let mut found = whole(&fit[plane]["coefficients"]);
            found.push(fit[plane]["luma_tap"].as_i64().unwrap());
            assert!(apart(&found, &known(script, name)) <= 1, "{fit}");
        }
        // What the higher lags have besides is the noise of an estimate.
        let near = whole(&frame["fits"][1]["y"]);
        let (inner, outer): (Vec<_>, Vec<_>) = near
            .iter()
            .enumerate()
            .partition(|(at, _)| [6, 7, 8, 11].contains(at));
        let inner: Vec<i64> = inner.into_iter().map(|(_, n)| *n).collect();
        assert!(apart(&inner, &known(script, "LUMA")) <= 1, "{near:?}");
        assert!(outer.iter().all(|(_, n)| n.abs() <= 1), "{near:?}");
    }
    let gates = &report["clip"]["gates"];
    for plane in ["y", "cb", "cr"] {
        assert_eq!(
            (&gates[plane]["first"], &gates[plane]["passed"]),
            (&json!(true), &json!(5))
        );
    }
}

#[test]
fn the_table_has_the_neighbourhood() {
    let (folder, script) = sample();
    let table = String::from_utf8(written(folder, &on_sample(&["--brief"]))).unwrap();
    assert!(
        table.starts_with("grain.y4m: 320×240, 10 bits, 4:2:0, 6 frames\n"),
        "{table}"
    );
    assert!(!table.contains('\x1b'), "no colours in a pipe");
    assert!(
        table.lines().all(|line| line.chars().count() <= 80),
        "{table}"
    );
    let luma = known(script, "LUMA");
    let row = format!("{:>10}{:>4}{:>4}", luma[0], luma[1], luma[2]);
    assert!(
        table.lines().any(|line| line.starts_with(&row)),
        "{row:?} in {table}"
    );
}

/// The library's figures of one frame, laid out as the report has them.
fn frame_figures<'a>(at: usize, frames: &'a [(Planes, Planes)]) -> Value {
    let pair = |(frame, copy): &'a (Planes, Planes)| Pair::new(frame.lent(), copy.lent()).unwrap();
    let first = pair(&frames[at]);
    let estimate = grain::noise_estimate(&first).unwrap();
    let colour = first.shape().format != Format::Monochrome;
    let steps = |sigma16: u64| sigma16 as f64 / 16.0;
    let chroma = |value: Value| if colour { value } else { Value::Null };
    let fits: Vec<Value> = (1..=3)
        .map(|lag| match grain::fit_ar_lag(&first, lag).unwrap() {
            None => Value::Null,
            Some(fit) => {
                let planes = |y: Value, cb: Value, cr: Value| {
                    let split = |list: Value| {
                        let (tap, list) = list.as_array().unwrap().split_last().unwrap();
                        chroma(json!({"coefficients": list, "luma_tap": tap}))
                    };
                    json!({"y": y, "cb": split(cb), "cr": split(cr)})
                };
                let mut found = planes(json!(fit.y), json!(fit.cb), json!(fit.cr));
                let marks = [fit.y_marks, fit.cb_marks, fit.cr_marks];
                let [y, cb, cr] = marks.map(|of| of.into_iter().map(mark).collect());
                found["marks"] = planes(y, cb, cr);
                found["lag"] = json!(lag);
                found
            }
        })
        .collect();
    let gates = frames.get(at + 1).map(|next| {
        let frames = TwoFrames::new(first, pair(next)).unwrap();
        let gate = |plane, sigma16| {
            chroma(json!([
                steps(sigma16),
                grain::chroma_noise_gate(&frames, plane, sigma16).unwrap()
            ]))
        };
        let luma = grain::film_grain_probe(&frames).unwrap();
        json!({
            "y": [steps(estimate.luma.sigma16), luma],
            "cb": gate(Chroma::Cb, estimate.cb.sigma16),
            "cr": gate(Chroma::Cr, estimate.cr.sigma16),
        })
    });
    let taps = grain::fit_chroma_corr(&first).unwrap();
    json!({
        "frame": at,
        "seed": grain::grain_seed_for(at as u32),
        "profile": {
            "y": profile(&estimate.luma),
            "cb": chroma(profile(&estimate.cb)),
            "cr": chroma(profile(&estimate.cr)),
        },
        "gates": gates,
        "fits": fits,
        "chroma_taps": chroma(json!({
            "cb": taps.cb,
            "cr": taps.cr,
            "marks": {"cb": mark(taps.cb_mark), "cr": mark(taps.cr_mark)},
        })),
    })
}

/// A mark's name in the report.
fn mark(of: Mark) -> &'static str {
    match of {
        Mark::Inside => "inside",
        Mark::HeldLow => "held_low",
        Mark::HeldHigh => "held_high",
        Mark::NotANumber => "nan",
    }
}

fn profile<const BINS: usize>(found: &grain::Profile<BINS>) -> Value {
    let bin = |bin: &grain::Bin| json!([bin.sigma16 as f64 / 16.0, bin.count, bin.squares]);
    let bins: Vec<Value> = found.bins.iter().map(bin).collect();
    json!({"sigma": found.sigma16 as f64 / 16.0, "bins": bins})
}

/// What a gate's figures say: by them the library must have answered.
fn passes(plane: &str, gate: &Value) -> bool {
    let number = |name: &str| gate[name].as_f64();
    let least = if plane == "y" { 1.0 } else { 0.5 };
    number("sigma").unwrap() >= least
        && number("row_correlation").unwrap().abs() < 0.75
        && number("frame_correlation").is_some_and(|rho| rho.abs() < 0.4)
}

/// The report's frame with what only the report has taken out: a gate becomes its sigma and answer, a bin its numbers.
fn plain(mut frame: Value) -> Value {
    for name in ["schema", "kind"] {
        frame.as_object_mut().unwrap().remove(name).unwrap();
    }
    for plane in ["y", "cb", "cr"] {
        let gate = &mut frame["gates"];
        if gate.is_object() && gate[plane].is_object() {
            assert_eq!(gate[plane]["grain"] == true, passes(plane, &gate[plane]));
            gate[plane] = json!([gate[plane]["sigma"], gate[plane]["grain"]]);
        }
        let profile = &mut frame["profile"][plane];
        if let Some(profile) = profile.as_object_mut() {
            profile.remove("sigma_unshifted").unwrap();
            let bins = profile["bins"].as_array_mut().unwrap();
            bins.iter_mut()
                .for_each(|bin| *bin = json!([bin["sigma"], bin["count"], bin["squares"]]));
        }
    }
    frame
}

#[test]
fn every_format_and_depth_has_the_library_s_figures() {
    let folder = folder("formats");
    for shape in shapes(37, 23) {
        let frames: Vec<Planes> = (0..3).map(|seed| Planes::random(shape, seed)).collect();
        fs::write(folder.join("clip.y4m"), clip(&frames)).unwrap();
        let report = json(&folder, &["report", "clip.y4m", "--json"]);
        let clip = &report["clip"];
        assert_eq!(
            (&clip["width"], &clip["height"], &clip["depth"]),
            (&json!(37), &json!(23), &json!(shape.depth))
        );
        let pairs: Vec<_> = frames
            .iter()
            .map(|frame| (frame.clone(), frame.denoised()))
            .collect();
        for at in 0..3 {
            assert_eq!(
                plain(report["frames"][at].clone()),
                frame_figures(at, &pairs),
                "{shape:?}"
            );
        }
    }
}

/// Each reason for a no: the same noise again, a frame without noise next, no noise, noise that is alike along a row.
#[test]
fn a_gate_that_says_no_says_why() {
    let folder = folder("why");
    let shape = Shape::new(32, 32, 8, Format::Yuv444);
    let filled = |sample: fn(u16) -> u16| Planes {
        shape,
        planes: [0, 1, 2].map(|_| (0..1024).map(sample).collect()),
    };
    let (noisy, flat) = (Planes::random(shape, 1), filled(|_| 159));
    let halves = filled(|at| if at % 32 < 16 { 149 } else { 169 });
    let frames = [&noisy, &noisy, &flat, &halves, &noisy].map(Planes::clone);
    let copies = [&flat; 5].map(Planes::clone);
    fs::write(folder.join("clip.y4m"), clip(&frames)).unwrap();
    fs::write(folder.join("copy.y4m"), clip(&copies)).unwrap();
    let report = json(
        &folder,
        &["report", "clip.y4m", "--denoised", "copy.y4m", "--json"],
    );
    let table = written(&folder, &["report", "clip.y4m", "--denoised", "copy.y4m"]);
    let table = String::from_utf8(table).unwrap();
    let reasons = [
        "the correlation from frame to frame is too strong",
        "a frame has no noise",
        "sigma is too low",
        "the correlation along a row is too strong",
    ];
    for (frame, reason) in reasons.into_iter().enumerate() {
        for plane in ["y", "cb", "cr"] {
            let gate = &report["frames"][frame]["gates"][plane];
            assert_eq!(
                (&gate["grain"], &gate["why"]),
                (&json!(false), &json!(reason))
            );
        }
        assert!(table.contains(&format!("since {reason}\n")), "{table}");
    }
}

#[test]
fn a_pipe_is_read_as_a_file_is() {
    let (folder, _) = sample();
    let file = written(folder, &["report", "grain.y4m"]);
    let pipe = command(folder, &["report", "-"])
        .stdin(fs::File::open(folder.join("grain.y4m")).unwrap())
        .output()
        .unwrap();
    assert!(pipe.status.success());
    let named = String::from_utf8(pipe.stdout)
        .unwrap()
        .replace("standard input", "grain.y4m");
    assert_eq!(named, String::from_utf8(file).unwrap());
}

#[test]
fn some_frames_alone() {
    let (folder, _) = sample();
    let all = json(folder, &["report", "grain.y4m", "--json"]);
    let third = json(folder, &["report", "grain.y4m", "--every", "3", "--json"]);
    assert_eq!(
        (&third["clip"]["frames"], &third["clip"]["reported"]),
        (&json!(6), &json!(2))
    );
    assert_eq!(third["frames"], json!([all["frames"][0], all["frames"][3]]));
    let one = json(folder, &["report", "grain.y4m", "--frames", "1", "--json"]);
    assert_eq!(
        (&one["clip"]["frames"], &one["frames"][0]["gates"]),
        (&json!(1), &Value::Null)
    );
    let brief = json(folder, &["report", "grain.y4m", "--brief", "--json"]);
    assert_eq!(
        (&brief["clip"], &brief["frames"]),
        (&all["clip"], &json!([]))
    );
}

/// The run ends without a word, and a plot is drawn all the same.
#[test]
fn a_reader_may_go_away() {
    let (samples, _) = sample();
    let folder = folder("gone");
    let bytes = fs::read(samples.join("grain.y4m")).unwrap();
    for words in [
        &["report", "-"][..],
        &["report", "-", "--plot", "noise.svg"],
    ] {
        let mut child = command(&folder, words)
            .stdin(Stdio::piped())
            .stdout(Stdio::piped())
            .stderr(Stdio::piped())
            .spawn()
            .unwrap();
        drop(child.stdout.take());
        // The command may go away too.
        let _ = child.stdin.take().unwrap().write_all(&bytes);
        let run = child.wait_with_output().unwrap();
        assert!(run.status.success());
        assert_eq!(String::from_utf8(run.stderr).unwrap(), "");
    }
    let drawn = fs::read_to_string(folder.join("noise.svg")).unwrap();
    assert!(drawn.contains("6 frames") && drawn.trim_end().ends_with("</svg>"));
}
