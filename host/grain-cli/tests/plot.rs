//! `grain report --plot`: what the picture says, and that it is there whole or not at all.

mod common;

use common::{Planes, folder, run, sample, written};
use grain::{Format, Shape};
use std::fs;

#[test]
fn the_plot_is_whole_or_not_there() {
    let (samples, _) = sample();
    let folder = folder("plot");
    let clip = samples.join("grain.y4m");
    let clip = clip.to_str().unwrap();
    written(&folder, &["report", clip, "--brief", "--plot", "noise.svg"]);
    let drawn = fs::read_to_string(folder.join("noise.svg")).unwrap();
    assert!(drawn.starts_with("<svg") && drawn.trim_end().ends_with("</svg>"));
    for plane in ["Y", "Cb", "Cr"] {
        assert!(drawn.contains(&format!("{plane}: autocorrelation of the noise")));
    }
    let refused = run(&folder, &["report", clip, "--plot", "noise.pdf"]);
    assert_eq!(refused.status.code(), Some(2));
    assert!(String::from_utf8_lossy(&refused.stderr).contains("ends in .svg"));
    assert!(
        !run(
            &folder,
            &["report", clip, "--brief", "--plot", "no/such/folder.svg"]
        )
        .status
        .success()
    );
    assert_eq!(fs::read_dir(&folder).unwrap().count(), 1, "only noise.svg");
}

/// Names are shortened and escaped, one minus sign is used, and a monochrome clip has one autocorrelation beside its
/// profile, whose axis ends above its data.
#[test]
fn what_the_plot_says() {
    let (samples, _) = sample();
    let folder = folder("plot-words");
    let [clip, copy] = ["grain.y4m", "clean.y4m"].map(|name| samples.join(name));
    let [clip, copy] = [&clip, &copy].map(|path| path.to_str().unwrap());
    let drawn = |words: &[&str]| {
        written(
            &folder,
            &[
                &["report"],
                words,
                &["--brief", "--plot", "noise.svg", "--force"],
            ]
            .concat(),
        );
        fs::read_to_string(folder.join("noise.svg")).unwrap()
    };
    let svg = drawn(&[clip]);
    let about = "320×240, 10 bits, 4:2:0, 6 frames; source less the built-in denoiser&apos;s copy";
    assert!(svg.replace('\'', "&apos;").contains(about), "{svg}");
    assert!(
        svg.contains("\ncorrelation\n") && svg.contains("\n−5\n"),
        "{svg}"
    );
    assert!(!svg.contains("\n-"), "a hyphen for a minus");
    let svg = drawn(&[clip, "--denoised", copy]);
    assert!(svg.contains("6 frames; source less clean.y4m"), "{svg}");
    let signs = svg.matches("#C83228").count();
    let shape = Shape::new(64, 48, 12, Format::Monochrome);
    let name = format!("<{}> & more.y4m", "reel ".repeat(30).trim_end());
    let frames = [Planes::random(shape, 1), Planes::random(shape, 2)];
    fs::write(folder.join(&name), common::clip(&frames)).unwrap();
    let svg = drawn(&[&name]);
    assert!(
        svg.contains("Noise of &lt;reel reel ")
            && svg.contains("…")
            && svg.contains(" &amp; more.y4m"),
        "{svg}"
    );
    assert_eq!(svg.matches("autocorrelation of the noise").count(), 1);
    assert!(
        !svg.contains("#C83228") && signs > 0,
        "Cr's colour is Cr's alone"
    );
    assert!(svg.contains("height=\"432\""), "no empty panels");
    assert!(!svg.contains("\n1.5\n"), "sigma is about 1.2: {svg}");
}
