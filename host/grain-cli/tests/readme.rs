//! What README and docs/REPORT.md show is what there is: the report, the plot, the two examples, the header, and what is
//! said of a rectangle.

mod common;

use common::{folder, header, on_sample, said, sample, written};
use grain::{Format, Shape};
use std::fs;
use std::path::{Path, PathBuf};
use std::process::Command;

fn root() -> PathBuf {
    Path::new(env!("CARGO_MANIFEST_DIR")).join("../..")
}

/// A page's block of a kind, without its fences.
fn block(page: &str, kind: &str) -> String {
    let page = fs::read_to_string(root().join(page)).unwrap();
    let (_, rest) = page.split_once(&format!("\n```{kind}\n")).unwrap();
    let (block, _) = rest.split_once("```").unwrap();
    block.to_string()
}

/// The words of a plot, line by line.
fn texts(svg: &str) -> Vec<&str> {
    svg.lines().filter(|line| !line.starts_with('<')).collect()
}

#[test]
fn the_report_and_the_plot() {
    let (samples, _) = sample();
    let plot = samples.join("readme.svg");
    let words = on_sample(&["--brief", "--plot", "readme.svg", "--force"]);
    let shown = String::from_utf8(written(samples, &words)).unwrap();
    assert_eq!(block("README.md", "text"), shown);
    let committed = fs::read_to_string(root().join("docs/grain.svg")).unwrap();
    assert_eq!(texts(&committed), texts(&fs::read_to_string(plot).unwrap()));
}

/// What the demo shows last: each true coefficient, and the one found within half a 64th and a bit.
#[test]
fn the_true_coefficients_beside_those_found() {
    let (samples, _) = sample();
    let words = on_sample(&["--brief", "--json"]);
    fs::write(samples.join("beside.json"), written(samples, &words)).unwrap();
    let run = Command::new("python3")
        .arg(root().join("host/sample"))
        .arg("--beside")
        .stdin(fs::File::open(samples.join("beside.json")).unwrap())
        .output()
        .unwrap();
    assert!(run.status.success());
    let shown = String::from_utf8(run.stdout).unwrap();
    let row = |line: &str| -> Vec<f64> {
        line.split_whitespace()
            .filter_map(|word| word.parse().ok())
            .collect()
    };
    let lines: Vec<&str> = shown.lines().skip(2).collect();
    let counts: Vec<usize> = lines
        .chunks(2)
        .map(|pair| {
            let [known, found] = [row(pair[0]), row(pair[1])];
            assert!(
                pair[0].contains("true") && pair[1].contains("found"),
                "{shown}"
            );
            assert!(
                known.iter().zip(&found).all(|(a, b)| (a - b).abs() < 0.6),
                "{shown}"
            );
            assert_eq!(known.len(), found.len());
            known.len()
        })
        .collect();
    assert_eq!(counts, [4, 5, 5], "{shown}");
}

#[test]
fn the_header() {
    let folder = folder("readme-header");
    let record = block("docs/REPORT.md", "json");
    fs::write(folder.join("params.json"), &record).unwrap();
    let shown = String::from_utf8(written(&folder, &["header", "params.json"])).unwrap();
    assert_eq!(block("docs/REPORT.md", "text"), shown);
    let refused = record.replace("\"grain_scaling\": 10", "\"grain_scaling\": 12");
    fs::write(folder.join("params.json"), refused).unwrap();
    let page = fs::read_to_string(root().join("docs/REPORT.md")).unwrap();
    assert!(page.contains(&said(&folder, &["header", "params.json"])));
}

#[test]
fn the_rectangle_that_is_refused() {
    let folder = folder("readme-active");
    let film = header(Shape::new(1920, 1080, 8, Format::Yuv420)) + "\n";
    fs::write(folder.join("film.y4m"), film).unwrap();
    let page = fs::read_to_string(root().join("docs/REPORT.md")).unwrap();
    let words = ["report", "film.y4m", "--active", "0,139,1920,802"];
    assert!(page.contains(&said(&folder, &words)));
}

#[test]
fn the_examples() {
    let c = root().join("examples/figures.c");
    assert_eq!(block("README.md", "c"), fs::read_to_string(&c).unwrap());
    let rust = root().join("host/grain/examples/figures.rs");
    assert_eq!(
        block("README.md", "rust"),
        fs::read_to_string(rust).unwrap()
    );
    let archive =
        std::env::var_os("GRAIN_LIB_DIR").map_or(root().join("crates/grain/out"), PathBuf::from);
    let built = folder("example").join("figures");
    let compiled = Command::new("gcc")
        .args(["-std=c11", "-pedantic", "-Wall", "-Wextra", "-Werror", "-I"])
        .arg(root().join("include"))
        .arg(&c)
        .arg(archive.join("libgrain.a"))
        .arg("-o")
        .arg(&built)
        .status()
        .unwrap();
    assert!(compiled.success());
    let run = Command::new(built).output().unwrap();
    assert_eq!(
        String::from_utf8(run.stdout).unwrap(),
        "sigma 0.81 in 8-bit steps\n"
    );
}
