//! Proves the library and links it: in crates/grain, `rt lib --cpu x86-64` writes out/libgrain.a, which every x86-64 runs.
//!
//! Where `GRAIN_LIB_DIR` names a folder, the libgrain.a in it is linked as it is: `rt` isn't needed, and nothing is proved.

use std::env;
use std::fs;
use std::path::{Path, PathBuf};
use std::process::Command;

const GIVEN: &str = "GRAIN_LIB_DIR";

fn main() {
    println!("cargo:rerun-if-env-changed={GIVEN}");
    let folder = match env::var_os(GIVEN) {
        Some(folder) => ready(Path::new(&folder)),
        None => proved(),
    };
    println!("cargo:rustc-link-search=native={}", folder.display());
    println!("cargo:rustc-link-lib=static=grain");
}

/// The folder that was named, if an archive is in it.
fn ready(folder: &Path) -> PathBuf {
    let folder = folder.canonicalize().unwrap_or(folder.into());
    let archive = folder.join("libgrain.a");
    let shown = archive.display();
    assert!(archive.is_file(), "{GIVEN}: there is no file {shown}");
    println!("cargo:rerun-if-changed={shown}");
    folder
}

/// The folder of the archive that `rt` writes once everything is proved.
fn proved() -> PathBuf {
    let root = Path::new(env!("CARGO_MANIFEST_DIR"))
        .join("../..")
        .canonicalize()
        .expect("the repository");
    let run = Command::new("rt")
        .args(["lib", "--cpu", "x86-64"])
        .current_dir(root.join("crates/grain"))
        .output()
        .expect("Rattle's kit (rt) is on the PATH");
    assert!(
        run.status.success(),
        "rt lib --cpu x86-64, in crates/grain: {}\n{}{}",
        run.status,
        String::from_utf8_lossy(&run.stdout),
        String::from_utf8_lossy(&run.stderr),
    );
    for input in inputs(&root) {
        println!("cargo:rerun-if-changed={}", input.display());
    }
    root.join("crates/grain/out")
}

/// What `rt` reads of the repository; beside it in a crate's folder is what `rt` writes.
fn inputs(root: &Path) -> Vec<PathBuf> {
    let mut found = vec![root.join("crates.txt")];
    for folder in fs::read_dir(root.join("crates")).expect("the crates") {
        let folder = folder.expect("a crate").path();
        let parts = ["src", "specs", "proofs"].map(|part| folder.join(part));
        found.extend(parts.into_iter().filter(|part| part.is_dir()));
    }
    found
}
