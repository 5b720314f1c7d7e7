//! Makes the private functions of film_grain_elect.rs reachable and leaves the file as it is: a copy in the build's own
//! folder gets one line appended, which declares `reach` as a child module, and a child sees what its parent keeps private.

use std::path::Path;
use std::{env, fs};

fn main() {
    let root = env::var("CARGO_MANIFEST_DIR").expect("set by cargo");
    let out = env::var("OUT_DIR").expect("set by cargo");
    let source = Path::new(&root).join("upstream/src/encoder/film_grain_elect.rs");
    let reach = Path::new(&root).join("src/reach.rs");
    let copy = Path::new(&out).join("film_grain_elect.rs");

    let mut text = fs::read_to_string(&source).expect("the source is readable");
    text.push_str(&format!("\n#[path = {reach:?}]\npub mod reach;\n"));
    fs::write(&copy, text).expect("the copy is writable");
    fs::write(
        Path::new(&out).join("elect.rs"),
        format!("#[path = {copy:?}]\npub mod film_grain_elect;\n"),
    )
    .expect("the module's declaration is writable");
    println!("cargo:rerun-if-changed={}", source.display());
}
