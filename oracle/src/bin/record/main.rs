//! Writes the recorded list of crates/cases/data: for each call a file of lines, a call to a line.
//!
//! A line is whole numbers: the refusal, the answer, and the numbers that the call is made from, without the zeros at the
//! end. The answers are the Rust's; it refuses nothing, so the refused calls and their numbers are the scope's own
//! (`questions`), and it marks nothing, so the marks are those of `oracle::marks`. A long answer is a digest, and a float
//! its bits.
mod calls;
mod draws;
mod lists;
mod planes;
mod questions;
mod systems;

use std::path::PathBuf;
use std::{env, fs};

fn main() {
    let folder = PathBuf::from(env::args().nth(1).expect("usage: record FOLDER"));
    let mut total = 0;
    for (name, lines) in lists::all() {
        total += lines.len();
        let text: String = lines.iter().map(|l| text_of(l)).collect();
        assert!(text.len() < 65536, "{name}: the program reads no more");
        fs::write(folder.join(name), text).expect("the folder is writable");
    }
    println!("{total} calls");
}

fn text_of(numbers: &[u64]) -> String {
    let used = numbers
        .iter()
        .rposition(|&n| n != 0)
        .map_or(2, |i| (i + 1).max(2));
    let words: Vec<String> = numbers[..used].iter().map(u64::to_string).collect();
    words.join(" ") + "\n"
}
