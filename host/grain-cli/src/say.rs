//! Words on standard error. Where it can't be written, they are lost and the run goes on.

use std::fmt::Display;
use std::io::{self, Write};

/// One line that begins with the command's name.
pub fn say(words: impl Display) {
    let _ = io::stderr().write_all(format!("grain: {words}\n").as_bytes());
}
