//! How far a long clip is read.

use indicatif::{ProgressBar, ProgressStyle};
use std::time::{Duration, Instant};

/// Work that ends sooner shows no bar.
const PATIENCE: Duration = Duration::from_millis(500);

/// A bar on standard error while a long clip is read; nothing where that is no terminal.
pub struct Progress {
    began: Instant,
    expected: Option<u64>,
    bar: Option<ProgressBar>,
}

impl Progress {
    pub fn new(expected: Option<u64>) -> Self {
        Progress {
            began: Instant::now(),
            expected,
            bar: None,
        }
    }

    pub fn reach(&mut self, frames: u64) {
        if self.bar.is_none() && self.began.elapsed() >= PATIENCE {
            self.bar = Some(bar(self.expected));
        }
        if let Some(bar) = &self.bar {
            bar.set_position(frames);
        }
    }
}

impl Drop for Progress {
    fn drop(&mut self) {
        if let Some(bar) = &self.bar {
            bar.finish_and_clear();
        }
    }
}

/// indicatif draws on standard error, and only if it is a terminal.
fn bar(expected: Option<u64>) -> ProgressBar {
    let (bar, template) = match expected {
        Some(frames) => (
            ProgressBar::new(frames),
            "{wide_bar} {pos}/{len} frames, {eta} left",
        ),
        None => (
            ProgressBar::new_spinner(),
            "{spinner} {pos} frames, {elapsed}",
        ),
    };
    bar.with_style(ProgressStyle::with_template(template).expect("the template is right"))
}
