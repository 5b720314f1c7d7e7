//! Ctrl-C. The first waits for the write under way, so that no line and no frame is cut, takes away the file that isn't
//! whole, and ends the run; the second ends it at once.

use crate::say::say;
use anyhow::Result;
use signal_hook::consts::{SIGINT, SIGTERM};
use signal_hook::flag;
use signal_hook::iterator::Signals;
use std::path::PathBuf;
use std::sync::atomic::AtomicBool;
use std::sync::{Arc, Mutex, MutexGuard, PoisonError};
use std::{fs, process, thread};

const SIGNALS: [i32; 2] = [SIGINT, SIGTERM];

/// The file that isn't whole yet. Whoever writes holds the lock.
static WRITING: Mutex<Option<PathBuf>> = Mutex::new(None);

/// To be held while something is written that must not be cut.
pub fn writing() -> MutexGuard<'static, Option<PathBuf>> {
    WRITING.lock().unwrap_or_else(PoisonError::into_inner)
}

/// Ends the run when a signal comes, with the status that a shell gives for it.
pub fn watch() -> Result<()> {
    let came = Arc::new(AtomicBool::new(false));
    for signal in SIGNALS {
        flag::register_conditional_shutdown(signal, status(signal), came.clone())?;
        flag::register(signal, came.clone())?;
    }
    let mut signals = Signals::new(SIGNALS)?;
    thread::spawn(move || {
        if let Some(signal) = signals.forever().next() {
            let part = writing();
            if let Some(part) = &*part {
                let _ = fs::remove_file(part);
            }
            say("stopped before the end");
            process::exit(status(signal));
        }
    });
    Ok(())
}

fn status(signal: i32) -> i32 {
    128 + signal
}
