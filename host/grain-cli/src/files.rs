//! Which file a name stands for. Two names can be one file: a link, another path, a redirection.

use crate::words::plain;
use anyhow::{Result, bail};
use std::fs::{self, Metadata};
use std::io;
use std::os::fd::AsFd;
use std::os::unix::fs::{FileTypeExt, MetadataExt};
use std::path::Path;

/// What is read or written, with its name in messages and, of a file or a disk, its device and inode.
pub struct Place {
    pub name: String,
    identity: Option<(u64, u64)>,
}

impl Place {
    /// Of a name on the command line; `stream` is what - stands for.
    pub fn new(path: &Path, stream: Stream) -> Self {
        let (name, about) = match path == Path::new("-") {
            true => (stream.name().to_string(), stream.about()),
            false => (shown(path), fs::metadata(path).ok()),
        };
        let lasting = |about: &Metadata| about.is_file() || about.file_type().is_block_device();
        let identity = about.filter(lasting).map(|a| (a.dev(), a.ino()));
        Place { name, identity }
    }
}

#[derive(Clone, Copy)]
pub enum Stream {
    Input,
    Output,
}

impl Stream {
    pub fn name(self) -> &'static str {
        match self {
            Stream::Input => "standard input",
            Stream::Output => "standard output",
        }
    }

    fn about(self) -> Option<Metadata> {
        let held = match self {
            Stream::Input => io::stdin().as_fd().try_clone_to_owned(),
            Stream::Output => io::stdout().as_fd().try_clone_to_owned(),
        };
        fs::File::from(held.ok()?).metadata().ok()
    }
}

/// A path in messages.
pub fn shown(path: &Path) -> String {
    plain(&path.to_string_lossy())
}

/// Refuses a run that would write into what it reads, or write two things into one.
pub fn apart(read: &[Place], written: &[Place]) -> Result<()> {
    for (at, output) in written.iter().enumerate() {
        let same = |other: &&Place| other.identity.is_some() && other.identity == output.identity;
        if let Some(input) = read.iter().find(same) {
            let (output, input) = (&output.name, &input.name);
            bail!("{output} and {input} are one file: it would be written over while it is read");
        }
        if let Some(other) = written[..at].iter().find(same) {
            let (output, other) = (&output.name, &other.name);
            bail!("{output} and {other} are one file: both would be written to it");
        }
    }
    Ok(())
}
