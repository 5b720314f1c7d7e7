//! A file that is there whole or not at all.

use crate::files::shown;
use crate::say::say;
use crate::stop;
use anyhow::{Context, Result, bail};
use std::fs::{self, File, OpenOptions, Permissions};
use std::io::{self, ErrorKind, Write};
use std::os::unix::fs::OpenOptionsExt;
use std::path::{Path, PathBuf};

/// A file being written. It has another name, beside its own, until it is whole. A pipe or a device is written as it is.
pub struct Output {
    file: File,
    /// As it was asked for, in messages.
    name: String,
    path: PathBuf,
    /// The name until then; removed if the writing fails.
    part: Option<PathBuf>,
    /// The mode of the file that is replaced.
    mode: Option<Permissions>,
}

impl Output {
    /// Begins a file. One that is there already is replaced only where `force` says so.
    pub fn create(path: &Path, force: bool) -> Result<Self> {
        let name = shown(path);
        let path = fs::canonicalize(path).unwrap_or_else(|_| path.to_path_buf());
        // A link that leads nowhere is there, too.
        let there = fs::metadata(&path).or_else(|_| fs::symlink_metadata(&path));
        let there = there.ok();
        let mut options = OpenOptions::new();
        options.write(true);
        let (part, mode) = match there {
            Some(about) if about.is_dir() => bail!("{name} is a folder"),
            Some(about) if !about.is_file() => (None, None),
            Some(_) if !force => bail!(exists(&name)),
            // No one may read what the old file's mode may forbid.
            Some(about) => (Some(options.mode(0o600)), Some(about.permissions())),
            None => (Some(&mut options), None),
        };
        let part = part.map(|options| {
            options.create_new(true);
            let mut name = path.clone().into_os_string();
            name.push(format!(".{}.part", std::process::id()));
            PathBuf::from(name)
        });
        // Not for a pipe, which may wait here for its reader.
        let writing = part.is_some().then(stop::writing);
        let file = options
            .open(part.as_ref().unwrap_or(&path))
            .with_context(|| cant(&name))?;
        if let Some(mut writing) = writing {
            writing.clone_from(&part);
        }
        Ok(Output {
            file,
            name,
            path,
            part,
            mode,
        })
    }

    /// Whether a failure leaves something half-written.
    pub fn is_special(&self) -> bool {
        self.part.is_none()
    }

    /// Gives the whole file its name, once it is on the disk.
    pub fn finish(mut self) -> Result<()> {
        let Some(part) = &self.part else {
            return Ok(());
        };
        let cant = || cant(&self.name);
        let mut writing = stop::writing();
        if let Some(mode) = self.mode.take() {
            self.file.set_permissions(mode).with_context(cant)?;
            self.file.sync_all().with_context(cant)?;
            fs::rename(part, &self.path).with_context(cant)?;
        } else {
            self.file.sync_all().with_context(cant)?;
            if !name_anew(part, &self.path).with_context(cant)? {
                bail!(exists(&self.name));
            }
        }
        self.part = None;
        *writing = None;
        // The name itself; a folder that can't be synced has it all the same.
        if let Some(folder) = self.path.parent() {
            let folder = if folder.as_os_str().is_empty() {
                Path::new(".")
            } else {
                folder
            };
            let _ = File::open(folder).and_then(|folder| folder.sync_all());
        }
        Ok(())
    }
}

fn cant(name: &str) -> String {
    format!("{name} can't be written")
}

fn exists(name: &str) -> String {
    format!("{name} is there already: --force replaces it")
}

/// Gives a file its name; false if the name was taken meanwhile. A link refuses that, where a rename would not.
fn name_anew(part: &Path, path: &Path) -> io::Result<bool> {
    match fs::hard_link(part, path) {
        Ok(()) => fs::remove_file(part)?,
        Err(error) if error.kind() == ErrorKind::AlreadyExists => return Ok(false),
        Err(_) if path.exists() => return Ok(false),
        // A file system without links.
        Err(_) => fs::rename(part, path)?,
    }
    Ok(true)
}

impl Write for Output {
    fn write(&mut self, bytes: &[u8]) -> io::Result<usize> {
        self.file.write(bytes)
    }

    fn flush(&mut self) -> io::Result<()> {
        self.file.flush()
    }
}

impl Drop for Output {
    fn drop(&mut self) {
        let _writing = stop::writing();
        if let Some(part) = &self.part
            && fs::remove_file(part).is_err()
        {
            say(format!("{} is left, half-written", shown(part)));
        }
    }
}
