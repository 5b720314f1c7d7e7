//! The denoised clip, written frame by frame.

use crate::args::Denoise;
use crate::clip::Writer;
use crate::files::{self, Place, Stream, shown};
use crate::output::Output;
use crate::reel::{Part, Reel};
use crate::stop;
use anyhow::{Context, Result, bail};
use std::io::{self, IsTerminal, Write};
use std::path::Path;

pub fn run(asked: &Denoise) -> Result<()> {
    files::apart(
        &[Place::new(&asked.input, Stream::Input)],
        &[Place::new(&asked.output, Stream::Output)],
    )?;
    let part = Part {
        from: 0,
        every: 1,
        limit: asked.frames.map(usize::from),
    };
    let mut reel = Reel::open(&asked.input, None, part)?;
    if asked.output == Path::new("-") {
        let output = io::stdout();
        if output.is_terminal() {
            bail!("standard output is a terminal: give a file's name, or pipe the clip on");
        }
        let mut frames = 0;
        return copy(&mut reel, output, &mut frames)
            .map(drop)
            .with_context(|| format!("standard output has only {frames} frames"));
    }
    let output = Output::create(&asked.output, asked.force)?;
    let name = shown(&asked.output);
    let special = output.is_special();
    let mut frames = 0;
    copy(&mut reel, output, &mut frames)
        .with_context(|| match special {
            true => format!("{name} has only {frames} frames"),
            false => format!("{name} isn't written"),
        })?
        .finish()
}

/// Writes every frame's denoised copy, and counts them.
fn copy<W: Write>(reel: &mut Reel, output: W, frames: &mut usize) -> Result<W> {
    let mut writer = Writer::new(output, &reel.clip.header)?;
    reel.each(
        |task| {
            task.first.denoised_picture()?;
            Ok(task.first.clone())
        },
        |still| {
            let _whole = stop::writing();
            writer.picture(still.denoised_picture()?)?;
            *frames += 1;
            Ok(true)
        },
    )?;
    Ok(writer.end()?)
}
