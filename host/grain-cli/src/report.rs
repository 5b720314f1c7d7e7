//! The report, written frame by frame, so that a reel takes no more memory than a short clip.

use crate::active::Active;
use crate::args::Report;
use crate::figures::{Planes, autocorrelation, figures};
use crate::files::{self, Place, Stream, shown};
use crate::noise::Autocorrelation;
use crate::output::Output;
use crate::reel::{Part, Reel};
use crate::tally::Tally;
use crate::{json, plot, stop, table};
use anyhow::{Context, Result, bail};
use std::io::{self, ErrorKind, Write};
use std::path::Path;

pub fn run(asked: &Report) -> Result<()> {
    places(asked)?;
    let part = Part {
        from: asked.from,
        every: asked.every.into(),
        limit: asked.frames.map(usize::from),
    };
    let mut reel = Reel::open(&asked.clip, asked.denoised.as_deref(), part)?;
    // Before the work, so that a plot that can't be written ends the run at once.
    let begin =
        |path: &Path| Ok::<_, anyhow::Error>((shown(path), Output::create(path, asked.force)?));
    let plot = asked.plot.as_deref().map(begin).transpose()?;
    let active = Active::settle(asked.active, &mut reel)?;
    let depth = reel.shape().depth;
    let mut paper = Paper { read: true };
    let mut tally = Tally::default();
    let mut picture: Option<Planes<Autocorrelation>> = None;
    reel.each(
        |task| {
            let found = figures(task)?;
            let picture = plot.as_ref().map(|_| autocorrelation(&task.first));
            Ok((found, picture.transpose()?))
        },
        |(found, more)| {
            tally.add(&found);
            match (&mut picture, more) {
                (Some(sums), Some(more)) => sums.add(&more, Autocorrelation::add),
                (None, more) => picture = more,
                _ => {}
            }
            match (asked.brief, asked.json) {
                (true, _) => {}
                (false, true) => paper.write(&json::frame(&found)?)?,
                (false, false) => paper.write(&table::frame(&found, depth))?,
            }
            Ok(paper.read || plot.is_some())
        },
    )?;
    let clip = tally.clip(&reel, active).context("no frame was reported")?;
    if let (Some((name, mut output)), Some(picture)) = (plot, &picture) {
        output
            .write_all(plot::svg(&clip, picture)?.as_bytes())
            .with_context(|| format!("{name} isn't written"))?;
        output.finish()?;
    }
    match asked.json {
        true => paper.write(&json::clip(&clip)?),
        false => paper.write(&table::clip(&clip)),
    }
}

/// Refuses a run that would write into what it reads.
fn places(asked: &Report) -> Result<()> {
    let dash = Path::new("-");
    if asked.clip == dash && asked.denoised.as_deref() == Some(dash) {
        bail!("standard input can't be both the clip and its denoised copy");
    }
    let read = [Some(asked.clip.as_path()), asked.denoised.as_deref()];
    let written = [Some(dash), asked.plot.as_deref()];
    let each = |paths: [Option<&Path>; 2], stream| -> Vec<Place> {
        let paths = paths.into_iter().flatten();
        paths.map(|path| Place::new(path, stream)).collect()
    };
    files::apart(&each(read, Stream::Input), &each(written, Stream::Output))
}

/// Standard output, for as long as someone reads it.
struct Paper {
    read: bool,
}

impl Paper {
    fn write(&mut self, words: &str) -> Result<()> {
        if !self.read {
            return Ok(());
        }
        let _whole = stop::writing();
        match io::stdout().write_all(words.as_bytes()) {
            Err(error) if error.kind() == ErrorKind::BrokenPipe => {
                self.read = false;
                Ok(())
            }
            written => written.context("the report can't be written"),
        }
    }
}
