//! A clip with its denoised copy, handed out frame by frame to every core.

use crate::clip::{Picture, Reader};
use crate::pool::Pool;
use crate::progress::Progress;
use crate::say::say;
use crate::still::{Still, Task};
use anyhow::{Result, bail};
use grain::{Rectangle, Shape};
use rayon::prelude::*;
use std::collections::VecDeque;
use std::path::Path;
use std::sync::Arc;

/// Bytes of pictures that one round of work may hold.
const ROUND_BYTES: usize = 1 << 30;

/// The frames of a clip that are taken.
#[derive(Clone, Copy)]
pub struct Part {
    /// The first.
    pub from: usize,
    /// Work on the first and on every so many after it.
    pub every: usize,
    /// How many are read at most.
    pub limit: Option<usize>,
}

impl Part {
    /// The frame before which reading ends.
    fn end(&self) -> usize {
        let limit = self.limit.unwrap_or(usize::MAX);
        self.from.saturating_add(limit)
    }
}

/// A clip that is being read.
pub struct Reel {
    pub clip: Reader,
    pub copy: Option<Reader>,
    /// Both, in messages.
    name: Arc<str>,
    shape: Shape,
    pool: Arc<Pool>,
    part: Part,
    /// The next frame to take, and the next to work on.
    at: usize,
    wanted: usize,
    /// Frames that were looked at and are to be taken, each with its denoised copy where one is given.
    ahead: VecDeque<(Picture, Option<Picture>)>,
    /// The frame read last, if the next task may want it.
    held: Option<Arc<Still>>,
}

impl Reel {
    /// Opens a clip, and its denoised copy where one is given.
    pub fn open(clip: &Path, copy: Option<&Path>, part: Part) -> Result<Self> {
        let mut clip = Reader::open(clip)?;
        let mut copy = copy.map(Reader::open).transpose()?;
        for reader in [Some(&mut clip), copy.as_mut()].into_iter().flatten() {
            reader.from = part.from;
        }
        if clip.header.interlaced {
            say(format!(
                "{} is interlaced; each of its frames is taken as one picture",
                clip.name
            ));
        }
        if let Some(copy) = &copy
            && copy.header.shape != clip.header.shape
        {
            bail!(
                "{} is no denoised copy of {}: it is {}, not {}",
                copy.name,
                clip.name,
                copy.header.shape,
                clip.header.shape
            );
        }
        let name = match &copy {
            Some(copy) => format!("{} with {}", clip.name, copy.name).into(),
            None => clip.name.as_str().into(),
        };
        Ok(Reel {
            shape: clip.header.shape,
            pool: Arc::new(Pool::new(clip.header.shape)),
            clip,
            copy,
            name,
            part,
            at: 0,
            wanted: part.from,
            ahead: VecDeque::new(),
            held: None,
        })
    }

    /// The frames' shape, active as a whole until a part of it is.
    pub fn shape(&self) -> Shape {
        self.shape
    }

    pub fn activate(&mut self, active: Rectangle) {
        self.shape = self.shape.with_active(active);
    }

    /// Shows the luma of the first frames taken, up to so many.
    pub fn look(&mut self, frames: usize, mut see: impl FnMut(&[u16])) -> Result<()> {
        while self.at < self.part.from {
            if !self.pass()? {
                return Ok(());
            }
        }
        while self.ahead.len() < frames
            && let Some(read) = self.read()?
        {
            see(&read.0.y);
            self.ahead.push_back(read);
        }
        Ok(())
    }

    /// The first frame taken.
    pub fn from(&self) -> usize {
        self.part.from
    }

    /// Frames taken so far.
    pub fn frames(&self) -> usize {
        self.at.saturating_sub(self.part.from)
    }

    /// Does the work of every wanted frame on all cores and hands the results on in order, until one is answered false.
    pub fn each<T: Send>(
        &mut self,
        work: impl Fn(&Task) -> Result<T> + Sync,
        mut done: impl FnMut(T) -> Result<bool>,
    ) -> Result<()> {
        let frame = 4 * (self.shape().luma_samples() + 2 * self.shape().chroma_samples());
        let size = rayon::current_num_threads().min(ROUND_BYTES / frame).max(1);
        let expected = self
            .clip
            .expected
            .map(|frames| frames.min(self.part.end() as u64));
        let mut progress = Progress::new(expected);
        let mut tasks = self.round(size)?;
        while !tasks.is_empty() {
            let (next, results) = rayon::join(
                || self.round(size),
                || tasks.par_iter().map(&work).collect::<Result<Vec<T>>>(),
            );
            for result in results? {
                if !done(result)? {
                    return Ok(());
                }
            }
            let finished = tasks.last().map_or(0, |task| task.first.index + 1);
            progress.reach(finished as u64);
            tasks = next?;
        }
        match (self.at, self.frames()) {
            (0, _) => bail!("{}: there is no frame after the header", self.clip.name),
            (all, 0) => bail!(
                "{}: --from {} passes over all of its {all} frames",
                self.clip.name,
                self.part.from
            ),
            _ => Ok(()),
        }
    }

    fn round(&mut self, size: usize) -> Result<Vec<Task>> {
        let mut tasks = Vec::with_capacity(size);
        while tasks.len() < size {
            match self.task()? {
                Some(task) => tasks.push(task),
                None => break,
            }
        }
        Ok(tasks)
    }

    fn task(&mut self) -> Result<Option<Task>> {
        while self.at < self.wanted {
            if !self.pass()? {
                return Ok(None);
            }
        }
        let first = match self.held.take().filter(|still| still.index == self.wanted) {
            Some(held) => held,
            None => match self.still()? {
                Some(read) => read,
                None => return Ok(None),
            },
        };
        let second = self.still()?;
        self.wanted = self.wanted.saturating_add(self.part.every);
        self.held.clone_from(&second);
        Ok(Some(Task { first, second }))
    }

    /// The next frame, or `None` at the end.
    fn still(&mut self) -> Result<Option<Arc<Still>>> {
        let next = match self.ahead.pop_front() {
            Some(ahead) => Some(ahead),
            None => self.read()?,
        };
        let Some((source, denoised)) = next else {
            return Ok(None);
        };
        let (name, pool) = (self.name.clone(), self.pool.clone());
        let still = Still::new(self.at, name, pool, self.shape, source, denoised);
        self.at += 1;
        Ok(Some(Arc::new(still)))
    }

    /// Reads a frame and its denoised copy, or `None` at the end of both clips.
    fn read(&mut self) -> Result<Option<(Picture, Option<Picture>)>> {
        let at = self.at + self.ahead.len();
        if at >= self.part.end() {
            return Ok(None);
        }
        let mut source = self.pool.take();
        let there = self.clip.picture(&mut source)?;
        let mut denoised = None;
        if let Some(copy) = &mut self.copy {
            let picture = denoised.insert(self.pool.take());
            let of_copy = copy.picture(picture)?;
            both(&self.clip, copy, there, of_copy, at)?;
        }
        Ok(there.then_some((source, denoised)))
    }

    fn pass(&mut self) -> Result<bool> {
        if !self.ahead.is_empty() {
            return Ok(self.still()?.is_some());
        }
        if self.at >= self.part.end() {
            return Ok(false);
        }
        let there = self.clip.pass()?;
        if let Some(copy) = &mut self.copy {
            let of_copy = copy.pass()?;
            both(&self.clip, copy, there, of_copy, self.at)?;
        }
        self.at += usize::from(there);
        Ok(there)
    }
}

/// Both clips have a frame here, or both end.
fn both(clip: &Reader, copy: &Reader, of_clip: bool, of_copy: bool, at: usize) -> Result<()> {
    let (short, long) = match (of_clip, of_copy) {
        (true, false) => (&copy.name, &clip.name),
        (false, true) => (&clip.name, &copy.name),
        _ => return Ok(()),
    };
    let remedy = match at.saturating_sub(clip.from) {
        0 => String::new(),
        n => format!(": --frames {n} takes what both have"),
    };
    bail!("{short} ends after {at} frames and {long} has more{remedy}");
}
