//! A clip that is read.

use super::header::MAGIC;
use super::{Header, Picture};
use crate::files::{Stream, shown};
use anyhow::{Context, Result, bail};
use std::fs::File;
use std::io::{self, BufRead, BufReader, Read};
use std::path::Path;

/// The longest line that is read: a header has a handful of words.
const LONGEST_LINE: u64 = 4096;

/// A clip that is read frame by frame.
pub struct Reader {
    /// The clip's name in messages.
    pub name: String,
    pub header: Header,
    /// How many frames a file of this length holds; unknown of a pipe.
    pub expected: Option<u64>,
    input: BufReader<Box<dyn Read + Send>>,
    /// Frames read or passed over.
    at: usize,
    /// The first frame that is wanted.
    pub from: usize,
    bytes: Vec<u8>,
}

impl Reader {
    /// Opens a clip and reads its header; `-` is standard input.
    pub fn open(path: &Path) -> Result<Self> {
        let (name, input, length): (_, Box<dyn Read + Send>, _) = if path == Path::new("-") {
            (
                Stream::Input.name().to_string(),
                Box::new(io::stdin()),
                None,
            )
        } else {
            let name = shown(path);
            let file = File::open(path).with_context(|| name.clone())?;
            let about = file.metadata().with_context(|| name.clone())?;
            if about.is_dir() {
                bail!("{name} is a folder, not a clip");
            }
            let length = about.is_file().then_some(about.len());
            (name, Box::new(file), length)
        };
        let mut input = BufReader::with_capacity(1 << 16, input);
        let header = header(&mut input).with_context(|| name.clone())?;
        let expected = length.map(|length| {
            let rest = length.saturating_sub(header.line.len() as u64 + 1);
            rest / ("FRAME\n".len() + header.frame_bytes()) as u64
        });
        Ok(Reader {
            name,
            header,
            expected,
            input,
            at: 0,
            from: 0,
            bytes: Vec::new(),
        })
    }

    /// Reads the next frame into a picture of the clip's shape; false at the end of the clip.
    pub fn picture(&mut self, picture: &mut Picture) -> Result<bool> {
        let Some(words) = self.frame_line()? else {
            return Ok(false);
        };
        picture.words = words;
        self.bytes.clear();
        let wanted = self.header.frame_bytes();
        let got = (&mut self.input)
            .take(wanted as u64)
            .read_to_end(&mut self.bytes)
            .with_context(|| self.name.clone())?;
        self.whole(got)?;
        let wide = self.header.bytes_per_sample();
        let mut rest = &self.bytes[..];
        for plane in [&mut picture.y, &mut picture.cb, &mut picture.cr] {
            let (bytes, after) = rest.split_at(plane.len() * wide);
            rest = after;
            match wide {
                1 => plane
                    .iter_mut()
                    .zip(bytes)
                    .for_each(|(s, &b)| *s = b.into()),
                _ => plane
                    .iter_mut()
                    .zip(bytes.chunks_exact(2))
                    .for_each(|(s, pair)| *s = u16::from_le_bytes([pair[0], pair[1]])),
            }
        }
        Ok(true)
    }

    /// Passes over the next frame; false at the end of the clip.
    pub fn pass(&mut self) -> Result<bool> {
        if self.frame_line()?.is_none() {
            return Ok(false);
        }
        let mut planes = (&mut self.input).take(self.header.frame_bytes() as u64);
        let got = io::copy(&mut planes, &mut io::sink()).with_context(|| self.name.clone())?;
        self.whole(got as usize)?;
        Ok(true)
    }

    /// What the next frame's line says after the word FRAME.
    fn frame_line(&mut self) -> Result<Option<String>> {
        let Line { text, ended } = line(&mut self.input).with_context(|| self.name.clone())?;
        if text.is_empty() && !ended {
            return Ok(None);
        }
        let shown = String::from_utf8_lossy(&text);
        match shown.strip_prefix("FRAME") {
            Some(words) if ended && (words.is_empty() || words.starts_with(' ')) => {
                Ok(Some(words.trim().to_string()))
            }
            _ => bail!(
                "{}: damaged or cut off where frame {} should begin: no line FRAME is there. {}",
                self.name,
                self.at,
                self.before()
            ),
        }
    }

    /// Counts a frame, of which so many bytes were there.
    fn whole(&mut self, got: usize) -> Result<()> {
        let wanted = self.header.frame_bytes();
        if got < wanted {
            bail!(
                "{}: cut off: frame {} has {got} of its {wanted} bytes. {}",
                self.name,
                self.at,
                self.before()
            );
        }
        self.at += 1;
        Ok(())
    }

    /// What can still be had of a damaged clip.
    fn before(&self) -> String {
        match self.at.saturating_sub(self.from) {
            0 if self.at == 0 => "No frame before it is whole.".to_string(),
            0 => format!("--from {} leaves no whole frame before it.", self.from),
            n => format!("What is before it is whole: --frames {n} takes that."),
        }
    }
}

struct Line {
    text: Vec<u8>,
    ended: bool,
}

/// The next line without its end. Where nothing is left it is empty and not ended.
fn line(input: &mut impl BufRead) -> io::Result<Line> {
    let mut text = Vec::new();
    input.take(LONGEST_LINE).read_until(b'\n', &mut text)?;
    let ended = text.pop_if(|last| *last == b'\n').is_some();
    Ok(Line { text, ended })
}

fn header(input: &mut impl BufRead) -> Result<Header> {
    let Line { text, ended } = line(input)?;
    if text.is_empty() && !ended {
        bail!("it is empty, not a YUV4MPEG2 clip");
    }
    if text.starts_with(MAGIC.as_bytes()) && !ended {
        bail!("cut off or damaged: the header's line has no end within {LONGEST_LINE} bytes");
    }
    Header::parse(&text)
}
