//! A clip's first line.

use super::colour::colour_space;
use anyhow::{Context, Result, bail};
use grain::{Refusal, SIDE_LIMIT, Shape};

/// The word that begins a clip.
pub const MAGIC: &str = "YUV4MPEG2";

/// A clip's first line, and the shape it gives to every frame.
#[derive(Debug, Clone)]
pub struct Header {
    pub line: Vec<u8>,
    pub shape: Shape,
    pub interlaced: bool,
}

/// The words of a header that say something here, each at most once.
#[derive(Default)]
struct Tags<'a> {
    width: Option<&'a str>,
    height: Option<&'a str>,
    colour: Option<&'a str>,
    interlacing: Option<&'a str>,
    /// Old programs give the colour space by this word alone.
    sampling: Option<&'a str>,
}

const SAMPLING: &str = "XYSCSS=";

impl<'a> Tags<'a> {
    fn read(words: &'a str) -> Result<Self> {
        let mut tags = Tags::default();
        for word in words.split_ascii_whitespace() {
            let tag = match word.as_bytes()[0] {
                b'W' => &mut tags.width,
                b'H' => &mut tags.height,
                b'C' => &mut tags.colour,
                b'I' => &mut tags.interlacing,
                b'X' if word.starts_with(SAMPLING) => &mut tags.sampling,
                _ => continue,
            };
            if let Some(first) = tag.replace(word) {
                bail!("the header says one thing twice: {first:?} and {word:?}");
            }
        }
        Ok(tags)
    }

    /// The colour space, and the word that has it.
    fn colour_space(&self) -> (String, &str) {
        match (self.colour, self.sampling) {
            (Some(word), _) => (word[1..].to_string(), word),
            (None, Some(word)) => (word[SAMPLING.len()..].to_ascii_lowercase(), word),
            (None, None) => ("420".to_string(), ""),
        }
    }
}

impl Header {
    /// Reads the first line, without its end, of a clip.
    pub fn parse(line: &[u8]) -> Result<Self> {
        let shown = String::from_utf8_lossy(line);
        let words = shown.strip_prefix(MAGIC);
        let Some(words) = words.filter(|words| words.is_empty() || words.starts_with(' ')) else {
            let start: String = shown.chars().take(16).collect();
            bail!(
                "not a YUV4MPEG2 clip: it begins with {start:?}, not with {MAGIC:?}. ffmpeg makes one: \
                 ffmpeg -i INPUT -strict -1 OUTPUT.y4m"
            );
        };
        let tags = Tags::read(words)?;
        let width = side("width", tags.width.context("the header has no width (W)")?)?;
        let height = side(
            "height",
            tags.height.context("the header has no height (H)")?,
        )?;
        let (space, word) = tags.colour_space();
        let (format, depth) = colour_space(&space, word)?;
        let refuse = |refusal: Refusal| bail!("the frames are {width}×{height}: {refusal}");
        if width.max(height) > SIDE_LIMIT {
            return refuse(Refusal::SideAbove4096);
        }
        if width.min(height) == 0 {
            return refuse(Refusal::EmptyFrame);
        }
        Ok(Header {
            line: line.to_vec(),
            shape: Shape::new(width, height, depth, format),
            interlaced: matches!(tags.interlacing, Some("It" | "Ib" | "Im")),
        })
    }

    /// Bytes of one frame's planes.
    pub fn frame_bytes(&self) -> usize {
        let samples = self.shape.luma_samples() + 2 * self.shape.chroma_samples();
        samples * self.bytes_per_sample()
    }

    pub fn bytes_per_sample(&self) -> usize {
        if self.shape.depth > 8 { 2 } else { 1 }
    }
}

/// The number after a word's first letter.
fn side(name: &str, word: &str) -> Result<usize> {
    word[1..]
        .parse()
        .with_context(|| format!("the header's {name} isn't a number: {word:?}"))
}
