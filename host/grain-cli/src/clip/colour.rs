//! Colour spaces: those that are read, and for the others the way to one that is.

use anyhow::{Result, bail};
use grain::Format;

/// Each colour space that is read, with its format and depth. Where chroma lies between luma doesn't matter here.
const COLOUR_SPACES: [(&str, Format, u8); 15] = [
    ("mono", Format::Monochrome, 8),
    ("mono10", Format::Monochrome, 10),
    ("mono12", Format::Monochrome, 12),
    ("420", Format::Yuv420, 8),
    ("420jpeg", Format::Yuv420, 8),
    ("420mpeg2", Format::Yuv420, 8),
    ("420paldv", Format::Yuv420, 8),
    ("420p10", Format::Yuv420, 10),
    ("420p12", Format::Yuv420, 12),
    ("422", Format::Yuv422, 8),
    ("422p10", Format::Yuv422, 10),
    ("422p12", Format::Yuv422, 12),
    ("444", Format::Yuv444, 8),
    ("444p10", Format::Yuv444, 10),
    ("444p12", Format::Yuv444, 12),
];

/// The format and depth of a colour space; `word` is the header's word for it.
pub fn colour_space(name: &str, word: &str) -> Result<(Format, u8)> {
    if let Some(&(_, format, depth)) = COLOUR_SPACES.iter().find(|(known, ..)| *known == name) {
        return Ok((format, depth));
    }
    let Some((what, pixels)) = remedy(name) else {
        let names = COLOUR_SPACES.map(|(name, ..)| name).join(", ");
        bail!("the header has the colour space {word:?}, which isn't read. These are: {names}");
    };
    bail!(
        "the header has the colour space {word:?}: {what}. ffmpeg makes a clip that is read: \
         ffmpeg -i INPUT -pix_fmt {pixels} -strict -1 OUTPUT.y4m"
    );
}

/// What stands against a colour space that others write, and ffmpeg's name for the nearest one that is read.
fn remedy(name: &str) -> Option<(String, String)> {
    match name {
        "411" | "410" => return Some(("4:1:1 and 4:1:0 aren't read".into(), "yuv422p".into())),
        "440" => return Some(("4:4:0 isn't read".into(), "yuv444p".into())),
        "444alpha" => return Some(("a plane of alpha isn't read".into(), "yuv444p".into())),
        _ => {}
    }
    let (format, depth) = match name.strip_prefix("mono") {
        Some(depth) => ("gray".to_string(), depth),
        None => {
            let (format, depth) = name.split_once('p')?;
            let known = matches!(format, "420" | "422" | "444");
            (known.then(|| format!("yuv{format}p"))?, depth)
        }
    };
    let depth: u8 = depth.parse().ok()?;
    let near = if depth < 10 { 10 } else { 12 };
    let what = format!("{depth} bits aren't read, but 8, 10 and 12");
    Some((what, format!("{format}{near}le")))
}
