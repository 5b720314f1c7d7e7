//! A header as a person reads it.

use crate::args::Header;
use crate::words::shorten;
use console::style;
use grain::FrameType;

/// What it is of, its bits, and its bytes sixteen in a row.
pub fn header(name: &str, asked: &Header, bits: usize, bytes: &[u8]) -> String {
    let frame = match asked.frame {
        FrameType::Inter => "an INTER_FRAME",
        FrameType::Other => "a frame that is no INTER_FRAME",
    };
    let of = format!("film_grain_params of {frame}, {}", asked.format.name());
    let head = format!("{}: {of}", shorten(name, 78 - of.len()));
    let (bits, held) = (counted(bits, "bit"), counted(bytes.len(), "byte"));
    let mut out = format!("{}\n  {bits} in {held}\n", style(head).bold());
    for row in bytes.chunks(16) {
        let row: String = row.iter().map(|byte| format!(" {byte:02x}")).collect();
        out += &format!(" {row}\n");
    }
    out
}

fn counted(count: usize, what: &str) -> String {
    let s = if count == 1 { "" } else { "s" };
    format!("{count} {what}{s}")
}
