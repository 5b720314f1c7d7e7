//! The kinds of header that are written.

use super::{Branches, Taken, those};
use crate::input::Input;

pub const HEADER: Branches = Branches {
    all: &[
        "not applied, 1 bit",
        "a slot, 21 bits",
        "updated, an inter frame",
        "updated, any other frame",
        "monochrome",
        "4:2:0, luma alone has points",
        "4:2:0, every plane has points",
        "4:2:0, no plane has points",
        "4:2:2",
        "4:4:4",
        "Cb has points, Cr has none",
        "Cr has points, Cb has none",
        "chroma from luma",
        "chroma from luma without luma points",
        "lag 0",
        "lag 1",
        "lag 2",
        "lag 3",
        "points that rise by 1",
        "the largest, 1,227 bits",
        "no fill",
        "just enough room",
        "bytes past the header",
    ],
    taken: header,
};

fn header(input: &Input, words: &[u64]) -> Taken {
    let (h, bits) = (&input.header, words[0] as usize);
    let (p, updated, room) = (&h.params, h.is_updated(), input.destination[0].len());
    let counts = [p.num_y_points, p.num_cb_points, p.num_cr_points].map(|count| count > 0);
    let own = updated && !h.is_from_luma();
    let lag = |lag| updated && p.ar_coeff_lag == lag;
    let used = &p.point_y_value[..p.num_y_points.into()];
    those([
        ("not applied, 1 bit", bits == 1),
        ("a slot, 21 bits", h.names_a_slot() && bits == 21),
        ("updated, an inter frame", updated && h.inter),
        ("updated, any other frame", updated && !h.inter),
        ("monochrome", h.is_monochrome()),
        (
            "4:2:0, luma alone has points",
            own && h.format == 1 && counts == [true, false, false],
        ),
        (
            "4:2:0, every plane has points",
            own && h.format == 1 && counts == [true; 3],
        ),
        ("4:2:0, no plane has points", h.is_bare()),
        ("4:2:2", updated && h.format == 2),
        ("4:4:4", updated && h.format == 3),
        ("Cb has points, Cr has none", counts[1] && !counts[2]),
        ("Cr has points, Cb has none", counts[2] && !counts[1]),
        ("chroma from luma", h.is_from_luma() && counts[0]),
        (
            "chroma from luma without luma points",
            h.is_from_luma() && !counts[0],
        ),
        ("lag 0", lag(0)),
        ("lag 1", lag(1)),
        ("lag 2", lag(2)),
        ("lag 3", lag(3)),
        (
            "points that rise by 1",
            used.windows(2).any(|pair| pair[1] - pair[0] == 1),
        ),
        ("the largest, 1,227 bits", bits == 1227),
        ("no fill", bits % 8 == 0),
        ("just enough room", bits.div_ceil(8) == room),
        ("bytes past the header", bits.div_ceil(8) < room),
    ])
}
