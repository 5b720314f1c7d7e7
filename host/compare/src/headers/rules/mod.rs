//! The rules behind question 10, one a row, read off the syntax table of 5.9.30 and the semantics of its fields. A record
//! is refused if it breaks any.

mod limits;
mod skipped;

use super::Header;
pub use limits::UNREAD;

pub struct Rule {
    /// What breaks it.
    pub name: &'static str,
    broken: fn(&Header) -> bool,
}

const fn rule(name: &'static str, broken: fn(&Header) -> bool) -> Rule {
    Rule { name, broken }
}

pub const ALL: &[&[Rule]] = &[
    UNREAD,
    limits::OTHERS,
    skipped::NOT_APPLIED,
    skipped::SLOT,
    skipped::UPDATED,
    skipped::MONOCHROME,
    skipped::FROM_LUMA,
    skipped::BARE,
    skipped::PAST,
    skipped::POINTLESS_LUMA,
    skipped::POINTLESS_CB,
    skipped::POINTLESS_CR,
];

fn those_broken(header: &Header) -> impl Iterator<Item = &'static str> {
    let rules = ALL.iter().copied().flatten();
    let broken = rules.filter(|rule| (rule.broken)(header));
    broken.map(|rule| rule.name)
}

pub fn broken(header: &Header) -> bool {
    those_broken(header).next().is_some()
}

/// The rule that the header breaks, if it breaks just one.
pub fn alone(header: &Header) -> Option<&'static str> {
    let mut broken = those_broken(header);
    broken.next().filter(|_| broken.next().is_none())
}
