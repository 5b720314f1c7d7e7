//! The rules behind question 12, read off the scope. A rectangle is refused if it breaks any.

use crate::input::Input;

pub struct Rule {
    /// What breaks it.
    pub name: &'static str,
    broken: fn(&Input) -> bool,
}

const fn rule(name: &'static str, broken: fn(&Input) -> bool) -> Rule {
    Rule { name, broken }
}

pub const NO_COLUMN: Rule = rule("12: no column", |i| i.active.width == 0);
pub const NO_ROW: Rule = rule("12: no row", |i| i.active.height == 0);
pub const PAST_COLUMNS: Rule = rule("12: past the last column", |i| {
    leaves(i.active.left, i.active.width, i.width)
});
pub const PAST_ROWS: Rule = rule("12: past the last row", |i| {
    leaves(i.active.top, i.active.height, i.height)
});
pub const ODD_COLUMN_420: Rule = rule("12: from an odd column in 4:2:0", |i| {
    i.format == 1 && i.active.left % 2 == 1
});
pub const ODD_ROW_420: Rule = rule("12: from an odd row in 4:2:0", |i| {
    i.format == 1 && i.active.top % 2 == 1
});
pub const ODD_COLUMN_422: Rule = rule("12: from an odd column in 4:2:2", |i| {
    i.format == 2 && i.active.left % 2 == 1
});

const ALL: [Rule; 7] = [
    NO_COLUMN,
    NO_ROW,
    PAST_COLUMNS,
    PAST_ROWS,
    ODD_COLUMN_420,
    ODD_ROW_420,
    ODD_COLUMN_422,
];

/// Whether a start and a length lead past a side. Their sum is a whole number, of 2^64 or more as well.
fn leaves(start: usize, length: usize, side: usize) -> bool {
    start as u128 + length as u128 > side as u128
}

fn those_broken(input: &Input) -> impl Iterator<Item = &'static str> {
    let broken = ALL.into_iter().filter(|rule| (rule.broken)(input));
    broken.map(|rule| rule.name)
}

pub fn broken(input: &Input) -> bool {
    those_broken(input).next().is_some()
}

/// The rule that the rectangle breaks, if it breaks just one.
pub fn alone(input: &Input) -> Option<&'static str> {
    let mut broken = those_broken(input);
    broken.next().filter(|_| broken.next().is_none())
}
