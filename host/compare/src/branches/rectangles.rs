//! The active rectangles that calls on a frame are accepted with, the rules that a refused one breaks alone, question 12
//! between its neighbours, and question 6 about samples outside.

use super::{Taken, those};
use crate::calls::Call;
use crate::input::Input;
use crate::questions;
use crate::rectangles::{self, rules};
use grain::Rectangle;

pub const RECTANGLES: &[&str] = &[
    "rectangle: the whole frame",
    PARTS[0],
    PARTS[1],
    PARTS[2],
    PARTS[3],
    "rectangle: at the left edge",
    "rectangle: at the top edge",
    "rectangle: at the right edge",
    "rectangle: at the bottom edge",
    "rectangle: at no edge",
    "rectangle: one column",
    "rectangle: one row",
    "rectangle: ends between columns that chroma shares",
    "rectangle: ends between rows that chroma shares",
    "rectangle: from an odd column",
    "rectangle: from an odd row",
    "rectangle: from an odd row in 4:2:2",
    rules::NO_COLUMN.name,
    rules::NO_ROW.name,
    rules::PAST_COLUMNS.name,
    "12: one column past the last",
    "12: a sum that wraps to a column of the frame",
    rules::PAST_ROWS.name,
    "12: one row past the last",
    "12: a sum that wraps to a row of the frame",
    rules::ODD_COLUMN_420.name,
    rules::ODD_ROW_420.name,
    rules::ODD_COLUMN_422.name,
    "12, though 5 would fail as well",
    "4, though 12 would fail as well",
    "6, for samples outside the rectangle alone",
];

/// By the format's number.
const PARTS: [&str; 4] = [
    "rectangle: a part of monochrome",
    "rectangle: a part of 4:2:0",
    "rectangle: a part of 4:2:2",
    "rectangle: a part of 4:4:4",
];

/// What a case meets of them, refused or not.
pub fn rectangle(call: &Call, input: &Input, refused: Option<u32>) -> Taken {
    match refused {
        None => accepted(input),
        Some(number) => refusal(call, input, number),
    }
}

/// What an accepted call's rectangle is.
fn accepted(input: &Input) -> Taken {
    let Rectangle {
        left,
        top,
        width,
        height,
    } = input.active;
    if input.active == Rectangle::whole(input.width, input.height) {
        return vec!["rectangle: the whole frame"];
    }
    let (right, bottom) = (input.width - left - width, input.height - top - height);
    let [along, down] = rectangles::halved(input.format);
    let odd_row = top % 2 == 1;
    let mut taken = those([
        ("rectangle: at the left edge", left == 0),
        ("rectangle: at the top edge", top == 0),
        ("rectangle: at the right edge", right == 0),
        ("rectangle: at the bottom edge", bottom == 0),
        (
            "rectangle: at no edge",
            [left, top, right, bottom].iter().all(|&margin| margin > 0),
        ),
        ("rectangle: one column", width == 1),
        ("rectangle: one row", height == 1),
        (
            "rectangle: ends between columns that chroma shares",
            along && width % 2 == 1 && right > 0,
        ),
        (
            "rectangle: ends between rows that chroma shares",
            down && height % 2 == 1 && bottom > 0,
        ),
        ("rectangle: from an odd column", left % 2 == 1),
        ("rectangle: from an odd row", odd_row),
        (
            "rectangle: from an odd row in 4:2:2",
            odd_row && input.format == 2,
        ),
    ]);
    taken.push(PARTS[usize::from(input.format)]);
    taken
}

/// What a call's refusal has to do with its rectangle.
fn refusal(call: &Call, input: &Input, number: u32) -> Taken {
    match number {
        4 => those([("4, though 12 would fail as well", rules::broken(input))]),
        6 => {
            let low = |part: Input| questions::passed(6, call, &part);
            let outside = rectangles::cut_out(input).is_some_and(low);
            those([("6, for samples outside the rectangle alone", outside)])
        }
        12 => {
            let alone = rules::alone(input);
            let mut taken = alone.map_or(Taken::new(), |rule| causes(rule, input));
            let short = !questions::passed(5, call, input);
            taken.extend(those([("12, though 5 would fail as well", short)]));
            taken
        }
        _ => Taken::new(),
    }
}

/// The rule that is broken alone, and how far past the frame the rectangle goes.
fn causes(broken: &'static str, input: &Input) -> Taken {
    let Rectangle {
        left,
        top,
        width,
        height,
    } = input.active;
    let columns = broken == rules::PAST_COLUMNS.name;
    let rows = broken == rules::PAST_ROWS.name;
    let mut taken = those([
        (
            "12: one column past the last",
            columns && by_one(left, width, input.width),
        ),
        (
            "12: a sum that wraps to a column of the frame",
            columns && wraps(left, width, input.width),
        ),
        (
            "12: one row past the last",
            rows && by_one(top, height, input.height),
        ),
        (
            "12: a sum that wraps to a row of the frame",
            rows && wraps(top, height, input.height),
        ),
    ]);
    taken.push(broken);
    taken
}

fn by_one(start: usize, length: usize, side: usize) -> bool {
    start.checked_add(length) == Some(side + 1)
}

fn wraps(start: usize, length: usize, side: usize) -> bool {
    matches!(start.overflowing_add(length), (end, true) if end <= side)
}
