//! The questions put to a call, read off the scope's list. The Rust has none, so this list is what refusals are held to.

use crate::calls::Call;
use crate::headers::rules;
use crate::input::{Input, plane_size};
use crate::rectangles;

/// Which of the scope's questions a call is asked: those about things it receives.
#[derive(Clone, Copy)]
pub struct Asks {
    /// A size, and lent planes.
    pub size: bool,
    /// A frame call: both sides at least 1, and an active rectangle.
    pub frame: bool,
    pub format: bool,
    pub depth: bool,
    pub lag: bool,
    pub order: bool,
    pub bits: bool,
    /// A header's record, and room to write it to.
    pub header: bool,
}

impl Asks {
    pub const NOTHING: Asks = Asks {
        size: false,
        frame: false,
        format: false,
        depth: false,
        lag: false,
        order: false,
        bits: false,
        header: false,
    };
}

pub struct Question {
    pub number: u32,
    asked: fn(Asks) -> bool,
    passed: fn(&Call, &Input) -> bool,
}

impl Question {
    pub fn is_put_to(&self, call: &Call) -> bool {
        (self.asked)(call.asks)
    }
}

/// In the order in which they are asked.
pub const QUESTIONS: &[Question] = &[
    Question {
        number: 1,
        asked: |asks| asks.size,
        passed: |_, input| input.width <= 4096 && input.height <= 4096,
    },
    Question {
        number: 2,
        asked: |asks| asks.frame,
        passed: |_, input| input.width >= 1 && input.height >= 1,
    },
    Question {
        number: 3,
        asked: |asks| asks.depth,
        passed: |_, input| [8, 10, 12].contains(&input.depth),
    },
    Question {
        number: 4,
        asked: |asks| asks.format,
        passed: |_, input| input.format <= 3,
    },
    Question {
        number: 12,
        asked: |asks| asks.frame,
        passed: |_, input| !rectangles::rules::broken(input),
    },
    Question {
        number: 5,
        asked: |asks| asks.size,
        passed: whole,
    },
    Question {
        number: 6,
        asked: |asks| asks.depth,
        passed: low,
    },
    Question {
        number: 7,
        asked: |asks| asks.lag,
        passed: |_, input| input.number <= 3,
    },
    Question {
        number: 8,
        asked: |asks| asks.order,
        passed: |_, input| (1..=25).contains(&input.number),
    },
    Question {
        number: 9,
        asked: |asks| asks.bits,
        passed: |_, input| input.number <= 16,
    },
    Question {
        number: 10,
        asked: |asks| asks.header,
        passed: |_, input| !rules::broken(&input.header),
    },
    Question {
        number: 11,
        asked: |asks| asks.header,
        passed: |_, input| input.destination[0].len() * 8 >= input.header.bits.len(),
    },
];

/// Whether every plane, destinations included, has its number of samples.
fn whole(call: &Call, input: &Input) -> bool {
    let samples = |component| {
        let (w, h) = plane_size(input.format, (input.width, input.height), component);
        w.saturating_mul(h)
    };
    let mut lent = call.lent.iter();
    let mut written = 0..call.destinations;
    lent.all(|&p| input.plane(p).len() == samples(p.component))
        && written.all(|component| input.destination[component].len() == samples(component))
}

/// Whether every sample is below 2^depth.
fn low(call: &Call, input: &Input) -> bool {
    let mut lent = call.lent.iter().flat_map(|&p| input.plane(p));
    lent.all(|&sample| u32::from(sample) < 1 << input.depth)
}

/// Whether a call passes a question of this number, asked or not.
pub fn passed(number: u32, call: &Call, input: &Input) -> bool {
    let mut numbered = QUESTIONS.iter().filter(|q| q.number == number);
    numbered.all(|question| (question.passed)(call, input))
}

/// The number of the first question that the call is asked and fails.
pub fn first_failed(call: &Call, input: &Input) -> Option<u32> {
    let mut asked = QUESTIONS.iter().filter(|q| q.is_put_to(call));
    let failed = asked.find(|q| !(q.passed)(call, input));
    failed.map(|question| question.number)
}
