//! What comes of a case, and what should.

use crate::branches::{self, Taken};
use crate::calls::{Call, Words};
use crate::case::Case;
use crate::headers::{Header, rules};
use crate::input::{Input, Planes};
use crate::questions;
use crate::random::Random;
use crate::rectangles::{self, outside};
use grain::Refusal;
use std::fmt;

/// An answer, or the number of a refusal, and the destinations afterwards.
#[derive(Debug, PartialEq, Eq)]
pub struct Outcome {
    pub answer: Result<Words, u32>,
    pub planes: Planes,
    /// Fields of a C record that ought to be 0 and aren't.
    pub stray: Words,
}

/// What the safe crate does.
fn ours(call: &Call, input: &Input) -> Outcome {
    let mut planes = input.destination.clone();
    let answer = (call.ours)(input, &mut planes).map_err(Refusal::number);
    Outcome {
        answer,
        planes,
        stray: Words::new(),
    }
}

/// What the C interface does.
fn raw(call: &Call, input: &Input) -> Outcome {
    let mut planes = input.destination.clone();
    let record = (call.raw)(input, &mut planes);
    let stray = record.stray();
    let answer = match record.refusal {
        0 => Ok(record.words),
        number => Err(number),
    };
    Outcome {
        answer,
        planes,
        stray,
    }
}

/// What the C interface does once every sample outside the rectangle is another, if there is any.
fn changed(call: &Call, input: &mut Input, seed: u64) -> Option<Outcome> {
    let samples = outside::change(&mut Random::new(!seed), call, input);
    (samples > 0).then(|| raw(call, input))
}

/// What both should do: refuse with the first question failed and leave the destinations, or else do as the Rust does with
/// what the call is to look at.
fn due(call: &Call, seen: &Input, refused: Option<u32>) -> Outcome {
    let mut planes = seen.destination.clone();
    let answer = match refused {
        None => {
            let mut words = (call.rust)(seen, &mut planes);
            words.extend((call.added)(seen));
            Ok(words)
        }
        Some(number) => Err(number),
    };
    Outcome {
        answer,
        planes,
        stray: Words::new(),
    }
}

/// The outcomes of a case.
pub struct Comparison {
    /// None of a format that the safe crate has no name for.
    pub ours: Option<Outcome>,
    pub raw: Outcome,
    /// The C interface's again, with every sample outside the rectangle changed, if there is any and the call is to keep to
    /// the rectangle.
    pub changed: Option<Outcome>,
    pub due: Outcome,
    /// The call is accepted, writes no plane and has no words: there is nothing to compare.
    pub silent: bool,
    /// The branches that an accepted case takes, or the rule that a refused header or rectangle breaks, if it breaks just
    /// one.
    pub taken: Taken,
    /// What is written, where it is a header.
    pub header: Option<Header>,
}

impl Comparison {
    pub fn new(case: &Case) -> Self {
        let (call, mut input) = (case.call, Input::new(case));
        let refused = questions::first_failed(call, &input);
        let (ours, raw) = (
            (input.format <= 3).then(|| ours(call, &input)),
            raw(call, &input),
        );
        let within = refused.is_none() && call.keeps_to_the_rectangle();
        let part = within.then(|| rectangles::cut_out(&input)).flatten();
        let seen = part.as_ref().unwrap_or(&input);
        let due = due(call, seen, refused);
        let wordless = due.answer.as_ref().is_ok_and(Words::is_empty);
        let silent = wordless && call.destinations == 0;
        let mut taken = match &due.answer {
            Ok(words) if !silent => (call.branches.taken)(seen, words),
            Err(10) => rules::alone(&input.header).into_iter().collect(),
            _ => Taken::new(),
        };
        if call.asks.frame {
            taken.extend(branches::rectangle(call, &input, refused));
        }
        let changed = part.and_then(|_| changed(call, &mut input, case.seed));
        Comparison {
            ours,
            raw,
            changed,
            due,
            silent,
            taken,
            header: call.asks.header.then_some(input.header),
        }
    }

    pub fn agrees(&self) -> bool {
        let mut found = self.ours.iter().chain([&self.raw]).chain(&self.changed);
        found.all(|outcome| *outcome == self.due) && !self.silent
    }
}

impl fmt::Display for Comparison {
    fn fmt(&self, f: &mut fmt::Formatter<'_>) -> fmt::Result {
        if let Some(Header { params, inter, .. }) = &self.header {
            writeln!(f, "  of   {params:?}, inter: {inter}")?;
        }
        if let Some(ours) = &self.ours {
            writeln!(f, "  ours {}", ours.shown())?;
        }
        writeln!(f, "  C    {}", self.raw.shown())?;
        if let Some(changed) = &self.changed {
            writeln!(f, "  C, the outside changed: {}", changed.shown())?;
        }
        write!(f, "  due  {}", self.due.shown())?;
        match self.silent {
            true => write!(f, "\n  an accepted call that says nothing"),
            false => Ok(()),
        }
    }
}

impl Outcome {
    /// An accepted answer of zeros alone: no, no fit, no solution, or figures of flat noise.
    pub fn is_zero(&self) -> bool {
        matches!(&self.answer, Ok(words) if words.iter().all(|&w| w == 0))
            && self.planes.iter().flatten().all(|&s| s == 0)
    }

    /// The outcome in a line or two; long destinations are cut.
    fn shown(&self) -> String {
        let answer = match &self.answer {
            Ok(words) => format!("{:?}", words.iter().map(|&w| w as i64).collect::<Vec<_>>()),
            Err(number) => format!("refused with {number}"),
        };
        let answer = match &self.stray[..] {
            [] => answer,
            stray => format!("{answer}, not 0 as they ought to be {stray:?}"),
        };
        let planes: Vec<String> = self.planes.iter().map(|p| cut(p)).collect();
        match self.planes.iter().all(Vec::is_empty) {
            true => answer,
            false => format!("{answer}, destinations {}", planes.join(" ")),
        }
    }
}

fn cut(plane: &[u16]) -> String {
    match plane.len() {
        0..=40 => format!("{plane:?}"),
        n => format!("{:?} and {} more", &plane[..40], n - 40),
    }
}
