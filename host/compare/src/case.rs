//! A case: the few numbers from which a call's whole input is made, and the text that names it.

use crate::calls::{CALLS, Call};
use crate::noise::Noise;
use grain::Rectangle;

/// What is wrong with one of the lent planes, counted in the order in which they are lent, destinations last.
#[derive(Debug, Clone, Copy, PartialEq, Eq)]
pub enum Fault {
    /// One sample too few.
    Short(usize),
    /// One too many.
    Long(usize),
    /// A sample of 2^depth or more.
    High(usize),
}

#[derive(Clone)]
pub struct Case {
    pub call: &'static Call,
    pub seed: u64,
    pub width: usize,
    pub height: usize,
    /// None is the whole frame.
    pub active: Option<Rectangle>,
    pub depth: u8,
    pub format: u8,
    pub noise: Noise,
    /// The lag, the order, the bits, the sigma16 or the hint, whichever the call takes, or a header's number of faults.
    pub number: u64,
    pub faults: Vec<Fault>,
}

/// How a case is written.
pub const FORM: &str =
    "CALL:SEED:WIDTHxHEIGHT[@WIDTHxHEIGHT+LEFT+TOP]:DEPTH:FORMAT:NOISE:NUMBER:FAULTS";

impl std::fmt::Display for Case {
    fn fmt(&self, f: &mut std::fmt::Formatter<'_>) -> std::fmt::Result {
        let faults: Vec<String> = self
            .faults
            .iter()
            .map(|fault| match fault {
                Fault::Short(plane) => format!("short{plane}"),
                Fault::Long(plane) => format!("long{plane}"),
                Fault::High(plane) => format!("high{plane}"),
            })
            .collect();
        let active = self.active.map_or(String::new(), |r| {
            format!("@{}x{}+{}+{}", r.width, r.height, r.left, r.top)
        });
        write!(
            f,
            "{}:{}:{}x{}{active}:{}:{}:{}:{}:{}",
            self.call.name,
            self.seed,
            self.width,
            self.height,
            self.depth,
            self.format,
            self.noise.name(),
            self.number,
            if faults.is_empty() {
                "none".into()
            } else {
                faults.join("+")
            },
        )
    }
}

impl std::str::FromStr for Case {
    type Err = String;

    fn from_str(text: &str) -> Result<Self, String> {
        parse(text).ok_or_else(|| format!("not a case: {text}; a case is {FORM}"))
    }
}

/// Two numbers.
fn size(text: &str) -> Option<(usize, usize)> {
    let (width, height) = text.split_once('x')?;
    Some((width.parse().ok()?, height.parse().ok()?))
}

fn rectangle(text: &str) -> Option<Rectangle> {
    let parts: Vec<&str> = text.split('+').collect();
    let [of, left, top] = parts[..] else {
        return None;
    };
    let (width, height) = size(of)?;
    Some(Rectangle {
        left: left.parse().ok()?,
        top: top.parse().ok()?,
        width,
        height,
    })
}

fn parse(text: &str) -> Option<Case> {
    // From the end, since a call's name may have colons.
    let parts: Vec<&str> = text.rsplitn(8, ':').collect();
    let [faults, number, noise, format, depth, frame, seed, call] = parts[..] else {
        return None;
    };
    let (frame, active) = match frame.split_once('@') {
        Some((frame, active)) => (frame, Some(rectangle(active)?)),
        None => (frame, None),
    };
    let (width, height) = size(frame)?;
    let fault = |word: &str| -> Option<Fault> {
        let (kind, plane) = word.split_at(word.find(|c: char| c.is_ascii_digit())?);
        let plane = plane.parse().ok()?;
        match kind {
            "short" => Some(Fault::Short(plane)),
            "long" => Some(Fault::Long(plane)),
            "high" => Some(Fault::High(plane)),
            _ => None,
        }
    };
    Some(Case {
        call: CALLS.iter().find(|c| c.name == call)?,
        seed: seed.parse().ok()?,
        width,
        height,
        active,
        depth: depth.parse().ok()?,
        format: format.parse().ok()?,
        noise: Noise::ALL.into_iter().find(|n| n.name() == noise)?,
        number: number.parse().ok()?,
        faults: match faults {
            "none" => Vec::new(),
            list => list.split('+').map(fault).collect::<Option<_>>()?,
        },
    })
}

impl Case {
    /// The active rectangle.
    pub fn rectangle(&self) -> Rectangle {
        let whole = Rectangle::whole(self.width, self.height);
        self.active.unwrap_or(whole)
    }

    /// Cases that are simpler by one step.
    fn simpler(&self) -> Vec<Case> {
        let mut list = Vec::new();
        let mut add = |change: &dyn Fn(&mut Case)| {
            let mut case = self.clone();
            change(&mut case);
            if case.to_string() != self.to_string() {
                list.push(case);
            }
        };
        add(&|c| c.faults.clear());
        add(&|c| _ = c.faults.pop());
        add(&|c| c.active = None);
        for cut in [2, 4, 8] {
            add(&|c| c.width -= c.width / cut);
            add(&|c| c.height -= c.height / cut);
        }
        add(&|c| c.width = c.width.saturating_sub(1));
        add(&|c| c.height = c.height.saturating_sub(1));
        for change in SMALLER {
            add(&|c| c.active.iter_mut().for_each(change));
        }
        add(&|c| c.depth = 8);
        add(&|c| c.format = c.format.saturating_sub(1));
        add(&|c| c.number /= 2);
        add(&|c| c.number = c.number.saturating_sub(1));
        for noise in Noise::ALL.into_iter().take_while(|&n| n != self.noise) {
            add(&|c| c.noise = noise);
        }
        for seed in (0..8).take_while(|&s| s < self.seed) {
            add(&|c| c.seed = seed);
        }
        list
    }

    /// The simplest case found that still fails, going down step by step.
    pub fn shrunk(&self, fails: impl Fn(&Case) -> bool) -> Case {
        let mut least = self.clone();
        while let Some(simpler) = least.simpler().into_iter().find(|case| fails(case)) {
            least = simpler;
        }
        least
    }
}

/// One number of a rectangle made smaller; of a start by two as well, which leaves it even.
const SMALLER: [fn(&mut Rectangle); 12] = [
    |r| r.left = 0,
    |r| r.top = 0,
    |r| r.left = r.left.saturating_sub(2),
    |r| r.top = r.top.saturating_sub(2),
    |r| r.left = r.left.saturating_sub(1),
    |r| r.top = r.top.saturating_sub(1),
    |r| r.width -= r.width / 2,
    |r| r.height -= r.height / 2,
    |r| r.width -= r.width / 8,
    |r| r.height -= r.height / 8,
    |r| r.width = r.width.saturating_sub(1),
    |r| r.height = r.height.saturating_sub(1),
];
