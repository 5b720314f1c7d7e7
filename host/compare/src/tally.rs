//! What a run compared of each call, and what it met.

use crate::calls::{CALLS, Call};
use crate::outcome::Comparison;
use crate::questions::{QUESTIONS, Question};
use std::collections::BTreeMap;
use std::fmt;

/// What was compared of one call.
#[derive(Default)]
struct Count {
    compared: u64,
    zero: u64,
    /// How often again, with every sample outside the rectangle changed.
    changed: u64,
    /// How often with each number.
    refused: BTreeMap<u32, u64>,
    /// How often each branch, and each rule broken alone.
    taken: BTreeMap<&'static str, u64>,
}

pub struct Tally(Vec<Count>);

impl Default for Tally {
    fn default() -> Self {
        Tally(CALLS.iter().map(|_| Count::default()).collect())
    }
}

impl Tally {
    pub fn count(&mut self, call: &Call, found: &Comparison) {
        let at = CALLS.iter().position(|other| other.name == call.name);
        let count = &mut self.0[at.expect("a call of the table")];
        count.compared += 1;
        count.zero += u64::from(found.due.is_zero());
        count.changed += u64::from(found.changed.is_some());
        if let Err(number) = found.due.answer {
            *count.refused.entry(number).or_default() += 1;
        }
        for branch in &found.taken {
            let listed = call.names().any(|name| name == *branch);
            assert!(listed, "unlisted: {branch}");
            *count.taken.entry(branch).or_default() += 1;
        }
    }

    pub fn add(&mut self, other: Tally) {
        for (count, more) in self.0.iter_mut().zip(other.0) {
            count.compared += more.compared;
            count.zero += more.zero;
            count.changed += more.changed;
            for (number, times) in more.refused {
                *count.refused.entry(number).or_default() += times;
            }
            for (branch, times) in more.taken {
                *count.taken.entry(branch).or_default() += times;
            }
        }
    }

    pub fn total(&self) -> u64 {
        self.0.iter().map(|count| count.compared).sum()
    }

    /// How many calls were made again with every sample outside the rectangle changed.
    pub fn changed(&self) -> u64 {
        self.0.iter().map(|count| count.changed).sum()
    }

    /// The refusals, branches and broken rules that no case met, and the outsides that none changed, by call.
    pub fn missed(&self) -> Vec<String> {
        let mut list = Vec::new();
        for (call, count) in CALLS.iter().zip(&self.0) {
            let asked = QUESTIONS.iter().filter(|q| q.is_put_to(call));
            let refusals = asked.map(|question| question.number);
            let never = refusals.filter(|number| !count.refused.contains_key(number));
            list.extend(never.map(|number| format!("{}: refused with {number}", call.name)));
            let never = call.names().filter(|name| !count.taken.contains_key(name));
            list.extend(never.map(|name| format!("{}: {name}", call.name)));
            if call.keeps_to_the_rectangle() && count.changed == 0 {
                list.push(format!("{}: the outside changed", call.name));
            }
        }
        list
    }
}

impl fmt::Display for Tally {
    fn fmt(&self, f: &mut fmt::Formatter<'_>) -> fmt::Result {
        let cells = |of: &dyn Fn(u32) -> u64| -> String {
            let cell = |question: &Question| format!("{:>8}", of(question.number));
            QUESTIONS.iter().map(cell).collect()
        };
        let heads = cells(&|number| number.into());
        let (call, compared, zeros, changed) = ("call", "compared", "zeros", "outside");
        let heads = &heads[7..];
        writeln!(
            f,
            "{call:30}{compared:>9}{zeros:>9}{changed:>9}  refused with{heads}"
        )?;
        for (call, count) in CALLS.iter().zip(&self.0) {
            let refused = cells(&|number| count.refused.get(&number).copied().unwrap_or(0));
            let (name, compared, zeros, changed) =
                (call.name, count.compared, count.zero, count.changed);
            writeln!(
                f,
                "{name:30}{compared:>9}{zeros:>9}{changed:>9}       {refused}"
            )?;
        }
        for (call, count) in CALLS.iter().zip(&self.0) {
            writeln!(f, "{}", call.name)?;
            for name in call.names() {
                let times = count.taken.get(name).copied().unwrap_or(0);
                writeln!(f, "{times:>9}  {name}")?;
            }
        }
        Ok(())
    }
}
