//! Compares every call of the library with the Rust's, bit for bit, on drawn cases, and fails where a branch of a call or a
//! refusal is met by none.

use compare::case::{Case, FORM};
use compare::draw;
use compare::outcome::Comparison;
use compare::tally::Tally;
use std::process::ExitCode;
use std::sync::atomic::{AtomicU64, Ordering};
use std::sync::{Mutex, PoisonError};
use std::thread;

const USAGE: &str = "\
compare [--calls N] [--seed S]... [--fits] [--case CASE]

  --calls N    compare N drawn cases of each seed (270000), and the largest planes
  --seed S     draw the cases of this seed (1); there may be several
  --fits       fits of the largest planes as well, which take the Rust half a minute
  --case CASE  compare one case alone and show both outcomes; a case is";

struct Options {
    calls: u64,
    seeds: Vec<u64>,
    fits: bool,
    case: Option<Case>,
}

fn options() -> Result<Options, String> {
    let mut options = Options {
        calls: 270_000,
        seeds: Vec::new(),
        fits: false,
        case: None,
    };
    let mut words = std::env::args().skip(1);
    while let Some(word) = words.next() {
        let mut value = || words.next().ok_or(format!("{word} wants a value"));
        let number = |text: String| text.parse().map_err(|_| format!("not a number: {text}"));
        match word.as_str() {
            "--calls" => options.calls = number(value()?)?,
            "--seed" => options.seeds.push(number(value()?)?),
            "--fits" => options.fits = true,
            "--case" => options.case = Some(value()?.parse()?),
            _ => return Err(format!("{USAGE}\n               {FORM}")),
        }
    }
    if options.seeds.is_empty() {
        options.seeds.push(1);
    }
    Ok(options)
}

/// Compares the cases on every processor; the first one found to differ, if any.
fn run(options: &Options) -> (Tally, Option<Case>) {
    let large = draw::largest(options.fits);
    let drawn = options.calls * options.seeds.len() as u64;
    let total = drawn + large.len() as u64;
    let case = |index: u64| match index.checked_sub(drawn) {
        Some(at) => large[at as usize].clone(),
        None => {
            let seed = options.seeds[(index / options.calls) as usize];
            draw::case(seed, index % options.calls)
        }
    };
    let next = AtomicU64::new(0);
    let sums = Mutex::new((Tally::default(), None));
    let work = || {
        let mut tally = Tally::default();
        loop {
            let index = next.fetch_add(1, Ordering::Relaxed);
            if index >= total {
                break;
            }
            let case = case(index);
            let found = Comparison::new(&case);
            tally.count(case.call, &found);
            if !found.agrees() {
                next.store(total, Ordering::Relaxed);
                sums.lock().unwrap_or_else(PoisonError::into_inner).1 = Some(case);
            }
        }
        let mut sums = sums.lock().unwrap_or_else(PoisonError::into_inner);
        sums.0.add(tally);
    };
    thread::scope(|scope| {
        for _ in 0..thread::available_parallelism().map_or(1, usize::from) {
            scope.spawn(work);
        }
    });
    sums.into_inner().unwrap_or_else(PoisonError::into_inner)
}

fn main() -> ExitCode {
    let options = match options() {
        Ok(options) => options,
        Err(text) => {
            eprintln!("{text}");
            return ExitCode::from(2);
        }
    };
    if let Some(case) = &options.case {
        let found = Comparison::new(case);
        println!("{case}\n{found}");
        return ExitCode::from(u8::from(!found.agrees()));
    }
    for seed in &options.seeds {
        println!("seed {seed}, {} drawn cases", options.calls);
    }
    let (tally, different) = run(&options);
    if let Some(case) = different {
        println!("differs: {case}\n{}", Comparison::new(&case));
        let least = case.shrunk(|case| !Comparison::new(case).agrees());
        println!("shrunk to: {least}\n{}", Comparison::new(&least));
        println!("again: cargo run --release --bin compare -- --case {least}");
        return ExitCode::FAILURE;
    }
    print!("{tally}");
    let missed = tally.missed();
    for what in &missed {
        println!("never met: {what}");
    }
    println!(
        "{} times every sample outside the rectangle was changed, and the answer stayed",
        tally.changed()
    );
    println!("{} calls compared, 0 differ", tally.total());
    ExitCode::from(u8::from(!missed.is_empty()))
}
