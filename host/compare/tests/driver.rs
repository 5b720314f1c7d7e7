//! The driver itself: cases are written and read, a failing one is shrunk, and every call of the table is drawn and
//! answers something.

use compare::branches::Branches;
use compare::calls::{CALLS, Call};
use compare::case::Case;
use compare::draw;
use compare::input::Input;
use compare::outcome::Comparison;
use compare::questions::QUESTIONS;
use compare::raw::Record;
use compare::tally::Tally;
use grain::{Rectangle, Refusal};
use std::collections::HashSet;

#[test]
fn cases_are_written_and_read() {
    for index in 0..2000 {
        let text = draw::case(3, index).to_string();
        let read: Case = text.parse().expect("a case");
        assert_eq!(read.to_string(), text);
    }
    let case = |frame: &str| format!("fit_ar_lag:1:{frame}:8:1:flat:1:none").parse::<Case>();
    let active = case("9x8@5x4+2+0").expect("a case").rectangle();
    let due = Rectangle {
        left: 2,
        top: 0,
        width: 5,
        height: 4,
    };
    assert_eq!(active, due);
    let whole = case("9x8").expect("a case").rectangle();
    assert_eq!(whole, Rectangle::whole(9, 8));
    for frame in ["9x", "9x8@", "9x8@5x4", "9x8@5x4+2", "9x8@5x4+2+0+0"] {
        assert!(case(frame).is_err(), "{frame}");
    }
    assert!("fit_ar_lag:1:2x3".parse::<Case>().is_err());
}

#[test]
fn every_call_is_drawn() {
    let drawn: HashSet<&str> = (0..3000).map(|i| draw::case(1, i).call.name).collect();
    assert_eq!(drawn.len(), CALLS.len());
}

#[test]
fn a_failing_case_is_shrunk() {
    let text = "fit_ar_lag:900:61x40:12:3:coloured:3:high1+short2";
    let case: Case = text.parse().expect("a case");
    let least = case.shrunk(|c| c.width >= 7 && c.height * c.number as usize >= 12);
    assert_eq!(least.to_string(), "fit_ar_lag:0:7x4:8:0:flat:3:none");

    let text = "fit_ar_lag:900:61x40@30x21+16+8:12:1:coloured:3:none";
    let case: Case = text.parse().expect("a case");
    let apart = |c: &Case| c.rectangle().left >= 2 && c.rectangle().width >= 3;
    let least = case.shrunk(|c| apart(c) && c.rectangle().height < c.height);
    let due = "fit_ar_lag:0:0x1@3x0+2+0:8:0:flat:0:none";
    assert_eq!(least.to_string(), due);
    let least = case.shrunk(|c| c.width >= 30);
    assert_eq!(least.to_string(), "fit_ar_lag:0:30x0:8:0:flat:0:none");
}

/// An answer is words or a destination that isn't as it was.
#[test]
fn every_call_answers() {
    let answers = |case: &Case| {
        let found = Comparison::new(case).raw;
        let written = found.planes != Input::new(case).destination;
        found.answer.is_ok_and(|words| written || !words.is_empty())
    };
    let cases: Vec<Case> = (0..600).map(|index| draw::case(1, index)).collect();
    for call in CALLS {
        let mut own = cases.iter().filter(|case| case.call.name == call.name);
        assert!(own.any(answers), "{}", call.name);
    }
}

/// Two sides that both say nothing don't agree.
#[test]
fn an_empty_answer_is_no_answer() {
    const NONE: Branches = Branches {
        all: &[],
        taken: |_, _| Vec::new(),
    };
    static SILENT: Call = Call::new(
        "silent",
        |_, _| Ok(Vec::new()),
        |_, _| Record::full(0, Vec::new()),
        |_, _| Vec::new(),
        NONE,
    );
    let mut case: Case = "quant_ar:0:0x0:8:0:flat:0:none".parse().expect("a case");
    assert!(Comparison::new(&case).agrees());
    case.call = &SILENT;
    let found = Comparison::new(&case);
    assert_eq!(found.raw, found.due);
    assert!(!found.agrees());
}

#[test]
fn questions_are_those_of_the_crate() {
    let asked: Vec<u32> = QUESTIONS.iter().map(|question| question.number).collect();
    let named: Vec<u32> = Refusal::ALL
        .iter()
        .map(|refusal| refusal.number())
        .collect();
    assert_eq!(asked, named);
}

/// What a record has beside its answer is 0, and of a refused one the answer as well.
#[test]
fn a_stray_field_is_found() {
    let record = |refusal, words: &[u64], unused: &[u64]| Record {
        refusal,
        words: words.to_vec(),
        unused: unused.to_vec(),
    };
    assert_eq!(record(0, &[1, 2], &[0, 0]).stray(), []);
    assert_eq!(record(0, &[1, 2], &[0, 3]).stray(), [3]);
    assert_eq!(record(5, &[0, 2], &[0, 0]).stray(), [2]);
}

/// The comment above a call in include/grain.h names the questions that the table puts to it.
#[test]
fn the_header_names_the_questions() {
    let header = include_str!("../../../include/grain.h");
    for call in CALLS {
        let (declared, _) = call.name.split_once('/').unwrap_or((call.name, ""));
        let name = match declared {
            "RandomRegister::next" => "grain_random_next",
            "grain_seed_for" => "grain_seed_for",
            other => &format!("grain_{other}"),
        };
        let (before, _) = header
            .split_once(&format!(" {name}("))
            .expect("a declaration");
        let (_, asked) = before.rsplit_once("Asked ").expect("a comment");
        let (asked, _) = asked.split_once('.').expect("its end");
        let put = QUESTIONS.iter().filter(|question| question.is_put_to(call));
        let numbers: Vec<String> = put.map(|question| question.number.to_string()).collect();
        let due = match &numbers[..] {
            [] => "nothing".into(),
            some => some.join(", "),
        };
        assert_eq!(asked, due, "{name}");
    }
}

/// A run that is too short to meet everything says what it missed.
#[test]
fn what_was_missed_is_named() {
    let mut tally = Tally::default();
    let case: Case = "quant_ar:0:0x0:8:0:flat:0:none".parse().expect("a case");
    tally.count(case.call, &Comparison::new(&case));
    assert_eq!(tally.total(), 1);
    let missed = tally.missed();
    assert!(missed.contains(&"fit_ar_lag: chroma unsolved".into()));
    assert!(missed.contains(&"denoise_frame: 12: no row".into()));
    assert!(missed.contains(&"film_grain_probe: rectangle: at no edge".into()));
    assert!(missed.contains(&"film_grain_probe: the outside changed".into()));
    assert!(!missed.contains(&"denoise_frame: the outside changed".into()));
    assert!(missed.contains(&"RandomRegister::next: refused with 9".into()));
}
