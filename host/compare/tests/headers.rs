//! The comparison of headers: it finds whatever a writer may get wrong, and the rules are the library's at every place of
//! a record.

use compare::branches::Branches;
use compare::calls::{CALLS, Call, Raw};
use compare::case::Case;
use compare::draw;
use compare::headers::{self, Header, bits, fields};
use compare::input::{Input, Planes};
use compare::outcome::Comparison;
use compare::questions::Asks;
use compare::random::Random;
use compare::raw::Record;
use grain::{Format, Refusal, write_film_grain_params};

fn row() -> &'static Call {
    let mut rows = CALLS.iter();
    rows.find(|call| call.name == "write_film_grain_params")
        .expect("a row")
}

/// What the library does, and whether it accepts.
fn right(input: &Input, out: &mut Planes) -> (Record, bool) {
    let record = (row().raw)(input, out);
    let accepted = record.refusal == 0;
    (record, accepted)
}

/// The row of headers with another writer behind the C interface.
const fn wrong(name: &'static str, raw: Raw) -> Call {
    const NONE: Branches = Branches {
        all: &[],
        taken: |_, _| Vec::new(),
    };
    let (ours, rust) = (
        |input: &Input, out: &mut Planes| (row().ours)(input, out),
        |input: &Input, out: &mut Planes| (row().rust)(input, out),
    );
    Call {
        asks: Asks {
            format: true,
            header: true,
            ..Asks::NOTHING
        },
        header: headers::draw::record,
        ..Call::new(name, ours, raw, rust, NONE)
    }
}

static WRONG: &[Call] = &[
    wrong("a bit is another", |input, out| {
        let (record, accepted) = right(input, out);
        if accepted {
            out[0][0] ^= 0x80;
        }
        record
    }),
    wrong("the fill isn't zeros", |input, out| {
        let (record, accepted) = right(input, out);
        if accepted && record.words[0] % 8 != 0 {
            out[0][record.words[0] as usize / 8] |= 1;
        }
        record
    }),
    wrong("a byte past the header is another", |input, out| {
        let (record, accepted) = right(input, out);
        let past = record.words[0].div_ceil(8) as usize;
        if accepted && past < out[0].len() {
            out[0][past] ^= 1;
        }
        record
    }),
    wrong("the fill is counted", |input, out| {
        let (mut record, _) = right(input, out);
        record.words[0] = record.words[0].next_multiple_of(8);
        record
    }),
    wrong("a limit is not known", |input, out| {
        let (record, _) = right(input, out);
        match headers::rules::alone(&input.header) {
            Some("cr_offset above 511") => Record::full(0, vec![1]),
            _ => record,
        }
    }),
    wrong("predicted is looked at", |input, out| {
        let before = out.clone();
        let (record, accepted) = right(input, out);
        if accepted && input.header.params.predicted {
            *out = before;
            return Record::full(10, vec![0]);
        }
        record
    }),
    wrong("room is asked for first", |input, out| {
        let (record, _) = right(input, out);
        match record.refusal == 10 && out[0].is_empty() {
            true => Record::full(11, vec![0]),
            false => record,
        }
    }),
    wrong("a refused call writes", |input, out| {
        let (record, accepted) = right(input, out);
        if let (false, Some(byte)) = (accepted, out[0].first_mut()) {
            *byte ^= 1;
        }
        record
    }),
    wrong("a refused call has bits", |input, out| {
        let (mut record, accepted) = right(input, out);
        record.words[0] += u64::from(!accepted);
        record
    }),
];

fn cases() -> impl Iterator<Item = Case> {
    let drawn = (0..20_000).map(|index| draw::case(5, index));
    drawn.filter(|case| case.call.name == row().name)
}

#[test]
fn a_wrong_writer_is_found() {
    let differs = |case: &Case| !Comparison::new(case).agrees();
    assert!(!cases().any(|case| differs(&case)));
    for call in WRONG {
        let mut turned = cases().map(|case| Case { call, ..case });
        let found = turned.find(differs);
        let least = found.map(|case| case.shrunk(differs));
        assert!(least.is_some_and(|case| differs(&case)), "{}", call.name);
    }
}

/// Numbers about every limit, at every place of records of every kind: each is refused or written as the rules have it.
#[test]
fn every_place() {
    let (mut written, mut refused) = (0, 0);
    for seed in 0..32 {
        let format = (seed % 4) as u8;
        let Header { params, inter, .. } = headers::draw::record(&mut Random::new(seed), format, 0);
        let mut copy = params;
        for (at, field) in fields::all(&mut copy).iter().enumerate() {
            for place in 0..field.places() {
                let old = field.get(place);
                let near = [old.wrapping_sub(1), old.wrapping_add(1)];
                let edges = [255, 256, 511, 512, u16::MAX];
                for number in (0..=16).chain(near).chain(edges) {
                    let mut params = params;
                    fields::all(&mut params)[at].put(place, number);
                    match holds(&Header::new(params, inter, format)) {
                        true => written += 1,
                        false => refused += 1,
                    }
                }
            }
        }
    }
    assert!(written > 10_000 && refused > 10_000, "{written}, {refused}");
}

/// Whether a header is written; that it is refused otherwise, and written as it should be, is asserted.
fn holds(header: &Header) -> bool {
    let format = Format::try_from(header.format).expect("a format");
    let due = bits::packed(&header.bits);
    let mut dst = vec![0xff; due.len()];
    let answer = write_film_grain_params(&header.params, header.frame(), format, &mut dst);
    let kept = !header.bits.is_empty();
    match kept {
        true => assert_eq!((answer, dst), (Ok(header.bits.len()), due), "{header:?}"),
        false => assert_eq!(answer, Err(Refusal::HeaderField), "{header:?}"),
    }
    kept
}
