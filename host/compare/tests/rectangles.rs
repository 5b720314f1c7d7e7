//! The comparison of active rectangles: what is cut out is what should be, and the comparison finds whatever a library may
//! get wrong about a rectangle.

use compare::branches::Branches;
use compare::calls::{CALLS, Call, Raw};
use compare::case::Case;
use compare::draw;
use compare::input::{Input, Planes};
use compare::outcome::Comparison;
use compare::questions;
use compare::random::Random;
use compare::raw::Record;
use compare::rectangles::{self, crop, cut_out, outside, part, rules};
use grain::Rectangle;

fn row(name: &str) -> &'static Call {
    let mut rows = CALLS.iter();
    rows.find(|call| call.name == name).expect("a row")
}

const fn rectangle(left: usize, top: usize, width: usize, height: usize) -> Rectangle {
    Rectangle {
        left,
        top,
        width,
        height,
    }
}

#[test]
fn parts() {
    let plane: Vec<u16> = (0..15).collect();
    assert_eq!(crop(&plane, 5, rectangle(1, 1, 2, 2)), [6, 7, 11, 12]);
    assert_eq!(crop(&plane, 5, rectangle(0, 2, 5, 1)), [10, 11, 12, 13, 14]);
    assert_eq!(crop(&[], 0, rectangle(3, 5, 0, 0)), []);

    let even = rectangle(2, 6, 3, 5);
    for format in 0..4 {
        assert_eq!(part(format, even, 0), even);
    }
    for chroma in [1, 2] {
        let sizes = [0, 1, 2, 3].map(|format| part(format, even, chroma));
        assert_eq!((sizes[0].width, sizes[0].height), (0, 0));
        assert_eq!(sizes[1], rectangle(1, 3, 2, 3));
        assert_eq!(sizes[2], rectangle(1, 6, 2, 5));
        assert_eq!(sizes[3], even);
    }
}

/// Drawn cases of calls on a frame, their planes left as they were drawn.
fn cases() -> impl Iterator<Item = Case> {
    let drawn = (0..6_000).map(|index| draw::case(5, index));
    let framed = drawn.filter(|case| case.call.asks.frame);
    framed.map(|case| Case {
        faults: Vec::new(),
        ..case
    })
}

fn same(a: &Input, b: &Input) -> bool {
    a.frames == b.frames && a.denoised == b.denoised
}

/// A frame that was drawn around a picture has the picture in its rectangle, and nothing of it anywhere else.
#[test]
fn the_picture_is_cut_out() {
    let (mut pictures, mut changed) = (0, 0);
    for case in cases() {
        let mut input = Input::new(&case);
        if questions::first_failed(case.call, &input).is_some() {
            continue;
        }
        let Some(part) = cut_out(&input) else {
            continue;
        };
        let picture = Input::new(&Case {
            width: part.width,
            height: part.height,
            active: None,
            ..case.clone()
        });
        assert!(same(&part, &picture), "{case}");
        pictures += 1;

        let before = input.clone();
        let samples = outside::change(&mut Random::new(1), case.call, &mut input);
        let again = cut_out(&input).expect("a part");
        assert!(same(&again, &part), "{case}");
        let others = |plane| {
            let pairs = input.plane(plane).iter().zip(before.plane(plane));
            pairs.filter(|(a, b)| a != b).count()
        };
        let found: usize = case.call.lent.iter().map(|&plane| others(plane)).sum();
        let inside: usize = case.call.lent.iter().map(|&p| part.plane(p).len()).sum();
        let all: usize = case.call.lent.iter().map(|&p| input.plane(p).len()).sum();
        assert_eq!((found, samples), (all - inside, all - inside), "{case}");
        assert_eq!(questions::first_failed(case.call, &input), None, "{case}");
        changed += samples;
    }
    assert!(pictures > 500 && changed > 10_000, "{pictures}, {changed}");
}

/// What the library answers of another rectangle.
fn of(name: &str, input: &Input, out: &mut Planes, active: Rectangle) -> Record {
    let other = Input {
        active,
        ..input.clone()
    };
    (row(name).raw)(&other, out)
}

fn whole(input: &Input) -> Rectangle {
    Rectangle::whole(input.width, input.height)
}

fn accepted(name: &str, input: &Input) -> bool {
    questions::first_failed(row(name), input).is_none()
}

/// Whether a rectangle that breaks this rule alone is all that is wrong.
fn breaks(name: &str, input: &Input, rule: &rules::Rule) -> bool {
    let sound = Input {
        active: whole(input),
        ..input.clone()
    };
    rules::alone(input) == Some(rule.name) && accepted(name, &sound)
}

const PROFILE: &str = "noise_estimate";
const CORRELATION: &str = "fit_chroma_corr";
const DENOISER: &str = "denoise_frame";

/// Libraries that get one thing wrong: the call, what it is, and what it does.
const WRONG: [(&str, &str, Raw); 14] = [
    (PROFILE, "no rectangle is looked at", |input, out| {
        let active = match rules::broken(input) {
            true => input.active,
            false => whole(input),
        };
        of(PROFILE, input, out, active)
    }),
    (
        CORRELATION,
        "the frame's next column is averaged",
        |input, out| {
            let Rectangle { left, width, .. } = input.active;
            let goes_on = accepted(CORRELATION, input) && left + width < input.width;
            let more =
                usize::from(goes_on && width % 2 == 1 && rectangles::halved(input.format)[0]);
            let active = Rectangle {
                width: width + more,
                ..input.active
            };
            of(CORRELATION, input, out, active)
        },
    ),
    (
        CORRELATION,
        "the frame's next row is averaged",
        |input, out| {
            let Rectangle { top, height, .. } = input.active;
            let goes_on = accepted(CORRELATION, input) && top + height < input.height;
            let more =
                usize::from(goes_on && height % 2 == 1 && rectangles::halved(input.format)[1]);
            let active = Rectangle {
                height: height + more,
                ..input.active
            };
            of(CORRELATION, input, out, active)
        },
    ),
    (PROFILE, "an odd end is refused", |input, out| {
        let odd = input.format == 1 && input.active.width % 2 == 1;
        match odd && accepted(PROFILE, input) {
            true => of(PROFILE, input, out, Rectangle::whole(0, 0)),
            false => (row(PROFILE).raw)(input, out),
        }
    }),
    (PROFILE, "an odd row of 4:2:2 is refused", |input, out| {
        let odd = input.format == 2 && input.active.top % 2 == 1;
        match odd && accepted(PROFILE, input) {
            true => of(PROFILE, input, out, Rectangle::whole(0, 0)),
            false => (row(PROFILE).raw)(input, out),
        }
    }),
    (PROFILE, "an odd column of 4:2:2 is taken", |input, out| {
        let odd = breaks(PROFILE, input, &rules::ODD_COLUMN_422);
        let left = input.active.left - usize::from(odd);
        let active = Rectangle {
            left,
            ..input.active
        };
        of(PROFILE, input, out, active)
    }),
    (
        PROFILE,
        "an empty rectangle is taken",
        |input, out| match breaks(PROFILE, input, &rules::NO_ROW) {
            true => Record::full(0, vec![0; 51]),
            false => (row(PROFILE).raw)(input, out),
        },
    ),
    (
        PROFILE,
        "one column past the frame is taken",
        |input, out| {
            let Rectangle { left, width, .. } = input.active;
            let past = left.checked_add(width) == input.width.checked_add(1);
            let one = past && breaks(PROFILE, input, &rules::PAST_COLUMNS);
            let active = Rectangle {
                width: width - usize::from(one),
                ..input.active
            };
            of(PROFILE, input, out, active)
        },
    ),
    (PROFILE, "sums wrap", |input, out| {
        let Rectangle { top, height, .. } = input.active;
        let wraps = top.checked_add(height).is_none() && top.wrapping_add(height) <= input.height;
        match wraps && breaks(PROFILE, input, &rules::PAST_ROWS) {
            true => of(PROFILE, input, out, whole(input)),
            false => (row(PROFILE).raw)(input, out),
        }
    }),
    (PROFILE, "planes are asked about first", |input, out| {
        let record = (row(PROFILE).raw)(input, out);
        match record.refusal == 12 && !questions::passed(5, row(PROFILE), input) {
            true => of(PROFILE, input, out, whole(input)),
            false => record,
        }
    }),
    (
        PROFILE,
        "the rectangle is asked about first",
        |input, out| {
            let record = (row(PROFILE).raw)(input, out);
            match record.refusal == 4 && rules::broken(input) {
                true => Record {
                    refusal: 12,
                    ..record
                },
                false => record,
            }
        },
    ),
    (
        PROFILE,
        "samples outside are not asked about",
        |input, out| {
            let record = (row(PROFILE).raw)(input, out);
            match (record.refusal == 6).then(|| cut_out(input)).flatten() {
                Some(part) => (row(PROFILE).raw)(&part, out),
                None => record,
            }
        },
    ),
    (DENOISER, "the rectangle alone is denoised", |input, out| {
        let before = out.clone();
        let record = (row(DENOISER).raw)(input, out);
        if record.refusal == 0 {
            let Rectangle { left, width, .. } = input.active;
            for (at, (to, old)) in out[0].iter_mut().zip(&before[0]).enumerate() {
                if !(left..left + width).contains(&(at % input.width)) {
                    *to = *old;
                }
            }
        }
        record
    }),
    (DENOISER, "any rectangle is denoised", |input, out| {
        of(DENOISER, input, out, whole(input))
    }),
];

/// A row of the table with another library behind the C interface.
fn wrong(of: &'static Call, name: &'static str, raw: Raw) -> &'static Call {
    const NONE: Branches = Branches {
        all: &[],
        taken: |_, _| Vec::new(),
    };
    Box::leak(Box::new(Call {
        asks: of.asks,
        lent: of.lent,
        destinations: of.destinations,
        number: of.number,
        added: of.added,
        ..Call::new(name, of.ours, raw, of.rust, NONE)
    }))
}

fn differs(case: &Case) -> bool {
    !Comparison::new(case).agrees()
}

#[test]
fn a_wrong_library_is_found() {
    let cases: Vec<Case> = (0..30_000).map(|index| draw::case(5, index)).collect();
    for (of, name, raw) in WRONG {
        let call = wrong(row(of), name, raw);
        let own = cases.iter().filter(|case| case.call.name == of);
        let mut turned = own.map(|case| Case {
            call,
            ..case.clone()
        });
        let found = turned.find(differs);
        let least = found.map(|case| case.shrunk(differs));
        assert!(least.is_some_and(|case| differs(&case)), "{name}");
    }
}

/// One that looks outside, and is right as long as the outside is black: it is found once the outside is changed.
#[test]
fn a_look_outside_is_found() {
    let call = wrong(
        row(PROFILE),
        "the first sample is looked at",
        |input, out| {
            let mut record = (row(PROFILE).raw)(input, out);
            let inside = input.active.left == 0 && input.active.top == 0;
            if record.refusal == 0 && !inside && input.frames[0].y[0] > 0 {
                record.words[0] += 1;
            }
            record
        },
    );
    let own = cases().filter(|case| case.call.name == PROFILE);
    let mut turned = own.map(|case| Comparison::new(&Case { call, ..case }));
    assert!(turned.any(|found| found.raw == found.due && !found.agrees()));
}
