//! The table of rectangles.

use super::{Row, best, milliseconds, ours, rows};
use compare::input::{Input, Planes};
use compare::noise::Size;
use compare::{rectangles, scan};
use grain::Rectangle;
use std::cell::RefCell;

/// A letterboxed film, the middle half of each side, and that of a frame that no cache holds: the frame, and where in it.
const PARTS: [(Size, Rectangle); 3] = [
    ((1920, 1080), part((0, 138), (1920, 804))),
    ((1920, 1080), part((480, 270), (960, 540))),
    ((4096, 4096), part((1024, 1024), (2048, 2048))),
];

const fn part((left, top): (usize, usize), (width, height): Size) -> Rectangle {
    Rectangle {
        left,
        top,
        width,
        height,
    }
}

/// So few samples that there is little to do but to ask the questions.
const FEW: Rectangle = Rectangle::whole(2, 2);

fn keeps_to_the_rectangle(row: &Row) -> bool {
    let mut calls = row.calls.iter();
    calls.all(|(call, _)| call.keeps_to_the_rectangle())
}

/// Each call on a part of a frame, beside the call on the frame that the part cuts out.
pub fn tables(depth: u8) {
    println!("\n## Rectangles, {depth} bits\n");
    println!(
        "Ours alone: a call with an active rectangle, and the call on the frame that it cuts out, of the same samples. \
         Question 6 is about every sample lent, those outside the rectangle too: beside each time stands that of the same \
         call with a rectangle of 2 × 2, which is that question and little else. The last ratio is of the times less these. \
         It is above 1 where that question has put the rest of the frame into the cache, and where the rows of a rectangle \
         lie apart, being narrower than the frame."
    );
    for (size, part) in PARTS {
        table(size, part, depth);
    }
}

fn table(size: Size, part: Rectangle, depth: u8) {
    let frame = RefCell::new(Input {
        active: part,
        ..scan::pair(size, depth)
    });
    let own = rectangles::cut_out(&frame.borrow()).expect("a part");
    let own = RefCell::new(own);
    println!("\n{part} in {} × {}:\n", size.0, size.1);
    println!(
        "| call | rectangle, ms | 2 × 2 in its frame, ms | cut out, ms | 2 × 2 in that, ms | ratio | less 2 × 2 |"
    );
    println!("|---|---:|---:|---:|---:|---:|---:|");
    for row in rows().iter().filter(|row| keeps_to_the_rectangle(row)) {
        let call = |input: &RefCell<Input>, active| {
            input.borrow_mut().active = active;
            ours(row, input, &mut Planes::default());
        };
        let times = best(&mut [
            &mut || call(&frame, part),
            &mut || call(&frame, FEW),
            &mut || call(&own, Rectangle::whole(part.width, part.height)),
            &mut || call(&own, FEW),
        ]);
        let [a, few, b, own_few] = times.map(|time| time.as_secs_f64());
        let shown = times.map(milliseconds).join(" | ");
        let (ratio, less) = (a / b, (a - few) / (b - own_few));
        println!("| {} | {shown} | {ratio:.2} | {less:.2} |", row.name);
    }
}
