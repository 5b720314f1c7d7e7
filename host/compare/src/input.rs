//! All that a call is given, made from its case.

use crate::case::{Case, Fault};
use crate::headers::{self, Header};
use crate::noise::{self, Noise, Size};
use crate::random::Random;
use crate::rectangles::{self, outside};
use crate::system::System;
use grain::Rectangle;
use oracle::{ChromaFormat, YuvFrame};

/// A plane of the input: of which frame, denoised or not, and which component (0 Y, 1 Cb, 2 Cr).
#[derive(Debug, Clone, Copy, PartialEq, Eq)]
pub struct Plane {
    pub frame: usize,
    pub denoised: bool,
    pub component: usize,
}

/// The three planes of a destination. A register stands in the first, alone, and so do a header's bytes, one a sample.
pub type Planes = [Vec<u16>; 3];

#[derive(Clone)]
pub struct Input {
    pub width: usize,
    pub height: usize,
    pub active: Rectangle,
    pub depth: u8,
    pub format: u8,
    pub number: u64,
    pub float: f64,
    pub frames: [YuvFrame; 2],
    pub denoised: [YuvFrame; 2],
    pub destination: Planes,
    pub system: System,
    pub header: Header,
}

/// The largest sample. 16 bits stand for a call without a depth, which takes any.
fn largest(depth: u8) -> i32 {
    match depth {
        8 | 10 | 12 | 16 => (1 << depth) - 1,
        _ => 255,
    }
}

/// The size of a component's plane, of a luma plane of this size.
pub fn plane_size(format: u8, (w, h): Size, component: usize) -> Size {
    match (component, format) {
        (0, _) => (w, h),
        (_, 0) => (0, 0),
        (_, 1) => (w.div_ceil(2), h.div_ceil(2)),
        (_, 2) => (w.div_ceil(2), h),
        _ => (w, h),
    }
}

/// Sizes above 4,096 are refused before any plane is looked at, so their planes may stay small.
fn built(side: usize) -> usize {
    side.min(4100)
}

fn components(plane: &mut YuvFrame) -> [&mut Vec<u16>; 3] {
    [&mut plane.y, &mut plane.u, &mut plane.v]
}

impl Input {
    pub fn new(case: &Case) -> Input {
        let mut random = Random::new(case.seed);
        let size = (built(case.width), built(case.height));
        let empty = YuvFrame {
            width: size.0 as u32,
            height: size.1 as u32,
            bit_depth: case.depth,
            format: match case.format {
                0 => ChromaFormat::Monochrome,
                1 => ChromaFormat::Yuv420,
                2 => ChromaFormat::Yuv422,
                _ => ChromaFormat::Yuv444,
            },
            y: Vec::new(),
            u: Vec::new(),
            v: Vec::new(),
        };
        let mut input = Input {
            width: case.width,
            height: case.height,
            active: case.rectangle(),
            depth: case.depth,
            format: case.format,
            number: case.number,
            float: (case.call.float)(&mut random),
            frames: [empty.clone(), empty.clone()],
            denoised: [empty.clone(), empty],
            destination: Planes::default(),
            system: System::new(&mut random, case.call.asks.order),
            header: (case.call.header)(&mut random, case.format, case.number),
        };
        let framed = size == (case.width, case.height) && !rectangles::rules::broken(&input);
        let picture = match framed {
            true => (input.active.width, input.active.height),
            false => size,
        };
        input.fill(case, &mut random, picture);
        for component in 0..case.call.destinations {
            let (w, h) = plane_size(case.format, size, component);
            input.destination[component] = (0..w * h).map(|_| random.bits() as u16).collect();
        }
        if case.call.asks.bits {
            input.destination[0] = vec![random.bits() as u16];
        }
        if case.call.asks.header {
            let bytes = headers::draw::destination(&mut random, &input.header);
            input.destination[0] = bytes.into_iter().map(u16::from).collect();
        }
        if picture != size {
            input.surround(case, &mut random);
        }
        for &fault in &case.faults {
            input.spoil(case, &mut random, fault);
        }
        input
    }

    pub fn plane(&self, plane: Plane) -> &[u16] {
        let frames = if plane.denoised {
            &self.denoised
        } else {
            &self.frames
        };
        let frame = &frames[plane.frame];
        [&frame.y, &frame.u, &frame.v][plane.component]
    }

    pub fn plane_mut(&mut self, plane: Plane) -> &mut Vec<u16> {
        let frames = if plane.denoised {
            &mut self.denoised
        } else {
            &mut self.frames
        };
        let [y, cb, cr] = components(&mut frames[plane.frame]);
        [y, cb, cr]
            .into_iter()
            .nth(plane.component)
            .expect("a component")
    }

    /// The planes that the call is lent, of a picture of this size.
    fn fill(&mut self, case: &Case, random: &mut Random, size: Size) {
        let lent = case.call.lent;
        let max = largest(case.depth);
        let mut luma = Vec::new();
        for component in 0..3 {
            if !lent.iter().any(|p| p.component == component) {
                continue;
            }
            let (w, h) = plane_size(case.format, size, component);
            let mut first = noise::noise(case.noise, random, (w, h), max);
            if component > 0 && case.noise == Noise::Coupled && !luma.is_empty() {
                follow(random, &mut first, (w, h), &luma, size, case.format, max);
            }
            for frame in 0..2 {
                if !lent.iter().any(|p| p.frame == frame) {
                    continue;
                }
                let own = match frame {
                    0 => first.clone(),
                    _ => noise::second(case.noise, random, &first, (w, h), max),
                };
                let (src, mut den) = noise::planes(random, &own, (w, h), component > 0, max);
                if case.noise == Noise::Denoised {
                    oracle::reach::denoise_plane(&src, &mut den, w, h);
                }
                for (denoised, plane) in [(false, src), (true, den)] {
                    let place = Plane {
                        frame,
                        denoised,
                        component,
                    };
                    if lent.contains(&place) {
                        *self.plane_mut(place) = plane;
                    }
                }
            }
            if component == 0 {
                luma = first;
            }
        }
    }

    /// Puts each lent plane into one of the frame's size, where the rectangle is. Around it are black bars, or any samples.
    fn surround(&mut self, case: &Case, random: &mut Random) {
        let largest = random.pick(&[0, largest(case.depth)]);
        for &place in case.call.lent {
            let size = plane_size(self.format, (self.width, self.height), place.component);
            let part = rectangles::part(self.format, self.active, place.component);
            let plane = self.plane_mut(place);
            *plane = outside::surrounded(random, plane, size, part, largest);
        }
    }

    fn spoil(&mut self, case: &Case, random: &mut Random, fault: Fault) {
        let (Fault::Short(at) | Fault::Long(at) | Fault::High(at)) = fault;
        let (lent, destinations) = (case.call.lent, case.call.destinations);
        if lent.len() + destinations == 0 {
            return;
        }
        let at = at % (lent.len() + destinations);
        let plane = match lent.get(at) {
            Some(&place) => self.plane_mut(place),
            None => &mut self.destination[at - lent.len()],
        };
        match fault {
            Fault::Short(_) => _ = plane.pop(),
            Fault::Long(_) => plane.push(0),
            Fault::High(_) if plane.is_empty() => {}
            Fault::High(_) => {
                let place = random.below(plane.len());
                let least = largest(case.depth).min(65534) + 1;
                let any = random.between(least, 65535);
                plane[place] = random.pick(&[least, any]) as u16;
            }
        }
    }
}

/// Chroma noise that is a part of luma's average, and something of its own.
fn follow(
    random: &mut Random,
    noise: &mut [i32],
    (w, h): Size,
    luma: &[i32],
    (lw, lh): Size,
    format: u8,
    max: i32,
) {
    let (down, along) = (usize::from(format == 1), usize::from(format <= 2));
    let (any, steep) = (random.unit() * 3.0 - 1.5, random.pick(&noise::STEEP));
    let part = random.pick(&[any, steep]);
    for r in 0..h {
        for c in 0..w {
            let at = |i: usize, j: usize| {
                let row = ((r << down) + i).min(lh - 1);
                luma[row * lw + ((c << along) + j).min(lw - 1)]
            };
            let sum = at(0, 0) + at(down, 0) + at(0, along) + at(down, along);
            let own = noise[r * w + c] / 4;
            noise[r * w + c] =
                ((f64::from(sum) / 4.0 * part).round() as i32 + own).clamp(-max, max);
        }
    }
}
