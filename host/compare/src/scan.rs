//! A frame pair as a scan has it, for timing: a gradient under noise of about four 8-bit steps, and its denoised copies.

use crate::floats;
use crate::headers::Header;
use crate::input::{Input, plane_size};
use crate::noise::Size;
use crate::random::Random;
use crate::system::System;
use grain::Rectangle;
use oracle::{ChromaFormat, YuvFrame, reach};

fn frame(random: &mut Random, (width, height): Size, depth: u8) -> YuvFrame {
    let step = 1 << (depth - 8);
    let mut plane = |component: usize| -> Vec<u16> {
        let (w, h) = plane_size(1, (width, height), component);
        let sample = |at: usize| {
            let level = (32 + 190 * (at % w + at / w) / (w + h)) as i32 * step;
            let noise: i32 = (0..4).map(|_| random.between(-4 * step, 4 * step)).sum();
            (level + noise / 2) as u16
        };
        (0..w * h).map(sample).collect()
    };
    YuvFrame {
        width: width as u32,
        height: height as u32,
        bit_depth: depth,
        format: ChromaFormat::Yuv420,
        y: plane(0),
        u: plane(1),
        v: plane(2),
    }
}

/// Two 4:2:0 frames with their copies, destinations of their size, a coefficient, and equations of a fit.
pub fn pair(size: Size, depth: u8) -> Input {
    let mut random = Random::new(1);
    let frames = [0, 1].map(|_| frame(&mut random, size, depth));
    let denoised = [0, 1].map(|i| reach::denoise_frame(&frames[i]));
    Input {
        width: size.0,
        height: size.1,
        active: Rectangle::whole(size.0, size.1),
        depth,
        format: 1,
        number: 0,
        float: floats::coefficient(&mut random),
        destination: [&frames[0].y, &frames[0].u, &frames[0].v].map(|plane| vec![0; plane.len()]),
        system: System::normal(&mut random),
        header: Header::default(),
        frames,
        denoised,
    }
}
