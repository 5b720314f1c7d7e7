//! How a run draws its cases.

use crate::calls::CALLS;
use crate::case::{Case, Fault};
use crate::noise::{Noise, Size};
use crate::random::Random;
use crate::rectangles;

/// Sides about each lag, each block of the sums and each power of two.
const SHORT: [usize; 16] = [1, 1, 2, 3, 4, 5, 6, 7, 8, 9, 13, 16, 17, 31, 32, 33];
const LONG: [usize; 14] = [
    63, 64, 65, 127, 129, 255, 256, 257, 511, 513, 1025, 2049, 4095, 4096,
];
const REFUSED: [usize; 5] = [0, 4097, 4098, 1 << 32, usize::MAX];

fn size(random: &mut Random) -> Size {
    let short = |random: &mut Random| random.pick(&SHORT);
    let (w, h) = match random.below(100) {
        0..60 => (short(random), short(random)),
        60..82 => (1 + random.below(80), 1 + random.below(80)),
        82..92 => (random.pick(&LONG), 1 + random.below(8)),
        92..94 => (64 + random.below(200), 64 + random.below(200)),
        94..96 => {
            let w = 1 + random.below(4096);
            (w, 1 + random.below(40_000 / w))
        }
        _ => (random.pick(&REFUSED), random.below(9)),
    };
    if random.once_in(2) { (w, h) } else { (h, w) }
}

/// Sizes of a multiple of 1,024 samples, in luma or in chroma.
const THOUSANDS: [Size; 6] = [(32, 32), (64, 16), (1024, 1), (64, 64), (96, 32), (512, 20)];

fn fault(random: &mut Random) -> Fault {
    let plane = random.below(9);
    random.pick(&[Fault::Short(plane), Fault::Long(plane), Fault::High(plane)])
}

/// Case `index` of the run of this seed.
pub fn case(seed: u64, index: u64) -> Case {
    let mut random = Random::new(seed ^ (index << 20));
    let mut at = random.below(CALLS.iter().map(|call| call.share).sum());
    let call = CALLS
        .iter()
        .find(|call| match at.checked_sub(call.share) {
            Some(rest) => {
                at = rest;
                false
            }
            None => true,
        })
        .expect("shares add up");
    let number = (call.number)(&mut random);
    let seed = random.bits() >> 40;
    let noise = random.pick(&Noise::ALL);
    let (width, height) = match noise {
        _ if !call.asks.size => (0, 0),
        Noise::Halves => random.pick(&THOUSANDS),
        _ => size(&mut random),
    };
    let mut case = Case {
        call,
        seed,
        width,
        height,
        active: None,
        depth: match random.below(25) {
            0 => random.pick(&[0, 7, 9, 11, 13, 16, 255]),
            _ if !call.asks.depth => random.pick(&[8, 16]),
            _ => random.pick(&[8, 10, 12]),
        },
        format: match random.below(40) {
            0 if call.asks.format => random.pick(&[4, 5, 128, 255]),
            _ if !call.asks.format => 0,
            _ => random.below(4) as u8,
        },
        noise,
        number,
        faults: match random.below(20) {
            0 => vec![fault(&mut random)],
            1 => vec![fault(&mut random), fault(&mut random)],
            _ => Vec::new(),
        },
    };
    if call.asks.frame {
        rectangles::draw::place(&mut random, &mut case);
    }
    case
}

/// The cases that every run has besides: the largest planes.
pub fn largest(fits: bool) -> Vec<Case> {
    let mut list = vec![
        "denoise_plane:1:4096x4096:16:0:extreme:0:none",
        "denoise_frame:2:4096x4096:12:1:coloured:0:none",
        "plane_sigma16:3:4096x4096:12:0:extreme:0:none",
        "noise_estimate:4:4096x4096:10:1:denoised:0:none",
        "noise_estimate:5:4096x4096:12:1:extreme:0:high4",
        "lag_h_rho:6:4096x4096:12:0:largest:3:none",
        "film_grain_probe:7:4096x4096:12:0:extreme:0:none",
        "chroma_noise_gate/cr:8:4096x4096:12:1:signs:8:none",
        "fit_chroma_corr:9:4096x4096:12:1:largest:0:none",
        "fit_ar_lag:10:4096x7:12:1:extreme:3:none",
        "fit_ar_lag:11:7x4096:12:3:extreme:3:none",
        "fit_ar_lag:12:1023x515:10:2:coupled:3:none",
        "fit_ar_lag:13:4097x4096:8:0:flat:1:none",
        "noise_estimate:17:4096x4096@4095x2047+0+1024:10:1:denoised:0:none",
        "fit_chroma_corr:18:4096x4096@2047x4095+2048+0:12:2:largest:0:none",
        "fit_ar_lag:19:1023x515@1021x301+2+106:12:1:extreme:3:none",
    ];
    if fits {
        list.extend([
            "fit_ar_lag:14:4096x4096:12:1:extreme:3:none",
            "fit_ar_lag:15:4096x4096:8:3:coloured:2:none",
            "fit_ar_lag:16:4096x4096:10:2:denoised:1:none",
        ]);
    }
    let parse = |text: &str| text.parse().expect("a case");
    list.into_iter().map(parse).collect()
}
