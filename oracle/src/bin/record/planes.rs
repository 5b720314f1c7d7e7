//! The planes of a recorded call: crates/cases/src/planes.rt and sample.rt, in Rust.
use crate::draws::{next, start};

/// The numbers that a call on planes is made from.
#[derive(Clone, Copy, Default)]
pub struct Case {
    /// The kind of noise, and 16 times the kind of level.
    pub kind: u64,
    /// Of 16 noises, how many are those of the first pair.
    pub share: u64,
    pub seed: u32,
    pub width: usize,
    pub height: usize,
    /// 16 where the call takes none.
    pub depth: u64,
    pub format: u64,
    /// 0; or 8, 16 or 24 and a plane (1 to 3 source, 4 to 6 denoised) that is a sample short, or a sample long, or has
    /// one too high.
    pub fault: u64,
    /// A lag, or a sigma16.
    pub argument: u64,
}

/// A source plane and its denoised plane, as they are lent.
#[derive(Clone)]
pub struct Pair {
    pub src: Vec<u16>,
    pub den: Vec<u16>,
}

fn is_up(kind: u64, column: u64, draw: u32) -> bool {
    match kind {
        4 | 10 | 13 => true,
        6 | 11 => column.is_multiple_of(2),
        7 => (column / 8).is_multiple_of(2),
        8 => (column / 16).is_multiple_of(2),
        12 => (0x5a3c_96e1 / (1 + column % 31)).is_multiple_of(2),
        _ => draw < 0x8000_0000,
    }
}

fn size_of(kind: u64, top: u16, column: u64, draw: u32) -> u16 {
    let rare = (draw / 256).is_multiple_of(64);
    match kind {
        0 => (draw / 256) as u16 & (top >> 5),
        1 => (draw / 256) as u16 & top,
        3 | 10 => top,
        4 | 5 => 1,
        6..=8 => 2,
        9 => u16::from(rare),
        11 => 2 - u16::from(rare),
        12 => 5,
        13 => (column % 8) as u16,
        _ => 0,
    }
}

fn level_of(kind: u64, top: u16, rises: bool, own: u32) -> u16 {
    if kind % 16 == 3 || kind % 16 == 10 {
        return if rises { 0 } else { top };
    }
    match kind / 16 {
        0 => (own / 65536) as u16 & top,
        1 => top / 2,
        _ => (own / 65536) as u16 & (top >> 4),
    }
}

impl Case {
    pub fn luma(&self) -> usize {
        self.width * self.height
    }

    /// "Chroma size is 0×0 for 0; width (w+1)>>1 for 1 and 2; height (h+1)>>1 for 1; else as luma."
    pub fn chroma_size(&self) -> (usize, usize) {
        let half = |x: usize| (x + 1) >> 1;
        match self.format {
            0 => (0, 0),
            1 => (half(self.width), half(self.height)),
            2 => (half(self.width), self.height),
            _ => (self.width, self.height),
        }
    }

    pub fn chroma(&self) -> usize {
        let (w, h) = self.chroma_size();
        w * h
    }

    fn top(&self) -> u16 {
        match self.depth {
            16 => 65535,
            12 => 4095,
            10 => 1023,
            _ => 255,
        }
    }

    /// How many samples of a plane are lent.
    pub fn lent(&self, samples: usize, plane: u64) -> usize {
        if self.fault == 8 + plane && samples > 0 {
            samples - 1
        } else if self.fault == 16 + plane {
            samples + 1
        } else {
            samples
        }
    }

    fn pair(&self, number: u32, samples: usize, width: usize) -> Pair {
        assert!(samples < 8256, "the program has room for no more");
        let (noise, top) = (self.kind % 16, self.top());
        let (mut common, mut own) = (start(self.seed, 0), start(self.seed, number));
        let (mut src, mut den) = (Vec::new(), Vec::new());
        for i in 0..=samples {
            let column = if width == 0 { 0 } else { (i % width) as u64 };
            common = next(common);
            own = next(own);
            let shared = number == 1 || u64::from(own % 16) < self.share;
            let draw = if shared { common } else { own };
            let rises = is_up(noise, column, draw);
            let mut size = size_of(noise, top, column, draw);
            if number == 1 && self.kind / 16 == 3 {
                size >>= 3;
            }
            let level = level_of(self.kind, top, rises, own);
            den.push(level);
            src.push(if rises {
                top.min(level.saturating_add(size))
            } else {
                level.saturating_sub(size)
            });
        }
        let plane = u64::from(number);
        for (samples_of, p) in [(&mut src, plane), (&mut den, plane + 3)] {
            if self.fault == 24 + p {
                samples_of[samples / 2] = match self.depth {
                    12 => 4096,
                    10 => 1024,
                    _ => 256,
                };
            }
            samples_of.truncate(self.lent(samples, p));
        }
        Pair { src, den }
    }

    /// A pair of luma's size: number 1, or 2 for a second frame.
    pub fn luma_pair(&self, number: u32) -> Pair {
        self.pair(number, self.luma(), self.width)
    }

    /// A pair of chroma's size: 2 for Cb, 3 for Cr; in a gate 1 and 2, for the two frames.
    pub fn chroma_pair(&self, number: u32) -> Pair {
        let columns = match self.format {
            1 | 2 => self.width.div_ceil(2),
            _ => self.width,
        };
        self.pair(number, self.chroma(), columns)
    }
}
