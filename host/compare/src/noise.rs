//! Noise of every kind that a figure can turn on, and planes that have exactly that noise.

use crate::random::Random;

/// What the noise of a case looks like.
#[derive(Debug, Clone, Copy, PartialEq, Eq)]
pub enum Noise {
    /// None.
    Flat,
    /// One value everywhere.
    Constant,
    /// Even, of some amplitude.
    Random,
    /// Alike along rows and columns, as the fits model it.
    Coloured,
    /// A few samples alone have any.
    Sparse,
    /// Along the edges alone, but for a sample or two: fits of little energy.
    Edges,
    /// Plus or minus one value: correlations near the gates' limits.
    Signs,
    /// A sigma16 halfway between two whole numbers, in planes of a multiple of 1,024 samples.
    Halves,
    /// Two frames, at 12 bits, whose correlation is below 0.4 and rounds to 0.4.
    Verge,
    /// The largest of either sign, at random.
    Extreme,
    /// The largest everywhere, of one sign.
    Largest,
    /// The largest, signs in turn.
    Checkered,
    /// Every row the same.
    EqualRows,
    /// Every column the same.
    EqualColumns,
    /// Linear in row and column: a singular system.
    Ramp,
    /// A ramp with one sample off by one: a nearly singular system.
    NearRamp,
    /// Equal rows with one sample off by one.
    NearRows,
    /// Each some factor times its left neighbour: coefficients at the ends of their range and past them.
    Growing,
    /// Chroma's follows luma's average.
    Coupled,
    /// What the denoiser takes from a noisy picture.
    Denoised,
}

impl Noise {
    pub const ALL: [Noise; 20] = [
        Noise::Flat,
        Noise::Constant,
        Noise::Random,
        Noise::Coloured,
        Noise::Sparse,
        Noise::Edges,
        Noise::Signs,
        Noise::Halves,
        Noise::Verge,
        Noise::Extreme,
        Noise::Largest,
        Noise::Checkered,
        Noise::EqualRows,
        Noise::EqualColumns,
        Noise::Ramp,
        Noise::NearRamp,
        Noise::NearRows,
        Noise::Growing,
        Noise::Coupled,
        Noise::Denoised,
    ];

    pub fn name(self) -> String {
        format!("{self:?}").to_lowercase()
    }
}

/// Width and height of a plane.
pub type Size = (usize, usize);

/// The noise of one plane, each from −max to max.
pub fn noise(kind: Noise, random: &mut Random, (w, h): Size, max: i32) -> Vec<i32> {
    let amplitude = random.pick(&[1, 1, 2, 3, 8, 40, max]);
    let sign = random.pick(&[-1, 1]);
    let each = |at: &mut dyn FnMut(usize, usize) -> i32| -> Vec<i32> {
        let places = (0..h).flat_map(|r| (0..w).map(move |c| (r, c)));
        places.map(|(r, c)| at(r, c).clamp(-max, max)).collect()
    };
    match kind {
        Noise::Flat => vec![0; w * h],
        Noise::Constant => vec![sign * amplitude; w * h],
        Noise::Random | Noise::Coupled | Noise::Denoised => {
            each(&mut |_, _| random.between(-amplitude, amplitude))
        }
        Noise::Coloured => coloured(random, (w, h), max),
        Noise::Sparse => {
            let mut all = vec![0; w * h];
            for _ in 0..random.between(1, 4) {
                add(random, &mut all, amplitude, max);
            }
            all
        }
        Noise::Edges => {
            let edge = random.pick(&[1, 1, 2, 3]);
            let inside = |r, c| r >= edge && c >= edge && c + edge < w;
            let any = random.between(1, 3);
            let mut all = each(&mut |r, c| i32::from(!inside(r, c)) * random.between(-any, any));
            for _ in 0..random.below(3) {
                add(random, &mut all, 1, max);
            }
            all
        }
        Noise::Signs => signs(random, w * h, amplitude),
        Noise::Halves => halves(random, w * h, max),
        Noise::Verge => start_with(&VERGE[0], w * h, max),
        Noise::Extreme => each(&mut |_, _| random.pick(&[-max, max])),
        Noise::Largest => vec![sign * max; w * h],
        Noise::Checkered => {
            let (down, along) = random.pick(&[(0, 1), (1, 0), (1, 1)]);
            each(&mut |r, c| [max, -max][(r * down + c * along) % 2])
        }
        Noise::EqualRows => {
            let row = signs(random, w, amplitude);
            each(&mut |_, c| row[c])
        }
        Noise::EqualColumns => {
            let column = signs(random, h, amplitude);
            each(&mut |r, _| column[r])
        }
        Noise::Ramp | Noise::NearRamp => {
            let (start, down, along) = (
                random.between(-9, 9),
                random.between(-3, 3),
                random.between(-3, 3),
            );
            let mut all = each(&mut |r, c| start + down * r as i32 + along * c as i32);
            if kind == Noise::NearRamp {
                add(random, &mut all, 1, max);
            }
            all
        }
        Noise::NearRows => {
            let mut all = noise(Noise::EqualRows, random, (w, h), max);
            add(random, &mut all, 1, max);
            all
        }
        Noise::Growing => growing(random, (w, h), max),
    }
}

/// One sample off by so much, up or down.
fn add(random: &mut Random, all: &mut [i32], size: i32, max: i32) {
    if !all.is_empty() {
        let place = random.below(all.len());
        all[place] = (all[place] + random.pick(&[-size, size])).clamp(-max, max);
    }
}

/// Each a part of its left and upper neighbours, and something of its own.
fn coloured(random: &mut Random, (w, h): Size, max: i32) -> Vec<i32> {
    let (left, up) = (random.unit() * 0.9, random.unit() * 0.9 - 0.4);
    let own = random.pick(&[2, 6, 20]);
    let mut all = vec![0; w * h];
    for at in 0..w * h {
        let before = if at % w > 0 { all[at - 1] } else { 0 };
        let above = if at >= w { all[at - w] } else { 0 };
        let mean = left * f64::from(before) + up * f64::from(above);
        all[at] = (mean as i32 + random.between(-own, own)).clamp(-max, max);
    }
    all
}

/// What gives a coefficient at an end of its range, or past it.
pub const STEEP: [f64; 4] = [127.0 / 64.0, -2.0, 3.0, -3.0];

/// Rows that grow by one factor, up to some noise in the last column.
fn growing(random: &mut Random, (w, h): Size, max: i32) -> Vec<i32> {
    let factor = random.pick(&STEEP);
    let mut all = vec![0; w * h];
    for at in (0..w * h).rev() {
        all[at] = match (at + 1) % w {
            0 => random.between(-max, max),
            _ => (f64::from(all[at + 1]) / factor).round() as i32,
        };
    }
    all
}

/// Plus or minus `size`, in runs or at random, some of them 0: row correlation about 0.75, sigma16 about its limit.
fn signs(random: &mut Random, n: usize, size: i32) -> Vec<i32> {
    let turn = random.pick(&[2, 2, 7, 8, 9]);
    let mut now = size;
    let mut all: Vec<i32> = (0..n)
        .map(|_| {
            if random.once_in(turn) {
                now = -now;
            }
            now
        })
        .collect();
    let zeros = random.pick(&[0, 0, 1, n / 17, n / 16, n / 16 + 1]);
    for _ in 0..zeros.min(n) {
        let place = random.below(n);
        all[place] = 0;
    }
    all
}

/// (2k + 1)² samples in 1,024 of plus or minus an odd number of 8-bit steps: sixteen times the root of the mean square is
/// that number times k + 1/2.
fn halves(random: &mut Random, n: usize, max: i32) -> Vec<i32> {
    let odd = 2 * random.pick(&[0, 1, 7, 15, 15]) + 1;
    let size = random.pick(&[1, 1, 1, 3, 5]) * (max + 1) / 256;
    let some = (odd * odd * n / 1024).max(1).min(n);
    let mut all = vec![0; n];
    all[..some].fill_with(|| random.pick(&[-size, size]));
    all
}

/// Noises of two frames with energies 194438347 and 198710096 and a cross sum of 78625047: 25 × cross² is 23 below
/// 4 × e0 × e1, and the f64 quotient is that of 0.4.
const VERGE: [[i32; 33]; 2] = [
    [
        -3798, 0, -3393, 0, 3876, 0, -3495, 0, 0, 0, 0, 0, 2970, 50, 0, -3285, 0, 3999, 0, 3646,
        -3623, 0, -3462, -3240, 0, 0, -3702, -3736, 0, 1, -3866, 0, -3761,
    ],
    [
        -2003, 2975, -1634, 3059, 1740, -3506, -1344, -2612, 2994, -3311, 2618, 3495, 641, -2853,
        2687, -1710, 2910, 1508, 3038, 1365, -1397, 2656, -1931, -940, 2824, -3703, -1124, -2085,
        3756, 33, -1158, 3549, -1177,
    ],
];

/// These noises first, then none.
fn start_with(list: &[i32], n: usize, max: i32) -> Vec<i32> {
    let given = list.iter().map(|&d| d.clamp(-max, max));
    given.chain(std::iter::repeat(0)).take(n).collect()
}

/// The second frame's noise: its own, the first's, or the first's with signs turned until the two frames' correlation is
/// about the gates' limit.
pub fn second(kind: Noise, random: &mut Random, first: &[i32], size: Size, max: i32) -> Vec<i32> {
    if kind == Noise::Verge {
        return start_with(&VERGE[1], first.len(), max);
    }
    let mut again = first.to_vec();
    let turned = match random.below(6) {
        0 | 1 => return noise(kind, random, size, max),
        2 => 0,
        3 => first.len(),
        _ => (first.len() * 3 / 10 + random.below(4)).saturating_sub(1),
    };
    // The turned places are the first ones of a permutation by a step that is prime to the count, or nearly.
    let step = random.pick(&[1, 7, 61, 257]);
    for i in 0..turned.min(first.len()) {
        let place = i * step % first.len();
        again[place] = -first[place];
    }
    again
}

/// The picture that a source is near to.
fn picture(random: &mut Random, (w, h): Size, chroma: bool, max: i32) -> Vec<i32> {
    let n = w * h;
    let level = random.between(0, max);
    match random.below(5) {
        0 => vec![level; n],
        1 => (0..n).map(|_| random.between(0, max)).collect(),
        // A bin with about as many samples as it needs for a sigma16 of its own.
        2 => {
            let least = (n / 100).max(if chroma { 32 } else { 64 });
            let few = (least + random.below(3)).saturating_sub(1).min(n);
            let other = random.between(0, max);
            let mut all = vec![level; n];
            all[..few].fill(other);
            all
        }
        // Levels at the bins' edges.
        3 => {
            let edge = (max + 1) / 8;
            let near = |r: &mut Random| r.between(0, 8) * edge + r.between(-1, 1);
            (0..n).map(|_| near(random).clamp(0, max)).collect()
        }
        _ => (0..n)
            .map(|at| (max * (at % w + at / w) as i32) / (w + h) as i32)
            .collect(),
    }
}

/// A source plane and a denoised plane whose difference is this noise, the source as near to a picture as the noise lets it.
pub fn planes(
    random: &mut Random,
    noise: &[i32],
    size: Size,
    chroma: bool,
    max: i32,
) -> (Vec<u16>, Vec<u16>) {
    let picture = picture(random, size, chroma, max);
    let source = |(&level, &d): (&i32, &i32)| level.clamp(d.max(0), max + d.min(0));
    let src: Vec<i32> = picture.iter().zip(noise).map(source).collect();
    let den = src.iter().zip(noise).map(|(&s, &d)| (s - d) as u16);
    (src.iter().map(|&s| s as u16).collect(), den.collect())
}
