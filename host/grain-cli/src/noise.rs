//! Sums over the noise that the library shows no call for: how alike two frames' noises are, and a noise and itself
//! some places on. They are whole numbers, so they are exact; nothing here is proved.

/// How many columns, and rows, away the autocorrelation looks.
pub const REACH: usize = 6;
/// Columns of its picture.
pub const SIDE: usize = 2 * REACH + 1;

/// Source less denoised.
pub fn noise(source: &[u16], denoised: &[u16]) -> Vec<i16> {
    let less = |(&s, &d): (&u16, &u16)| s as i16 - d as i16;
    source.iter().zip(denoised).map(less).collect()
}

/// The sum of products. A noise is below 2^12 in magnitude, so 64 products fit an i32.
fn dot(a: &[i16], b: &[i16]) -> i64 {
    let block = |(a, b): (&[i16], &[i16])| -> i64 {
        let sum: i32 = a
            .iter()
            .zip(b)
            .map(|(&a, &b)| i32::from(a) * i32::from(b))
            .sum();
        sum.into()
    };
    a.chunks(64).zip(b.chunks(64)).map(block).sum()
}

/// The sum of squares, in steps of the samples' own depth.
pub fn energy(source: &[u16], denoised: &[u16]) -> u64 {
    let block = |(source, denoised): (&[u16], &[u16])| -> u64 {
        let square = |(&s, &d): (&u16, &u16)| (u32::from(s.abs_diff(d))).pow(2);
        source.iter().zip(denoised).map(square).sum::<u32>().into()
    };
    // A square is below 2^24.
    source
        .chunks(128)
        .zip(denoised.chunks(128))
        .map(block)
        .sum()
}

/// cross / root(e0 × e1) of two frames' noises, as the gates have it; `None` where one has no energy.
///
/// Each frame is its source and its denoised plane.
pub fn correlation([src0, den0]: [&[u16]; 2], [src1, den1]: [&[u16]; 2]) -> Option<f64> {
    let (mut cross, mut e0, mut e1) = (0, 0, 0);
    // One block of noise at a time, so that no plane of it is held.
    let (mut first, mut second) = ([0; BLOCK], [0; BLOCK]);
    for at in (0..src0.len()).step_by(BLOCK) {
        let block = at..src0.len().min(at + BLOCK);
        let first = &mut first[..block.len()];
        let second = &mut second[..block.len()];
        fill(first, &src0[block.clone()], &den0[block.clone()]);
        fill(second, &src1[block.clone()], &den1[block]);
        cross += dot(first, second);
        e0 += dot(first, first);
        e1 += dot(second, second);
    }
    (e0 > 0 && e1 > 0).then(|| cross as f64 / (e0 as f64 * e1 as f64).sqrt())
}

const BLOCK: usize = 1024;

fn fill(noise: &mut [i16], source: &[u16], denoised: &[u16]) {
    for ((noise, &s), &d) in noise.iter_mut().zip(source).zip(denoised) {
        *noise = s as i16 - d as i16;
    }
}

/// Sums of products of a plane's noise with itself some rows down and some columns aside.
#[derive(Clone)]
pub struct Autocorrelation {
    /// Row 0 to REACH down, column −REACH to REACH aside.
    sums: [[i64; SIDE]; REACH + 1],
}

impl Autocorrelation {
    pub fn none() -> Self {
        Autocorrelation {
            sums: [[0; SIDE]; REACH + 1],
        }
    }

    pub fn of(noise: &[i16], width: usize) -> Self {
        let mut found = Self::none();
        let rows: Vec<&[i16]> = noise.chunks_exact(width.max(1)).collect();
        for down in 0..=REACH.min(rows.len().saturating_sub(1)) {
            for (at, sum) in found.sums[down].iter_mut().enumerate() {
                let (left, right) = (REACH.saturating_sub(at), at.saturating_sub(REACH));
                if width <= left + right {
                    continue;
                }
                let pairs = rows.iter().zip(&rows[down..]);
                *sum = pairs
                    .map(|(a, b)| dot(&a[left..width - right], &b[right..width - left]))
                    .sum();
            }
        }
        found
    }

    pub fn add(&mut self, other: &Self) {
        for (row, more) in self.sums.iter_mut().zip(&other.sums) {
            row.iter_mut()
                .zip(more)
                .for_each(|(sum, more)| *sum += more);
        }
    }

    /// The correlation `down` rows and `aside` columns on, each from −REACH to REACH; `None` without energy.
    pub fn at(&self, down: isize, aside: isize) -> Option<f64> {
        let (down, aside) = if down < 0 {
            (-down, -aside)
        } else {
            (down, aside)
        };
        let energy = self.sums[0][REACH];
        let sum = self.sums[down as usize][(aside + REACH as isize) as usize];
        (energy > 0).then(|| sum as f64 / energy as f64)
    }
}

#[cfg(test)]
mod tests {
    use super::*;

    /// Noise of both signs, up to the largest of 12 bits.
    fn planes(width: usize, height: usize) -> (Vec<u16>, Vec<u16>) {
        let source = (0..width * height).map(|at| ((at * at * 2654435761) >> 7) as u16 & 4095);
        let denoised = (0..width * height).map(|at| ((at * 40503) >> 3) as u16 & 4095);
        (source.collect(), denoised.collect())
    }

    #[test]
    fn autocorrelation_is_the_sum_over_all_pairs() {
        for (width, height) in [(1, 1), (5, 3), (13, 7), (40, 20)] {
            let (source, denoised) = planes(width, height);
            let noise = noise(&source, &denoised);
            let found = Autocorrelation::of(&noise, width);
            let at = |row: isize, column: isize| -> i64 {
                let inside =
                    (0..height as isize).contains(&row) && (0..width as isize).contains(&column);
                if inside {
                    noise[row as usize * width + column as usize].into()
                } else {
                    0
                }
            };
            let energy = noise
                .iter()
                .map(|&n| i64::from(n) * i64::from(n))
                .sum::<i64>();
            for down in -(REACH as isize)..=REACH as isize {
                for aside in -(REACH as isize)..=REACH as isize {
                    let places =
                        (0..height as isize).flat_map(|r| (0..width as isize).map(move |c| (r, c)));
                    let sum: i64 = places
                        .map(|(r, c)| at(r, c) * at(r + down, c + aside))
                        .sum();
                    let expected = (energy > 0).then(|| sum as f64 / energy as f64);
                    assert_eq!(found.at(down, aside), expected);
                }
            }
        }
    }

    #[test]
    fn energy_is_the_sum_of_squares() {
        let (source, denoised) = planes(100, 7);
        let noise = noise(&source, &denoised);
        let sum: i64 = noise.iter().map(|&n| i64::from(n).pow(2)).sum();
        assert_eq!(energy(&source, &denoised), sum as u64);
        let (most, least) = (vec![4095; 1000], vec![0; 1000]);
        assert_eq!(energy(&least, &most), 1000 * 4095 * 4095);
    }

    #[test]
    fn correlation_of_frames() {
        let flat = [0; 10];
        let first = [1, 1, 0, 0, 1, 1, 0, 0, 1, 1];
        let half = [0, 0, 1, 1, 0, 0, 1, 1, 0, 0];
        assert_eq!(correlation([&first, &flat], [&first, &flat]), Some(1.0));
        assert_eq!(correlation([&first, &flat], [&flat, &first]), Some(-1.0));
        assert_eq!(correlation([&first, &flat], [&half, &flat]), Some(0.0));
        assert_eq!(correlation([&first, &flat], [&flat, &flat]), None);
        let (source, denoised) = planes(100, 100);
        assert_eq!(
            correlation([&source, &denoised], [&source, &denoised]),
            Some(1.0)
        );
    }
}
