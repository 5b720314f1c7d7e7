//! Equations for the solver: plain ones, nearly singular ones, and every odd value.

use crate::floats::ODD;
use crate::random::Random;

/// 25 equations, whatever part of them is used.
#[derive(Clone)]
pub struct System {
    pub a: Box<[[f64; 25]; 25]>,
    pub b: [f64; 25],
}

/// A float of one of the kinds that a solver can meet.
fn value(random: &mut Random, kind: usize) -> f64 {
    match kind {
        0 => f64::from(random.between(-3, 3)),
        1 => f64::from(random.between(-1_000_000, 1_000_000)),
        2 => random.unit() * 2.0 - 1.0,
        3 => (random.unit() - 0.5) * 2f64.powi(random.between(-60, 60)),
        4 => f64::from(random.between(0, 1)),
        _ => f64::from_bits(random.bits()),
    }
}

impl System {
    pub fn new(random: &mut Random, equations: bool) -> System {
        let mut system = System {
            a: Box::new([[0.0; 25]; 25]),
            b: [0.0; 25],
        };
        if equations {
            system.fill(random);
        }
        system
    }

    /// The normal equations of some noise: symmetric, with a solution.
    pub fn normal(random: &mut Random) -> System {
        let mut system = System::new(random, false);
        for row in system.a.iter_mut().chain([&mut system.b]) {
            row.fill_with(|| value(random, 0));
        }
        system.multiply();
        system
    }

    /// Each entry the product of two columns.
    fn multiply(&mut self) {
        let columns = *self.a;
        for i in 0..25 {
            for j in 0..25 {
                self.a[i][j] = (0..25).map(|k| columns[k][i] * columns[k][j]).sum();
            }
        }
    }

    fn fill(&mut self, random: &mut Random) {
        let kind = random.below(6);
        for row in self.a.iter_mut().chain([&mut self.b]) {
            row.fill_with(|| value(random, kind));
        }
        match random.below(8) {
            0 | 1 => self.multiply(),
            // One row again, or twice another: singular, or a rounding away from it.
            2 => {
                let (from, to) = (random.below(6), random.below(6));
                let factor = random.pick(&[1.0, 2.0, 1.0 / 3.0]);
                self.a[to] = self.a[from].map(|x| x * factor);
            }
            // A pivot about the limit.
            3 => {
                let scale = random.pick(&[1e-9, 1.0e-9 * (1.0 + 1e-15), 0.99e-9, -1e-9]);
                let order = random.below(4);
                for i in 0..25 {
                    for j in 0..25 {
                        self.a[i][j] = f64::from(u8::from(i == j));
                    }
                }
                self.a[order][order] = scale;
            }
            // Odd values here and there.
            4 | 5 => {
                for _ in 0..random.between(1, 6) {
                    let (i, j) = (random.below(8), random.below(8));
                    self.a[i][j] = random.pick(&ODD);
                    self.b[random.below(25)] = random.pick(&ODD);
                }
            }
            _ => {}
        }
    }
}
