//! Random calls: matrices and lists by their kind, well and badly conditioned, as enclosures of several widths, some of
//! them spoilt by scalars of every class.

use crate::interval::operands::Random;
use crate::linear::functions::{Call, rows};
use geop_core_math::solvers::linear;

const SIGN: u64 = 1 << 63;

/// How the numbers of a matrix are drawn.
#[derive(Clone, Copy)]
enum Size {
    Ordinary,
    Whole,
    Sparse,
    Spread,
    Huge,
    Tiny,
    Squares,
    Zero,
}

impl Random {
    pub fn at_odds(&mut self, of: u64) -> bool {
        self.below(of) == 0
    }

    pub fn sized(&mut self, from: i64, to: i64) -> f64 {
        f64::from_bits(self.scaled(from, to) | (self.word() & SIGN))
    }

    fn size_of_numbers(&mut self) -> Size {
        match self.below(16) {
            0..6 => Size::Ordinary,
            6..9 => Size::Whole,
            9 | 10 => Size::Sparse,
            11 => Size::Spread,
            12 => Size::Huge,
            13 => Size::Tiny,
            14 => Size::Squares,
            _ => Size::Zero,
        }
    }

    fn number(&mut self, size: Size) -> f64 {
        match size {
            Size::Ordinary => self.sized(-3, 3),
            Size::Whole => self.between(-9, 9) as f64,
            Size::Sparse if self.at_odds(3) => self.sized(-3, 3),
            Size::Spread => self.sized(-300, 300),
            Size::Huge => self.sized(990, 1023),
            Size::Tiny => self.sized(-1022, -990),
            Size::Squares => self.sized(-540, 515),
            Size::Sparse | Size::Zero => 0.0,
        }
    }

    pub fn numbers(&mut self, count: usize) -> Vec<f64> {
        let size = self.size_of_numbers();
        (0..count).map(|_| self.number(size)).collect()
    }

    /// Some rows said again: the same, a multiple, or all but the same.
    fn repeat_rows(&mut self, points: &mut [f64], m: usize, n: usize) {
        for i in 1..m {
            if !self.at_odds(3) {
                continue;
            }
            let from = self.below(i as u64) as usize;
            let factor = [1.0, 1.0, -2.0, 3.0][self.below(4) as usize];
            let near = if self.at_odds(2) {
                0.0
            } else {
                self.sized(-60, -30)
            };
            for j in 0..n {
                points[i * n + j] = points[from * n + j] * (factor + near);
            }
        }
    }

    /// m rows of n numbers.
    pub fn matrix(&mut self, m: usize, n: usize) -> Vec<f64> {
        let entry = |f: &dyn Fn(usize, usize) -> f64| -> Vec<f64> {
            (0..m * n).map(|p| f(p / n, p % n)).collect()
        };
        match self.below(8) {
            0..3 => self.numbers(m * n),
            3 => {
                let mut points = self.numbers(m * n);
                self.repeat_rows(&mut points, m, n);
                points
            }
            4 => {
                // The identity and little beside it.
                let beside: Vec<f64> = (0..m * n).map(|_| self.sized(-70, -20)).collect();
                entry(&|i, j| if i == j { 1.0 } else { beside[i * n + j] })
            }
            5 => {
                let diagonal = self.numbers(m.min(n));
                entry(&|i, j| if i == j { diagonal[i] } else { 0.0 })
            }
            6 => {
                let scale = self.sized(-2, 2);
                entry(&|i, j| scale / (i + j + 1) as f64)
            }
            _ => {
                // A product of few columns and rows.
                let k = 1 + self.below(3) as usize;
                let (a, b) = (self.numbers(m * k), self.numbers(k * n));
                entry(&|i, j| (0..k).map(|t| a[i * k + t] * b[t * n + j]).sum())
            }
        }
    }

    /// n rows of n: the products of the columns of a random matrix of more, as many or fewer rows.
    pub fn gram(&mut self, n: usize) -> Vec<f64> {
        let k = match self.below(4) {
            0 => self.below(n as u64 + 1) as usize,
            1 => n,
            _ => n + self.below(8) as usize,
        };
        let rows = self.matrix(k, n);
        let scale = if self.at_odds(8) {
            self.sized(-400, 400).abs()
        } else {
            1.0
        };
        (0..n * n)
            .map(|p| {
                (0..k)
                    .map(|t| rows[t * n + p / n] * rows[t * n + p % n])
                    .sum::<f64>()
                    * scale
            })
            .collect()
    }

    fn symmetric(&mut self, n: usize) -> Vec<f64> {
        match self.below(8) {
            0..5 => self.gram(n),
            5 => self.matrix(n, n),
            _ => {
                // Definite by its diagonal.
                let mut points = self.matrix(n, n);
                for i in 0..n {
                    points[i * n + i] = points[i * n + i].abs() + 8.0 * n as f64;
                }
                points
            }
        }
    }

    /// Half the width of an enclosure, over the number's size: above 1 zero is inside.
    fn width(&mut self) -> f64 {
        match self.below(8) {
            0..4 => 0.0,
            4 | 5 => f64::EPSILON * self.below(9) as f64,
            6 => self.sized(-45, -4).abs(),
            _ => self.sized(-3, 3).abs(),
        }
    }

    /// Two ends about each number, all of one width, or each of its own.
    pub fn enclosed(&mut self, points: &[f64]) -> Vec<f64> {
        let (one, mixed) = (self.width(), self.at_odds(4));
        let mut flat = Vec::new();
        for x in points {
            let about = x.abs() * if mixed { self.width() } else { one };
            flat.extend([x - about, x + about]);
        }
        flat
    }

    /// The ends turned round, both NaN, both infinite, or any.
    fn wild(&mut self, lo: f64, hi: f64) -> [f64; 2] {
        match self.below(8) {
            0 | 1 => [hi, lo],
            2 => [f64::NAN; 2],
            3 => [f64::INFINITY; 2],
            _ => self.scalar().map(f64::from_bits),
        }
    }

    /// A few scalars made wild.
    pub fn spoilt(&mut self, mut flat: Vec<f64>) -> Vec<f64> {
        let scalars = flat.len() / 2;
        if scalars == 0 || !self.at_odds(4) {
            return flat;
        }
        for _ in 0..=self.below(3) {
            let i = self.below(scalars as u64) as usize;
            let ends = self.wild(flat[2 * i], flat[2 * i + 1]);
            flat[2 * i..2 * i + 2].copy_from_slice(&ends);
        }
        flat
    }

    /// Any scalars, or one wild scalar everywhere.
    fn any(&mut self, scalars: usize) -> Vec<f64> {
        if self.at_odds(4) {
            return self.wild(1.0, 2.0).repeat(scalars);
        }
        (0..scalars)
            .flat_map(|_| self.scalar().map(f64::from_bits))
            .collect()
    }

    fn list(&mut self, n: usize) -> Vec<f64> {
        if self.at_odds(8) {
            return self.any(n);
        }
        let points = self.numbers(n);
        let flat = self.enclosed(&points);
        self.spoilt(flat)
    }

    fn rows(&mut self, m: usize, n: usize) -> Vec<f64> {
        if self.at_odds(16) {
            return self.any(m * n);
        }
        let points = self.matrix(m, n);
        let flat = self.enclosed(&points);
        self.spoilt(flat)
    }

    fn symmetric_rows(&mut self, n: usize) -> Vec<f64> {
        if self.at_odds(16) {
            return self.any(n * n);
        }
        let points = self.symmetric(n);
        let flat = self.enclosed(&points);
        let mut flat = self.spoilt(flat);
        if n > 0 && self.at_odds(16) {
            // A pivot with inverted ends, of which the root is refused.
            let i = self.below(n as u64) as usize;
            flat[2 * (i * n + i) + 1] = -1.0;
        }
        flat
    }

    pub fn marks(&mut self, n: usize) -> Vec<bool> {
        (0..n).map(|_| self.at_odds(4)).collect()
    }
}

fn call(m: usize, n: usize, inputs: Vec<Vec<f64>>) -> Call {
    Call {
        m,
        n,
        inputs,
        marks: Vec::new(),
    }
}

pub fn for_dot(random: &mut Random, m: usize, n: usize) -> Call {
    let (a, b) = (random.list(n), random.list(n));
    call(m, n, vec![a, b])
}

pub fn for_list(random: &mut Random, m: usize, n: usize) -> Call {
    let v = random.list(n);
    call(m, n, vec![v])
}

pub fn for_choose(random: &mut Random, m: usize, n: usize) -> Call {
    let v = random.any(1);
    call(m, n, vec![v])
}

pub fn for_cholesky(random: &mut Random, m: usize, n: usize) -> Call {
    Call {
        marks: random.marks(n),
        ..call(m, n, vec![random.symmetric_rows(n)])
    }
}

/// Mostly the Rust's own factor of a matrix.
pub fn for_solve(random: &mut Random, m: usize, n: usize) -> Call {
    let a = random.symmetric_rows(n);
    let factor = linear::cholesky(&rows(&a, n, n));
    let b = random.list(n);
    let (l, marks) = match factor {
        Ok((l, marks)) if !random.at_odds(4) => (
            l.concat().iter().flat_map(|x| [x.lo, x.hi]).collect(),
            marks,
        ),
        _ => (random.rows(n, n), random.marks(n)),
    };
    let l = random.spoilt(l);
    Call {
        marks,
        ..call(m, n, vec![l, b])
    }
}

pub fn for_least_squares(random: &mut Random, m: usize, n: usize) -> Call {
    let (rows, rhs) = (random.rows(m, n), random.list(m));
    call(m, n, vec![rows, rhs])
}

pub fn for_minus_solved(random: &mut Random, m: usize, n: usize) -> Call {
    let jc = random.rows(m, n);
    let (rhs, from) = (random.list(m), random.list(n));
    call(m, n, vec![jc, rhs, from])
}
