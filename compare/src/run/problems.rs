//! Random calls: rows of every size, within the domain but for a few, well and badly conditioned, with dependent rows,
//! sharp and wide, or those of a drawing; and the steps, curvatures and dampings that go with them.

use crate::interval::operands::Random;
use crate::run::pieces::{
    CONSTRAINTS, CURVATURE, Call, PAIRS, POINT, RESIDUALS, VARIABLES, evaluation, flat,
    next_evaluation, scalars,
};
use crate::run::rust;
use geop_core_math::scalars::Scalar;
use geop_core_math::solvers::least_squares::{self as solver, Evaluation};

/// 2^400.
const MOST: f64 = f64::from_bits(0x58F0_0000_0000_0000);

/// The nearest ends in the domain: of magnitude at most 2^400, in order.
pub fn bounded(ends: [f64; 2]) -> [f64; 2] {
    let [a, b] = ends.map(|x| {
        if x.is_nan() {
            0.0
        } else {
            x.clamp(-MOST, MOST)
        }
    });
    if a <= b { [a, b] } else { [b, a] }
}

fn in_domain(numbers: Vec<f64>) -> Vec<f64> {
    numbers
        .chunks_exact(2)
        .flat_map(|ends| bounded([ends[0], ends[1]]))
        .collect()
}

/// A row of a drawing: its value and its slopes.
type Row = (Scalar, Vec<Scalar>);

impl Random {
    // ---- rows

    /// Lists of one kind, then of another: values and slopes.
    fn rows_of(&mut self, count: usize, n: usize) -> Vec<f64> {
        let values = match self.below(6) {
            0 => vec![0.0; count],
            1 => (0..count).map(|_| self.sized(-60, -20)).collect(),
            _ => self.numbers(count),
        };
        let slopes = self.matrix(count, n);
        let mut flat = self.enclosed(&values);
        flat.extend(self.enclosed(&slopes));
        flat
    }

    fn any_rows(&mut self, count: usize) -> Vec<f64> {
        match self.below(4) {
            0 => [0.0, 0.0].repeat(count),
            1 => (0..count)
                .flat_map(|_| [self.sized(-1074, -1030), self.sized(-1074, -1030)])
                .collect(),
            _ => (0..count)
                .flat_map(|_| self.scalar().map(f64::from_bits))
                .collect(),
        }
    }

    fn coordinate(&mut self) -> Scalar {
        Scalar::degenerate(match self.below(4) {
            0 => self.between(-100, 100) as f64,
            1 => self.between(-1000, 1000) as f64 / 8.0,
            _ => self.sized(-4, 6),
        })
    }

    /// One mate of a drawing whose points have the coordinates `x`, two by two.
    fn mate(&mut self, x: &[Scalar]) -> Row {
        let (n, points) = (x.len(), x.len() as u64 / 2);
        let mut slopes = vec![Scalar::ZERO; n];
        if points == 0 {
            return (self.coordinate(), slopes);
        }
        let (i, j) = (
            2 * self.below(points) as usize,
            2 * self.below(points) as usize,
        );
        let axis = self.below(2) as usize;
        let (dx, dy) = (x[j].sub(x[i]), x[j + 1].sub(x[i + 1]));
        match self.below(5) {
            // A coordinate held where it is, or level with another's.
            0 => {
                slopes[i + axis] = Scalar::ONE;
                (x[i + axis].sub(self.coordinate()), slopes)
            }
            1 => {
                slopes[i + axis] = Scalar::ONE.neg();
                slopes[j + axis] = Scalar::ONE;
                (x[j + axis].sub(x[i + axis]), slopes)
            }
            // A length, squared or not.
            2 | 3 => {
                let square = dx.mul(dx).add(dy.mul(dy));
                let length = square.sqrt().unwrap_or(Scalar::ONE);
                let by = |d: Scalar| d.div(length).unwrap_or(d);
                (slopes[i], slopes[i + 1]) = (by(dx).neg(), by(dy).neg());
                (slopes[j], slopes[j + 1]) = (by(dx), by(dy));
                (length.sub(self.coordinate().abs()), slopes)
            }
            // A right angle at i, to the axis and j.
            _ => {
                slopes[j] = dy;
                slopes[j + 1] = dx;
                (dx.mul(dy), slopes)
            }
        }
    }

    fn drawing(&mut self, n: usize, m: usize, s: usize) -> Vec<f64> {
        let x: Vec<Scalar> = (0..n).map(|_| self.coordinate()).collect();
        let mut constraints: Vec<Row> = Vec::new();
        for i in 0..m {
            let again = i > 0 && self.at_odds(6);
            constraints.push(if again {
                constraints[self.below(i as u64) as usize].clone()
            } else {
                self.mate(&x)
            });
        }
        // Preferences: each variable where it was, by a weight, and mates that need not hold.
        let sum: Vec<Row> = (0..s)
            .map(|i| {
                if n == 0 || self.at_odds(4) {
                    return self.mate(&x);
                }
                let weight = Scalar::degenerate(self.sized(-6, 2).abs());
                let mut slopes = vec![Scalar::ZERO; n];
                slopes[i % n] = weight;
                (x[i % n].sub(self.coordinate()).mul(weight), slopes)
            })
            .collect();
        let mut numbers = Vec::new();
        for rows in [constraints, sum] {
            numbers.extend(rows.iter().flat_map(|(v, _)| [v.lo, v.hi]));
            numbers.extend(rows.iter().flat_map(|(_, slopes)| flat(slopes)));
        }
        numbers
    }

    pub fn problem(&mut self, n: usize, m: usize, s: usize) -> Vec<f64> {
        let rows = match self.below(8) {
            0..4 => {
                let mut rows = self.rows_of(m, n);
                rows.extend(self.rows_of(s, n));
                rows
            }
            4..7 => self.drawing(n, m, s),
            _ => self.any_rows((m + s) * (n + 1)),
        };
        let rows = in_domain(rows);
        // A few are outside of it: the pieces take every number.
        if self.at_odds(4) {
            self.spoilt(rows)
        } else {
            rows
        }
    }

    /// Rows beside others: as where a step leads.
    pub fn rows_beside(&mut self, rows: &[f64]) -> Vec<f64> {
        let size = self.between(-50, -1);
        let moved = rows
            .chunks_exact(2)
            .flat_map(|ends| {
                if self.at_odds(3) {
                    return [ends[0], ends[1]];
                }
                let by = 1.0 + self.sized(size - 1, size);
                [ends[0] * by, ends[1] * by]
            })
            .collect();
        in_domain(moved)
    }

    /// The rows of the answer after, with their m: those before a little altered, others, or others with an m of their
    /// own.
    fn next_rows(&mut self, rows: &[f64], n: usize, m: usize, s: usize) -> (usize, Vec<f64>) {
        match self.below(8) {
            0 => (m, self.problem(n, m, s)),
            1..4 => {
                let next_m = self.below(CONSTRAINTS as u64 + 1) as usize;
                (next_m, self.problem(n, next_m, s))
            }
            _ => (m, self.rows_beside(rows)),
        }
    }

    // ---- what goes with them

    /// `count` scalars in a slice of `length` numbers.
    fn listed(&mut self, count: usize, length: usize) -> Vec<f64> {
        let mut list = match self.below(8) {
            0 => self.any_rows(count),
            _ => {
                let points = self.numbers(count);
                self.enclosed(&points)
            }
        };
        list.resize(length, 0.0);
        in_domain(list)
    }

    fn curvature(&mut self, n: usize) -> Vec<f64> {
        let mut b = match self.below(6) {
            0..2 => vec![0.0; 2 * n * n],
            2 => self.any_rows(n * n),
            3 => {
                let points = self.matrix(n, n);
                self.enclosed(&points)
            }
            _ => {
                // Symmetric, of either sign, as it is learned.
                let sign = if self.at_odds(2) { 1.0 } else { -1.0 };
                let points = self.gram(n);
                points.iter().flat_map(|x| [sign * x, sign * x]).collect()
            }
        };
        b.resize(CURVATURE, 0.0);
        in_domain(b)
    }

    /// Sharp and positive, mostly a thousandth grown or shrunk a few times.
    pub fn damping(&mut self) -> Scalar {
        Scalar::degenerate(match self.below(8) {
            0..5 => 1e-3 * 4f64.powi(self.between(-12, 12) as i32),
            5 => self.sized(-600, 400).abs(),
            6 => self.sized(400, 1020).abs(),
            _ => self.sized(-60, 60).abs(),
        })
    }

    /// The marks of the variables that move, or any.
    fn moving_marks(&mut self, e: &Evaluation, n: usize) -> Vec<bool> {
        let mut marks = if self.at_odds(4) {
            self.marks(n).iter().map(|mark| !mark).collect()
        } else {
            rust::moving(e, n)
        };
        marks.resize(VARIABLES, false);
        marks
    }

    fn call(&mut self, n: usize, m: usize, s: usize, inputs: Vec<Vec<f64>>, out: &[usize]) -> Call {
        let before = f64::from_bits(self.word());
        Call {
            n,
            m,
            s,
            inputs,
            out: out.iter().map(|&length| vec![before; length]).collect(),
            ..Call::default()
        }
    }

    /// The step that the Rust proposes for the rows, with its multipliers, or any.
    fn step_for(&mut self, rows: &[f64], n: usize, m: usize, s: usize) -> (Vec<f64>, Vec<f64>) {
        let any = (self.listed(n, POINT), self.listed(m, POINT));
        if !self.at_odds(4) {
            return any;
        }
        let e = evaluation(&self.call(n, m, s, Vec::new(), &[]), rows);
        let moving = rust::moving(&e, n);
        let b = vec![vec![Scalar::ZERO; n]; n];
        match solver::step(&e, &b, &moving, self.damping()) {
            Ok(Some(step)) => {
                let mut found = (flat(&step.delta), flat(&step.lambda));
                found.0.resize(POINT, 0.0);
                found.1.resize(POINT, 0.0);
                found
            }
            _ => any,
        }
    }

    /// The sum and the violation of the rows, or others beside them.
    fn figures(&mut self, e: &Evaluation) -> [Scalar; 2] {
        let theta = solver::norm(&e.constraints.values).unwrap_or(Scalar::ONE);
        [e.sum.squared(&[]), theta].map(|x| match self.below(6) {
            0 => {
                let by = Scalar::degenerate(1.0 + self.sized(-50, 1));
                x.mul(by)
            }
            1 => x.sharpen(),
            _ => x,
        })
    }
}

pub fn for_squared(random: &mut Random, n: usize, m: usize, s: usize) -> Call {
    let rows = random.problem(n, m, s);
    let delta = random.listed(n, POINT);
    let count = if random.at_odds(2) { 0 } else { n };
    Call {
        count,
        ..random.call(n, m, s, vec![rows, delta], &[])
    }
}

pub fn for_predicted(random: &mut Random, n: usize, m: usize, s: usize) -> Call {
    let rows = random.problem(n, m, s);
    let delta = random.listed(n, POINT);
    random.call(n, m, s, vec![rows, delta], &[])
}

pub fn for_transposed(random: &mut Random, n: usize, m: usize, s: usize) -> Call {
    let rows = random.problem(n, m, s);
    let w = random.listed(s, 2 * RESIDUALS);
    random.call(n, m, s, vec![rows, w], &[POINT])
}

pub fn for_moving(random: &mut Random, n: usize, m: usize, s: usize) -> Call {
    let rows = random.problem(n, m, s);
    Call {
        marks: random.marks(VARIABLES),
        ..random.call(n, m, s, vec![rows], &[])
    }
}

pub fn for_judge(random: &mut Random, n: usize, m: usize, s: usize) -> Call {
    let rows = random.problem(n, m, s);
    let (next_m, next) = random.next_rows(&rows, n, m, s);
    let (step, _) = random.step_for(&rows, n, m, s);
    let call = Call {
        next_m,
        ..random.call(n, m, s, Vec::new(), &[])
    };
    let (e, e_next) = (evaluation(&call, &rows), next_evaluation(&call, &next));
    let theta = random.figures(&e)[1];
    let count = match random.below(16) {
        0 => random.below(PAIRS as u64 + 1) as usize,
        _ => random.below(5) as usize,
    };
    let mut filter = Vec::new();
    for _ in 0..count {
        let of = if random.at_odds(2) { &e } else { &e_next };
        filter.extend(flat(&random.figures(of)));
    }
    filter.resize(4 * PAIRS, 0.0);
    let length = solver::norm(&scalars(&step[..2 * n])).unwrap_or(Scalar::ONE);
    let times = Scalar::degenerate(random.sized(-2, 4).abs());
    Call {
        scalars: vec![theta, length.mul(times)],
        count,
        taken: !random.at_odds(4),
        inputs: vec![rows, next, filter, step],
        ..call
    }
}

pub fn for_expects(random: &mut Random, n: usize, m: usize, s: usize) -> Call {
    let rows = random.problem(n, m, s);
    let b = random.curvature(n);
    let (delta, _) = random.step_for(&rows, n, m, s);
    let call = random.call(n, m, s, Vec::new(), &[]);
    let figures = random.figures(&evaluation(&call, &rows)).to_vec();
    Call {
        scalars: figures,
        inputs: vec![rows, b, delta],
        ..call
    }
}

pub fn for_along(random: &mut Random, n: usize, m: usize, s: usize) -> Call {
    let rows = random.problem(n, m, s);
    let v = random.listed(n, POINT);
    random.call(n, m, s, vec![rows, v], &[2 * n])
}

pub fn for_shift(random: &mut Random, n: usize, m: usize, s: usize) -> Call {
    let rows = random.problem(n, m, s);
    let mut call = random.call(n, m, s, Vec::new(), &[POINT]);
    let e = evaluation(&call, &rows);
    call.marks = random.moving_marks(&e, n);
    // The point that `corrected` begins at: sharp, as every point is.
    let mut x: Vec<f64> = Vec::new();
    for _ in 0..n {
        let at = random.coordinate();
        x.extend([at.lo, at.hi]);
    }
    x.resize(POINT, 0.0);
    call.inputs = vec![rows, x];
    call
}

/// A step, and a radius that is near its length or anything.
pub fn for_cut(random: &mut Random, n: usize, m: usize, s: usize) -> Call {
    let delta = random.listed(n, POINT);
    let [near, other] = [random.listed(1, 2), random.listed(1, 2)].map(|ends| scalars(&ends)[0]);
    let radius = match solver::norm(&scalars(&delta[..2 * n])) {
        Ok(length) if random.at_odds(2) => length.mul(near.abs()),
        Ok(length) if random.at_odds(2) => length.div(Scalar::TWO).unwrap_or(length),
        _ => other,
    };
    Call {
        scalars: vec![radius],
        out: vec![delta],
        ..random.call(n, m, s, Vec::new(), &[])
    }
}

pub fn for_update_curvature(random: &mut Random, n: usize, m: usize, s: usize) -> Call {
    let rows = random.problem(n, m, s);
    let (next_m, next) = random.next_rows(&rows, n, m, s);
    let (step, lambda) = random.step_for(&rows, n, m, s);
    Call {
        next_m,
        out: vec![random.curvature(n)],
        ..random.call(n, m, s, vec![step, rows, next, lambda], &[])
    }
}

pub fn for_step(random: &mut Random, n: usize, m: usize, s: usize) -> Call {
    let rows = random.problem(n, m, s);
    let b = random.curvature(n);
    let mut call = random.call(n, m, s, Vec::new(), &[POINT, POINT]);
    let e = evaluation(&call, &rows);
    call.marks = random.moving_marks(&e, n);
    call.scalars = vec![random.damping()];
    call.inputs = vec![rows, b];
    call
}

pub fn for_learned(random: &mut Random, n: usize, m: usize, s: usize) -> Call {
    let mut b = random.curvature(n);
    if n > 0 && random.at_odds(2) {
        // One entry alone.
        let place = 2 * random.below((n * n) as u64) as usize;
        let ends = random.listed(1, 2);
        b[..2 * n * n].fill(0.0);
        b[place..place + 2].copy_from_slice(&ends);
    }
    random.call(n, m, s, vec![b], &[])
}
