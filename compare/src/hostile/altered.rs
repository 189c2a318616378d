//! Runs and areas that somebody altered: one field after another, each to several values; and runs of any numbers.

use crate::archive::{Run, Scalar};
use crate::interval::operands::Random;
use crate::runs::rattle::AREA;

pub type Named<T> = (&'static str, fn(&mut Run) -> &mut T);

pub const COUNTS: [Named<usize>; 11] = [
    ("n", |run| &mut run.n),
    ("s", |run| &mut run.s),
    ("limit", |run| &mut run.limit),
    ("iterations", |run| &mut run.iterations),
    ("question", |run| &mut run.question),
    ("standing", |run| &mut run.standing),
    ("landed", |run| &mut run.landed),
    ("corrections", |run| &mut run.corrections),
    ("standing_m", |run| &mut run.standing_m),
    ("landed_m", |run| &mut run.landed_m),
    ("turned_down", |run| &mut run.turned_down),
];

pub const SCALARS: [Named<Scalar>; 6] = [
    ("mu", |run| &mut run.mu),
    ("radius", |run| &mut run.radius),
    ("predicted", |run| &mut run.predicted),
    ("tried", |run| &mut run.tried),
    ("max_step", |run| &mut run.max_step),
    ("last_length", |run| &mut run.last_length),
];

pub const CASES: [Named<u8>; 3] = [
    ("phase", |run| &mut run.phase),
    ("rejected", |run| &mut run.rejected),
    ("last", |run| &mut run.last),
];

pub const MARKS: [Named<bool>; 2] = [
    ("first", |run| &mut run.first),
    ("plain", |run| &mut run.plain),
];

/// The limits of the protocol, and beside them; what sums and products overflow at; the extremes.
const NUMBERS: [usize; 22] = [
    0,
    1,
    2,
    3,
    4,
    5,
    12,
    13,
    24,
    25,
    200,
    201,
    1100,
    1101,
    5500,
    1_100_000,
    1_100_001,
    1 << 31,
    1 << 32,
    usize::MAX / 1100 + 1,
    1 << 63,
    usize::MAX,
];

const ENDS: [f64; 12] = [
    f64::NAN,
    f64::INFINITY,
    f64::NEG_INFINITY,
    0.0,
    -0.0,
    1.0,
    -1.0,
    f64::MAX,
    f64::MIN,
    f64::from_bits(1),
    -f64::from_bits(1),
    1e120,
];

fn counts(run: &Run, list: &mut Vec<Run>) {
    for (_, field) in COUNTS {
        let mut other = *run;
        let held = *field(&mut other);
        let beside = [held.wrapping_sub(1), held.wrapping_add(1)];
        for number in NUMBERS.into_iter().chain(beside) {
            *field(&mut other) = number;
            list.push(other);
        }
    }
}

/// The lower end alone, the upper alone, and both.
fn scalars(run: &Run, list: &mut Vec<Run>) {
    for (_, field) in SCALARS {
        for end in ENDS {
            for which in 0..3 {
                let mut other = *run;
                let scalar = field(&mut other);
                if which != 1 {
                    scalar.lo = end;
                }
                if which != 0 {
                    scalar.hi = end;
                }
                list.push(other);
            }
        }
    }
}

fn cases(run: &Run, list: &mut Vec<Run>) {
    for (_, field) in CASES {
        for number in [0, 1, 2, 3, 4, 5, 127, 255] {
            let mut other = *run;
            *field(&mut other) = number;
            list.push(other);
        }
    }
    for (_, field) in MARKS {
        let mut other = *run;
        let mark = field(&mut other);
        *mark = !*mark;
        list.push(other);
    }
    for i in 0..run.moving.len() {
        let mut other = *run;
        other.moving[i] = !other.moving[i];
        list.push(other);
    }
}

/// Every field in turn.
pub fn alterations(run: &Run) -> Vec<Run> {
    let mut list = Vec::new();
    counts(run, &mut list);
    scalars(run, &mut list);
    cases(run, &mut list);
    list
}

impl Random {
    fn any_float(&mut self) -> f64 {
        match self.below(4) {
            0 => ENDS[self.below(ENDS.len() as u64) as usize],
            1 => f64::from_bits(self.word()),
            _ => self.sized(-4, 4),
        }
    }

    fn any_number(&mut self, most: usize) -> usize {
        match self.below(12) {
            0 => NUMBERS[self.below(NUMBERS.len() as u64) as usize],
            1 => self.word() as usize,
            _ => self.below(most as u64 + 1) as usize,
        }
    }

    /// A run of any numbers: each field mostly within its bounds.
    pub fn any_run(&mut self) -> Run {
        let mut run = Run {
            n: self.any_number(3),
            s: self.any_number(4),
            limit: self.any_number(200),
            iterations: self.any_number(20),
            question: self.any_number(5500),
            standing: self.any_number(5500),
            landed: self.any_number(5500),
            corrections: self.any_number(4),
            standing_m: self.any_number(4),
            landed_m: self.any_number(4),
            turned_down: self.any_number(1100),
            mu: Scalar { lo: 1.0, hi: 1.0 },
            radius: Scalar { lo: 1.0, hi: 1.0 },
            predicted: Scalar { lo: 0.0, hi: 0.0 },
            tried: Scalar { lo: 1.0, hi: 1.0 },
            max_step: Scalar { lo: 1.0, hi: 1.0 },
            last_length: Scalar { lo: 1.0, hi: 1.0 },
            phase: self.below(5) as u8,
            rejected: self.below(6) as u8,
            last: self.below(3) as u8,
            first: self.at_odds(2),
            plain: self.at_odds(2),
            moving: [(); 12].map(|()| self.at_odds(2)),
        };
        for (name, field) in SCALARS {
            let (lo, hi) = (self.any_float(), self.any_float());
            let sized = self.sized(-300, 300).abs();
            let scalar = field(&mut run);
            *scalar = Scalar { lo, hi };
            if name == "mu" && self.below(8) > 0 {
                *scalar = Scalar {
                    lo: sized,
                    hi: sized,
                };
            }
        }
        run
    }

    /// An area of any bits, of one float everywhere, or this one with a few places altered.
    pub fn altered_area(&mut self, area: &[f64]) -> Vec<f64> {
        match self.below(4) {
            0 => (0..AREA).map(|_| f64::from_bits(self.word())).collect(),
            1 => vec![self.any_float(); AREA],
            2 => (0..AREA).map(|_| self.sized(-4, 4)).collect(),
            _ => {
                let mut area = area.to_vec();
                for _ in 0..=self.below(20) {
                    let most = if self.at_odds(4) { AREA } else { 2300 };
                    let place = self.below(most as u64) as usize;
                    area[place] = self.any_float();
                }
                area
            }
        }
    }
}
