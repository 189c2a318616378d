//! Scripts: rows drawn at random, whatever the point is. So the run is led where no smooth problem leads it. In some of
//! them the replies change how many constraint rows they have.

use crate::interval::operands::Random;
use crate::run::pieces::CONSTRAINTS;
use crate::run::problems::bounded;
use crate::runs::problem::{Counts, MOST, Reply, Rows, Sizes};

/// What most replies of a script are.
#[derive(Clone, Copy)]
enum Manner {
    /// Rows of a problem of its own.
    Fresh,
    /// The rows before, a little altered.
    Beside,
    /// The slopes before, the values nearer zero.
    Nearer,
    /// The slopes before, each value any power of two: the sum falls where the violation rises.
    Traded,
    /// Zeros, 2^400, the smallest numbers, ones, and wide intervals about zero.
    Extreme,
    /// Ones and zeros, and numbers whose square or reciprocal is at the end of the floats.
    Tiny,
}

pub struct Script {
    random: Random,
    sizes: Sizes,
    counts: Counts,
    manner: Manner,
    /// One reply in so many is none, one is of another manner, and one has another m.
    nones: u64,
    strays: u64,
    others: u64,
    /// The constraint rows of the reply before, and its numbers.
    m: usize,
    before: Vec<f64>,
}

impl Random {
    fn manner(&mut self) -> Manner {
        match self.below(8) {
            0 | 1 => Manner::Fresh,
            2 | 3 => Manner::Beside,
            4 => Manner::Nearer,
            5 | 6 => Manner::Traded,
            _ => Manner::Extreme,
        }
    }

    fn tiny(&mut self) -> f64 {
        match self.below(8) {
            0 | 1 => 0.0,
            2 => f64::MIN_POSITIVE / (1u64 << self.below(5)) as f64,
            3 => self.sized(-1030, -1018),
            4 => self.sized(-545, -530),
            _ => 1.0,
        }
    }

    fn extreme(&mut self) -> [f64; 2] {
        let sign = if self.at_odds(2) { 1.0 } else { -1.0 };
        let point = |x: f64| [sign * x, sign * x];
        match self.below(12) {
            0 | 1 => [0.0, 0.0],
            2 => point(MOST),
            3 => point(self.sized(-1074, -1020).abs()),
            4 => point(self.sized(-545, -530).abs()),
            5 => point(self.sized(380, 399).abs()),
            6 => [-self.sized(-3, 3).abs(), self.sized(-3, 3).abs()],
            7 => bounded([self.sized(-3, 3), self.sized(-3, 3)]),
            8 => [-MOST, MOST],
            9 => point(self.sized(-1030, 399).abs()),
            _ => point(1.0),
        }
    }
}

impl Script {
    pub fn new(word: u64, sizes: Sizes, counts: Counts, tiny: bool) -> Script {
        let mut random = Random::new(word);
        Script {
            manner: if tiny { Manner::Tiny } else { random.manner() },
            nones: [3, 8, 40][random.below(3) as usize],
            strays: [4, 40][random.below(2) as usize],
            others: [1, 3, 6][random.below(3) as usize],
            random,
            sizes,
            counts,
            m: counts.m,
            before: Vec::new(),
        }
    }

    fn fresh(&mut self) -> Vec<f64> {
        let Sizes { n, s, .. } = self.sizes;
        self.random.problem(n, self.m, s)
    }

    /// The places of the values among the scalars of the rows.
    fn values(&self) -> impl Iterator<Item = usize> + use<> {
        let Sizes { n, s, .. } = self.sizes;
        let m = self.m;
        (0..m).chain(m * (n + 1)..m * (n + 1) + s)
    }

    /// Each value times a factor, the slopes kept but for a few.
    fn nearer(&mut self) -> Vec<f64> {
        let mut rows = self.before.clone();
        let factor = self.random.sized(-6, -1);
        for i in self.values() {
            rows[2 * i] *= factor;
            rows[2 * i + 1] *= factor;
        }
        if self.random.at_odds(3) {
            rows = self.random.rows_beside(&rows);
        }
        rows
    }

    fn traded(&mut self) -> Vec<f64> {
        let mut rows = self.before.clone();
        for i in self.values() {
            let value = 2f64.powi(self.random.between(-4, 4) as i32);
            rows[2 * i..2 * i + 2].fill(value);
        }
        rows
    }

    fn extremes(&mut self) -> Vec<f64> {
        let scalars = self.sizes.row_numbers(self.m) / 2;
        (0..scalars).flat_map(|_| self.random.extreme()).collect()
    }

    fn tinies(&mut self) -> Vec<f64> {
        let scalars = self.sizes.row_numbers(self.m) / 2;
        let numbers = (0..scalars).map(|_| self.random.tiny());
        numbers.flat_map(|x| [x, x]).collect()
    }

    /// Another m: fewer constraint rows of those before, or some of a problem of its own behind them.
    fn change(&mut self) {
        let Sizes { n, s, .. } = self.sizes;
        let most = if self.random.at_odds(4) {
            CONSTRAINTS
        } else {
            self.counts.m + 1
        };
        let m = match self.random.below(4) {
            0 => 0,
            1 => (self.m + 1).min(CONSTRAINTS),
            _ => self.random.below(most.min(CONSTRAINTS) as u64 + 1) as usize,
        };
        if !self.before.is_empty() {
            let other = self.random.problem(n, m, s);
            let (was, sum) = self.before.split_at(2 * self.m * (n + 1));
            let (mut values, mut slopes) = (
                other[..2 * m].to_vec(),
                other[2 * m..2 * m * (n + 1)].to_vec(),
            );
            let kept = m.min(self.m);
            values[..2 * kept].copy_from_slice(&was[..2 * kept]);
            slopes[..2 * kept * n].copy_from_slice(&was[2 * self.m..][..2 * kept * n]);
            self.before = [&values, &slopes, sum].concat();
        }
        self.m = m;
    }

    /// None where there is none; rows in the domain else.
    pub fn next(&mut self) -> Reply {
        let first = self.before.is_empty();
        if self
            .random
            .at_odds(if first { 8 * self.nones } else { self.nones })
        {
            return None;
        }
        if self.counts.changes && self.random.at_odds(self.others) {
            self.change();
        }
        let manner = if self.random.at_odds(self.strays) {
            self.random.manner()
        } else {
            self.manner
        };
        let rows = match manner {
            Manner::Extreme => self.extremes(),
            Manner::Tiny => self.tinies(),
            Manner::Beside if !first => self.random.rows_beside(&self.before.clone()),
            Manner::Nearer if !first => self.nearer(),
            Manner::Traded if !first => self.traded(),
            _ => self.fresh(),
        };
        let ends = rows.chunks_exact(2);
        let rows: Vec<f64> = ends.flat_map(|ends| bounded([ends[0], ends[1]])).collect();
        self.before.clone_from(&rows);
        Some(Rows {
            m: self.m,
            numbers: rows,
        })
    }
}
