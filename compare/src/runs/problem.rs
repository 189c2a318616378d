//! A problem: its sizes, where it starts, and who answers its questions.

use crate::interval::operands::Random;
use crate::run::pieces::{CONSTRAINTS, RESIDUALS, VARIABLES};
use crate::runs::frame::Frame;
use crate::runs::script::Script;
use crate::runs::smooth::Smooth;
use geop_core_math::scalars::Scalar;

/// 2^400, the greatest magnitude of an end.
pub const MOST: f64 = f64::from_bits(0x58F0_0000_0000_0000);

/// The rows of an answer, of which m are constraints. Flat: the constraint values, their slopes row by row, then the
/// sum's.
#[derive(Clone, Debug, PartialEq)]
pub struct Rows {
    pub m: usize,
    pub numbers: Vec<f64>,
}

/// Rows, or none.
pub type Reply = Option<Rows>;

/// Whether every scalar of `numbers` is in the domain.
pub fn in_domain(numbers: &[f64]) -> bool {
    numbers
        .chunks_exact(2)
        .all(|ends| -MOST <= ends[0] && ends[0] <= ends[1] && ends[1] <= MOST)
}

#[derive(Clone, Copy, Debug, PartialEq, Eq)]
pub struct Sizes {
    pub n: usize,
    pub s: usize,
    pub limit: usize,
}

impl Sizes {
    /// How many numbers a reply has with m constraint rows.
    pub fn row_numbers(&self, m: usize) -> usize {
        2 * (m + self.s) * (self.n + 1)
    }
}

/// How many constraint rows the answers of a problem have: so many, or up to so many, and another number now and then.
#[derive(Clone, Copy)]
pub struct Counts {
    pub m: usize,
    pub changes: bool,
}

/// Who answers.
pub enum Source {
    Frame(Frame),
    Smooth(Smooth),
    Script(Script),
    /// These in order, then none.
    Given(std::vec::IntoIter<Reply>),
    /// These in order; then the run is left, with its question open.
    Left(std::vec::IntoIter<Reply>),
}

impl Source {
    pub fn given(replies: Vec<Reply>) -> Source {
        Source::Given(replies.into_iter())
    }

    pub fn name(&self) -> &'static str {
        match self {
            Source::Frame(_) => "frames",
            Source::Smooth(_) => "smooth",
            Source::Script(_) => "scripts",
            Source::Given(_) => "named",
            Source::Left(_) => "left",
        }
    }

    /// Whether the run is left here.
    pub fn leaves(&self) -> bool {
        matches!(self, Source::Left(replies) if replies.len() == 0)
    }

    /// The answer at a point: none where some end would be outside the domain.
    pub fn reply(&mut self, point: &[Scalar]) -> Reply {
        let rows = match self {
            Source::Frame(frame) => frame.rows(point),
            Source::Smooth(smooth) => smooth.rows(point),
            Source::Script(script) => script.next(),
            Source::Given(replies) | Source::Left(replies) => replies.next().flatten(),
        };
        rows.filter(|rows| in_domain(&rows.numbers))
    }
}

pub struct Problem {
    pub sizes: Sizes,
    pub max_step: Scalar,
    pub start: Vec<Scalar>,
    pub source: Source,
}

impl Problem {
    /// A smooth one of these sizes, whose answers all have m constraint rows.
    pub fn smooth(seed: u64, sizes: Sizes, m: usize) -> Problem {
        let counts = Counts { m, changes: false };
        Random::new(seed).smooth_problem(sizes, counts)
    }
}

impl Random {
    /// Mostly few.
    fn count(&mut self, most: usize) -> usize {
        let most = if self.at_odds(5) { most } else { most.min(3) };
        self.below(most as u64 + 1) as usize
    }

    /// Mostly few iterations; many only where a step costs little.
    pub fn limit(&mut self, n: usize) -> usize {
        match self.below(64) {
            0 => 0,
            1 if n <= 4 => 200,
            2 if n <= 6 => self.below(201) as usize,
            3..12 => self.below(24) as usize,
            _ => self.below(6) as usize,
        }
    }

    fn max_step(&mut self) -> Scalar {
        let size = match self.below(64) {
            0 => self.sized(-1074, -900).abs(),
            1..6 => self.sized(-60, -10).abs(),
            6..16 => MOST,
            _ => self.sized(-6, 8).abs(),
        };
        let size = size.min(MOST);
        let wide = if self.at_odds(8) { 1.5 } else { 1.0 };
        Scalar {
            lo: size,
            hi: (size * wide).min(MOST),
        }
    }

    fn start(&mut self, n: usize) -> Vec<Scalar> {
        let class = self.below(8);
        (0..n)
            .map(|_| {
                let x = match class {
                    0 => 0.0,
                    1 => self.sized(40, 70),
                    2 => self.sized(-1074, 399),
                    _ => self.sized(-3, 5),
                };
                let half = match self.below(16) {
                    0 => self.sized(-60, 2).abs(),
                    _ => 0.0,
                };
                Scalar {
                    lo: x - half,
                    hi: x + half,
                }
            })
            .collect()
    }

    fn sizes(&mut self, changes: bool) -> (Sizes, Counts) {
        let (n, m) = (self.count(VARIABLES), self.count(CONSTRAINTS));
        let s = self.count(RESIDUALS);
        let limit = self.limit(n.max(m).max(s / 2));
        (Sizes { n, s, limit }, Counts { m, changes })
    }

    fn smooth_problem(&mut self, sizes: Sizes, counts: Counts) -> Problem {
        Problem {
            sizes,
            max_step: self.max_step(),
            start: self.start(sizes.n),
            source: Source::Smooth(Smooth::drawn(self, sizes, counts)),
        }
    }

    fn script_problem(&mut self, changes: bool) -> Problem {
        let tiny = self.at_odds(6);
        let (sizes, counts) = if tiny {
            // Few constraints, some of them of tiny slopes: their basis may be refused.
            let (n, m) = (1 + self.below(3), 2 + self.below(2));
            let sizes = Sizes {
                n: n as usize,
                s: usize::from(self.at_odds(4)),
                limit: 1 + self.below(4) as usize,
            };
            let m = m as usize;
            (sizes, Counts { m, changes })
        } else {
            self.sizes(changes)
        };
        Problem {
            sizes,
            max_step: self.max_step(),
            start: self.start(sizes.n),
            source: Source::Script(Script::new(self.word(), sizes, counts, tiny)),
        }
    }

    fn frame_problem(&mut self, changes: bool) -> Problem {
        let mut frame = Frame::drawn(self);
        if changes {
            frame.place_stops(self);
        }
        let sizes = frame.sizes(self);
        Problem {
            sizes,
            max_step: frame.reach(self),
            start: frame.start.clone(),
            source: Source::Frame(frame),
        }
    }
}

/// Whether the answers of the i-th problem may change how many constraint rows they have: two of each five.
pub fn may_change(i: u64) -> bool {
    i % 5 < 2
}

/// The i-th problem of a seed.
pub fn drawn(seed: u64, i: u64) -> Problem {
    let changes = may_change(i);
    let mut random = Random::new(seed.wrapping_mul(0x2545_F491_4F6C_DD1D) ^ i << 20);
    match i % 8 {
        0..3 => random.frame_problem(changes),
        3..5 => {
            let (sizes, counts) = random.sizes(changes);
            random.smooth_problem(sizes, counts)
        }
        _ => random.script_problem(changes),
    }
}
