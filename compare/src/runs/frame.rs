//! Frames: points in a plane, held by spans, level and plumb lines, each coordinate preferred where it started. The
//! rows are worked out by the interval operations, in the order that a sheet's are. Behind them come the stops that
//! touch: a stop holds a coordinate at a place, but only where it is at that place or beyond it.

use crate::interval::operands::Random;
use crate::run::pieces::flat;
use crate::runs::problem::{Reply, Rows, Sizes};
use crate::sheets::rows::{Rule, rows};
use geop_core_math::scalars::Scalar;

const POINTS: u64 = 6;
const RULES: u64 = 12;
/// Micrometres.
const FARTHEST: i64 = 10_000_000;

/// A stop: the coordinate, the place, and whether it is met from below.
#[derive(Clone, Copy)]
struct Stop {
    coordinate: usize,
    place: Scalar,
    below: bool,
}

pub struct Frame {
    pub start: Vec<Scalar>,
    pub rules: Vec<Rule>,
    stops: Vec<Stop>,
    /// The size of its coordinates.
    size: i64,
}

/// Where the points are in a plane, whole.
type Places = Vec<[i64; 2]>;

impl Random {
    fn places(&mut self, points: u64, size: i64) -> Places {
        (0..points)
            .map(|_| [self.between(-size, size), self.between(-size, size)])
            .collect()
    }

    fn pair(&mut self, points: u64) -> (usize, usize) {
        let i = self.below(points);
        let j = (i + 1 + self.below(points - 1)) % points;
        (i as usize, j as usize)
    }

    /// A rule that holds at these places, but for the rounding of a span.
    fn rule_of(&mut self, at: &Places) -> Rule {
        let (i, j) = self.pair(at.len() as u64);
        let [dx, dy] = [0, 1].map(|axis| (at[i][axis] - at[j][axis]) as f64);
        if dy == 0.0 {
            return Rule::Level(i, j);
        }
        if dx == 0.0 {
            return Rule::Plumb(i, j);
        }
        Rule::Span(i, j, (dx.hypot(dy).round() as i64).clamp(1, FARTHEST))
    }

    fn any_rule(&mut self, points: u64, size: i64) -> Rule {
        let (i, j) = self.pair(points);
        match self.below(4) {
            0 => Rule::Level(i, j),
            1 => Rule::Plumb(i, j),
            _ => Rule::Span(i, j, self.between(1, 2 * size).min(FARTHEST)),
        }
    }
}

impl Frame {
    pub fn drawn(random: &mut Random) -> Frame {
        let small = !random.at_odds(4);
        let points = 1 + random.below(if small { 3 } else { POINTS });
        let size = [4, 100, 30_000, FARTHEST][random.below(4) as usize];
        let start = random.places(points, size);
        // On a coarse grid, so that many are level or plumb.
        let goal: Places = random
            .places(points, 3)
            .iter()
            .map(|at| at.map(|x| x * (size / 3).max(1)))
            .collect();
        let rules = if points == 1 {
            0
        } else {
            random.below(if small { 5 } else { RULES + 1 })
        };
        let consistent = !random.at_odds(3);
        let rules = (0..rules)
            .map(|_| {
                if consistent && !random.at_odds(16) {
                    random.rule_of(&goal)
                } else {
                    random.any_rule(points, size)
                }
            })
            .collect();
        let start = start.iter().flatten().map(|&x| Scalar::from_i64(x));
        Frame {
            start: start.collect(),
            rules,
            stops: Vec::new(),
            size,
        }
    }

    /// As many stops as there is room for, at most three, mostly near where a coordinate starts.
    pub fn place_stops(&mut self, random: &mut Random) {
        let room = (RULES as usize - self.rules.len()).min(3);
        for _ in 0..random.below(room as u64 + 1) {
            let coordinate = random.below(self.start.len() as u64) as usize;
            let from = self.start[coordinate].lo as i64;
            let near = if random.at_odds(4) {
                self.size
            } else {
                (self.size / 8).max(1)
            };
            self.stops.push(Stop {
                coordinate,
                place: Scalar::from_i64(from + random.between(-near, near)),
                below: random.at_odds(2),
            });
        }
    }

    pub fn sizes(&self, random: &mut Random) -> Sizes {
        let n = self.start.len();
        Sizes {
            n,
            s: n,
            limit: random.limit(n),
        }
    }

    pub fn reach(&self, random: &mut Random) -> Scalar {
        let most = match random.below(4) {
            0 => 3,
            1 => FARTHEST,
            _ => self.size,
        };
        Scalar::from_i64(random.between(1, most))
    }

    pub fn rows(&self, x: &[Scalar]) -> Reply {
        let mut e = rows(&self.rules, &self.start, x);
        for stop in &self.stops {
            let beyond = x[stop.coordinate].sub(stop.place);
            let touches = if stop.below {
                beyond.hi >= 0.0
            } else {
                beyond.lo <= 0.0
            };
            if touches {
                let mut slopes = vec![Scalar::ZERO; x.len()];
                slopes[stop.coordinate] = Scalar::ONE;
                e.constraints.push(beyond, slopes);
            }
        }
        let m = e.constraints.values.len();
        let mut numbers = Vec::new();
        for rows in [e.constraints, e.sum] {
            numbers.extend(flat(&rows.values));
            numbers.extend(rows.jacobian.iter().flat_map(|slopes| flat(slopes)));
        }
        Some(Rows { m, numbers })
    }
}
