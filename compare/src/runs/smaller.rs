//! Smaller runs: fewer replies, iterations, variables and rows, and simpler numbers.

use crate::run::pieces::scalars;
use crate::runs::beside::{Compared, Manner, compared};
use crate::runs::problem::{MOST, Problem, Reply, Rows, Sizes, Source, in_domain};
use crate::runs::rust::{History, history_of};
use crate::shrink::{Case, WHOLES, changes_in, simpler_in, simpler_whole, smallest, without};

/// A run up to the answer that differs.
#[derive(Clone)]
pub struct Smaller {
    sizes: Sizes,
    /// The longest step, and then the start.
    numbers: Vec<f64>,
    replies: Vec<Reply>,
    manner: Manner,
}

/// What is counted of a run's sizes.
#[derive(Clone, Copy, PartialEq, Eq)]
enum Axis {
    Variables,
    Constraints,
    Residuals,
}

/// Rows without the i-th variable, constraint or residual; as they are where there is no such constraint.
fn rows_without(rows: &Rows, sizes: Sizes, along: Axis, i: usize) -> Rows {
    let Sizes { n, s, .. } = sizes;
    let m = rows.m;
    if along == Axis::Constraints && i >= m {
        return rows.clone();
    }
    let (constraints, sum) = rows.numbers.split_at(2 * m * (n + 1));
    let mut left = Vec::new();
    for (part, count, axis) in [
        (constraints, m, Axis::Constraints),
        (sum, s, Axis::Residuals),
    ] {
        let (values, slopes) = part.split_at(2 * count);
        if along == axis {
            left.extend(without(values, [count, 1], i, true));
            left.extend(without(slopes, [count, n], i, true));
        } else if along == Axis::Variables {
            left.extend_from_slice(values);
            left.extend(without(slopes, [count, n], i, false));
        } else {
            left.extend_from_slice(part);
        }
    }
    Rows {
        m: m - usize::from(along == Axis::Constraints),
        numbers: left,
    }
}

impl Smaller {
    /// The run up to its answer `at`.
    pub fn of(history: &History, at: usize, manner: Manner) -> Smaller {
        let mut numbers = vec![history.max_step.lo, history.max_step.hi];
        numbers.extend(&history.start);
        Smaller {
            sizes: history.sizes,
            numbers,
            replies: history.replies[..at.min(history.replies.len())].to_vec(),
            manner,
        }
    }

    fn compared(&self) -> Compared {
        let all = scalars(&self.numbers);
        let history = history_of(Problem {
            sizes: self.sizes,
            max_step: all[0],
            start: all[1..].to_vec(),
            source: Source::Left(self.replies.clone().into_iter()),
        });
        compared(&history, self.manner, |_, _| {})
    }

    /// Whether a begin accepts it.
    fn begins(&self) -> bool {
        in_domain(&self.numbers) && self.numbers[0] > 0.0 && self.numbers[1] <= MOST
    }

    fn less(&self, along: Axis, i: usize) -> Smaller {
        let mut less = self.clone();
        for rows in less.replies.iter_mut().flatten() {
            *rows = rows_without(rows, self.sizes, along, i);
        }
        match along {
            Axis::Variables => {
                less.sizes.n -= 1;
                less.numbers.drain(2 * i + 2..2 * i + 4);
            }
            Axis::Constraints => {}
            Axis::Residuals => less.sizes.s -= 1,
        }
        less
    }

    fn without_reply(&self, i: usize) -> Smaller {
        let mut less = self.clone();
        less.replies.remove(i);
        less
    }

    fn with_none(&self, i: usize) -> Option<Smaller> {
        let mut less = self.clone();
        less.replies[i].take().map(|_| less)
    }

    fn with_limit(&self, change: usize) -> Option<Smaller> {
        let mut less = self.clone();
        less.sizes.limit = simpler_whole(self.sizes.limit as u64, change)? as usize;
        Some(less)
    }

    fn unrefused(&self) -> Option<Smaller> {
        let mut less = self.clone();
        std::mem::take(&mut less.manner.refuses).then_some(less)
    }

    /// Simpler numbers of the beginning, and then of each reply.
    fn simpler(&self, mut change: usize) -> Option<Smaller> {
        let mut less = self.clone();
        let rows = less.replies.iter_mut().flatten();
        let rows = rows.map(|rows| &mut rows.numbers);
        for numbers in std::iter::once(&mut less.numbers).chain(rows) {
            if change < changes_in(numbers) {
                *numbers = simpler_in(numbers, change)?;
                return less.begins().then_some(less);
            }
            change -= changes_in(numbers);
        }
        None
    }

    /// How many changes there are of each kind, in their order.
    fn kinds(&self) -> [usize; 8] {
        let Sizes { n, s, .. } = self.sizes;
        let replies = self.replies.len();
        let rows = self.replies.iter().flatten();
        let m = rows.clone().map(|rows| rows.m).max().unwrap_or(0);
        let slices = std::iter::once(&self.numbers).chain(rows.map(|rows| &rows.numbers));
        let numbers = slices.map(|slice| changes_in(slice)).sum();
        [1, replies, replies, WHOLES, n, m, s, numbers]
    }

    /// The smallest run found that differs as a case of the list, with how it differs.
    pub fn least(self) -> String {
        let mut least = smallest(self, |case| case.compared().differs.is_some());
        least.manner.tells = true;
        let Compared { differs, texts, .. } = least.compared();
        let [rust, rattle] = texts.unwrap_or_default();
        let (at, how) = differs.unwrap_or_default();
        crate::case("run_replay", &rust, &rattle) + &format!("answer {at}: {how}\n")
    }
}

impl Case for Smaller {
    fn changes(&self) -> usize {
        self.kinds().iter().sum()
    }

    fn changed(&self, mut change: usize) -> Option<Smaller> {
        let mut kind = 0;
        for count in self.kinds() {
            if change < count {
                break;
            }
            change -= count;
            kind += 1;
        }
        match kind {
            0 => self.unrefused(),
            1 => Some(self.without_reply(change)),
            2 => self.with_none(change),
            3 => self.with_limit(change),
            4 => Some(self.less(Axis::Variables, change)),
            5 => Some(self.less(Axis::Constraints, change)),
            6 => Some(self.less(Axis::Residuals, change)),
            _ => self.simpler(change),
        }
    }
}
