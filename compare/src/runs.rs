//! The comparison of whole runs: `minimize` beside begin, reply and reply none, question by question.

pub mod answers;
pub mod area;
pub mod beside;
pub mod frame;
pub mod list;
pub mod named;
pub mod problem;
pub mod rattle;
pub mod rust;
pub mod script;
mod smaller;
pub mod smooth;
pub mod tally;
pub mod text;

use crate::Count;
use crate::parts::side_by_side;
use crate::progress::Progress;
use beside::{Manner, compared};
use rust::{History, history_of};
use smaller::Smaller;
use std::collections::BTreeMap;
use tally::{Tally, shown};

/// The random runs are compared in so many parts.
const PARTS: usize = 64;
/// A problem whose counts of constraint rows may change is drawn so often at most.
const ATTEMPTS: u64 = 64;

/// How hard a difference is to read: the replies, then the sizes.
type Size = (usize, usize);

#[derive(Default)]
struct Sum {
    tally: Tally,
    problems: BTreeMap<&'static str, u64>,
    answers: u64,
    changing: u64,
    refused: [u64; 4],
    differ: u64,
    /// The smallest of those that differ.
    least: Option<(Size, Smaller)>,
}

fn size(history: &History) -> Size {
    let sizes = history.sizes;
    let rows = history.most_constraints() + sizes.s;
    (history.replies.len(), sizes.n + rows)
}

impl Sum {
    fn add(&mut self, history: History, word: u64) {
        let manner = Manner {
            word,
            refuses: true,
            tells: false,
        };
        let compared = compared(&history, manner, |_, _| {});
        *self.problems.entry(history.source).or_default() += 1;
        self.tally.add(shown(&history));
        self.answers += compared.answers;
        self.changing += u64::from(tally::changes(&history));
        for (sum, refused) in self.refused.iter_mut().zip(compared.refused) {
            *sum += refused;
        }
        if let Some((at, _)) = compared.differs {
            self.differ += 1;
            self.least_of(size(&history), Smaller::of(&history, at, manner));
        }
    }

    fn least_of(&mut self, size: Size, run: Smaller) {
        if self.least.as_ref().is_none_or(|(least, _)| size < *least) {
            self.least = Some((size, run));
        }
    }

    fn join(&mut self, other: Sum) {
        self.tally.join(other.tally);
        for (name, count) in other.problems {
            *self.problems.entry(name).or_default() += count;
        }
        self.answers += other.answers;
        self.changing += other.changing;
        for (sum, refused) in self.refused.iter_mut().zip(other.refused) {
            *sum += refused;
        }
        self.differ += other.differ;
        if let Some((size, run)) = other.least {
            self.least_of(size, run);
        }
    }

    /// Prints what was compared; what never occurred counts as a difference.
    fn told(self) -> Count {
        if let Some((_, run)) = self.least {
            print!("{}", run.least());
        }
        let problems: Vec<String> = self
            .problems
            .iter()
            .map(|(k, v)| format!("{v} {k}"))
            .collect();
        let [rows, ends, area, m] = self.refused;
        println!(
            "runs: {}; {} with changing counts; {} answers, {} runs differ; refused in between: \
             rows {rows}, ends {ends}, area {area}, m {m}",
            problems.join(", "),
            self.changing,
            self.answers,
            self.differ
        );
        let (lines, missing) = self.tally.lines();
        println!("{}", lines.join("\n"));
        for name in &missing {
            println!("  never occurred: {name}");
        }
        Count {
            compared: self.answers,
            differ: self.differ + missing.len() as u64,
        }
    }
}

/// The run of the i-th problem. One that may change its counts of constraint rows is drawn anew until it does, or so
/// often.
fn drawn(seed: u64, i: u64) -> History {
    let of = |attempt: u64| history_of(problem::drawn(seed ^ attempt << 40, i));
    if !problem::may_change(i) {
        return of(0);
    }
    let changing = (0..ATTEMPTS).map(of).find(tally::changes);
    changing.unwrap_or_else(|| of(0))
}

/// The random problems of one part.
fn compare_part(seed: u64, problems: u64, part: usize, progress: &Progress) -> Sum {
    let mut sum = Sum::default();
    for i in (part as u64..problems).step_by(PARTS) {
        sum.add(drawn(seed, i), seed ^ i << 32);
        progress.add(1);
    }
    sum
}

pub fn compare(seed: u64, problems: u64) -> Count {
    let mut sum = Sum::default();
    for (i, problem) in named::problems().into_iter().enumerate() {
        sum.add(history_of(problem), seed ^ i as u64);
    }
    let progress = Progress::new("runs", problems);
    side_by_side(
        PARTS,
        |part| compare_part(seed, problems, part, &progress),
        |part| sum.join(part),
    );
    drop(progress);
    sum.told()
}
