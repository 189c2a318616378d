//! The fixed list of runs that crates/run_replay replays: `run n s limit`, the words of the longest step and of the
//! start, and the answer to the beginning; then for each reply a line, `r m count words` or `n`, and its answer; then
//! `end`. An answer is `q number kind standing point`, `f stop rejected independent constraints iterations turned
//! standing point` or `x number`. Numbers are hexadecimal, words have 16 digits.

use crate::{file, number};
use yadzvego::scalars::Scalar;
use yadzvego::solvers::least_squares::{Rejection, Stop};
use yadzvego::{Event, Kind};

/// The rows of a reply, `m` constraints among them.
#[derive(Debug, PartialEq)]
pub struct Rows {
    pub m: usize,
    pub ends: Vec<f64>,
}

/// The answer to a begin is `answers[0]`, that to `replies[i]` is `answers[i + 1]`.
pub struct Listed {
    pub n: usize,
    pub s: usize,
    pub limit: usize,
    pub max_step: Scalar,
    pub start: Vec<f64>,
    pub replies: Vec<Option<Rows>>,
    pub answers: Vec<String>,
}

fn floats(tokens: &[&str]) -> Vec<f64> {
    let float = |token: &&str| f64::from_bits(number(token) as u64);
    tokens.iter().map(float).collect()
}

fn listed(line: &str) -> Listed {
    let tokens: Vec<&str> = line.split(' ').collect();
    let ends = floats(&tokens[4..]);
    Listed {
        n: number(tokens[1]),
        s: number(tokens[2]),
        limit: number(tokens[3]),
        max_step: Scalar::new(ends[0], ends[1]),
        start: ends[2..].to_vec(),
        replies: Vec::new(),
        answers: Vec::new(),
    }
}

fn rows(line: &str) -> Option<Rows> {
    let tokens: Vec<&str> = line.split(' ').collect();
    (tokens[0] == "r").then(|| Rows {
        m: number(tokens[1]),
        ends: floats(&tokens[3..]),
    })
}

pub fn runs() -> Vec<Listed> {
    let mut runs = Vec::new();
    for line in file("crates/run_replay/stdin").lines() {
        if line.starts_with("run") {
            runs.push(listed(line));
            continue;
        }
        let run = runs.last_mut().expect("the list begins with a run");
        match &line[..1] {
            "r" | "n" => run.replies.push(rows(line)),
            "e" => {}
            _ => run.answers.push(line.to_string()),
        }
    }
    runs
}

/// Each number as its word, after a space.
pub fn words(numbers: &[f64]) -> String {
    let word = |x: &f64| format!(" {:016X}", x.to_bits());
    numbers.iter().map(word).collect()
}

fn rejection(rejected: Option<Rejection>) -> usize {
    match rejected {
        None => 0,
        Some(Rejection::NotPositive) => 1,
        Some(Rejection::Infeasible) => 2,
        Some(Rejection::Unresolved) => 3,
        Some(Rejection::NotLower) => 4,
    }
}

/// `stop rejected independent constraints iterations turned`.
pub fn ending(stop: Stop, iterations: usize, turned_down: usize) -> String {
    let (number, rejected, independent, constraints) = match stop {
        Stop::Infeasible => (0, None, 0, 0),
        Stop::NoChange { rejected } => (1, rejected, 0, 0),
        Stop::Undecided => (2, None, 0, 0),
        Stop::Flat {
            independent,
            constraints,
        } => (3, None, independent, constraints),
        Stop::Damped { rejected } => (4, rejected, 0, 0),
        Stop::Budget => (5, None, 0, 0),
    };
    let rejected = rejection(rejected);
    format!("{number} {rejected} {independent:X} {constraints:X} {iterations:X} {turned_down:X}")
}

/// The list's line of an answer.
pub fn line(event: Event, point: &[f64]) -> String {
    match event {
        Event::Question {
            number,
            kind,
            standing,
        } => {
            let kind = match kind {
                Kind::Start => 0,
                Kind::Trial => 1,
                Kind::Correction => 2,
            };
            format!("q {number:X} {kind} {standing:X}{}", words(point))
        }
        Event::Finish {
            stop,
            iterations,
            turned_down,
            standing,
        } => {
            let ending = ending(stop, iterations, turned_down);
            format!("f {ending} {standing:X}{}", words(point))
        }
        Event::Refused(why) => format!("x {}", why.number()),
    }
}
