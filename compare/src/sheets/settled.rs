//! What the program must print for a text, by the Rust: read, settled by `minimize`, and printed.

use crate::interval::functions::number_of;
use crate::run::rust::finished;
use crate::sheets::reader::{Sheet, read};
use crate::sheets::rows::answered;
use geop_core_math::scalars::Scalar;
use geop_core_math::solvers::least_squares::{Euclidean, Options, Outcome, Stop, minimize};
use geop_core_math::trace;
use std::fmt::Write;

fn stop_name(stop: Stop) -> &'static str {
    match stop {
        Stop::Infeasible => "infeasible",
        Stop::NoChange { .. } => "nochange",
        Stop::Undecided => "undecided",
        Stop::Flat { .. } => "flat",
        Stop::Damped { .. } => "damped",
        Stop::Budget => "budget",
    }
}

fn finish_lines(end: &Outcome<Vec<Scalar>>) -> String {
    let mut text = format!(
        "stop={}\niterations={}\nturned={}\n",
        stop_name(end.stop),
        end.iterations,
        end.turned_down
    );
    for point in end.x.chunks_exact(2) {
        let [x, y] = [point[0], point[1]].map(|v| v.sharpen().lo.to_bits());
        writeln!(text, "at={x:016X},{y:016X}").expect("a string takes all");
    }
    text
}

fn error_line(number: u64) -> String {
    format!("error={number}\n")
}

fn settled(sheet: &Sheet) -> String {
    let start: Vec<Scalar> = sheet.at.iter().map(|&v| Scalar::from_i64(v)).collect();
    let evaluate = async |x: &Vec<Scalar>| answered(&sheet.rules, &start, x);
    let options = Options {
        max_iterations: sheet.limit,
        max_step: Scalar::from_i64(sheet.reach),
    };
    let end = finished(minimize(&Euclidean, evaluate, start.clone(), options));
    // What the run told is not wanted here, and would be kept.
    trace::told();
    match end {
        Ok(end) => finish_lines(&end),
        Err(error) => error_line(number_of(&error)),
    }
}

/// What the program prints for a text.
pub fn printed(text: &[u8]) -> String {
    match read(text) {
        Ok(sheet) => settled(&sheet),
        Err(number) => error_line(number),
    }
}
