//! A run as text: `run n s limit`, the words of the longest step and of the start, and the answer to the beginning;
//! then for each reply a line, `r m count words` or `n`, and its answer; then `end`. Numbers are hexadecimal, words
//! have 16 digits.

use crate::runs::problem::{Reply, Rows, Sizes};
use crate::words::{hex, words};
use geop_core_math::scalars::Scalar;

pub fn beginning(sizes: Sizes, max_step: Scalar, start: &[f64]) -> String {
    let Sizes { n, s, limit } = sizes;
    let mut numbers = vec![max_step.lo, max_step.hi];
    numbers.extend(start);
    format!("run {n:X} {s:X} {limit:X} {}\n", hex(&words(&numbers)))
}

pub fn reply(reply: &Reply) -> String {
    match reply {
        None => "n\n".to_string(),
        Some(Rows { m, numbers }) if numbers.is_empty() => format!("r {m:X} 0\n"),
        Some(Rows { m, numbers }) => {
            format!("r {m:X} {:X} {}\n", numbers.len(), hex(&words(numbers)))
        }
    }
}
