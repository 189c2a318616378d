//! What a call answers, in the protocol's words, with the point that goes with it. Kinds: 0 start, 1 trial, 2
//! correction. Stops: 0 infeasible, 1 nochange, 2 undecided, 3 flat, 4 damped, 5 budget. Rejections: 0 none, 1
//! notpositive, 2 infeasible, 3 unresolved, 4 notlower.

use crate::words::hex;

#[rustfmt::skip]
pub const STOPS: [&str; 6] = ["infeasible", "nochange", "undecided", "flat", "damped", "budget"];
#[rustfmt::skip]
pub const REJECTIONS: [&str; 5] = ["none", "notpositive", "infeasible", "unresolved", "notlower"];

/// A question that is asked; the words of its point.
#[derive(Clone, Debug, PartialEq, Eq)]
pub struct Question {
    pub number: usize,
    pub kind: u8,
    pub standing: usize,
    pub point: Vec<u64>,
}

/// Where a run ended; the words of the standing point.
#[derive(Clone, Debug, PartialEq, Eq)]
pub struct Finish {
    pub stop: u8,
    pub rejected: u8,
    pub independent: usize,
    pub constraints: usize,
    pub iterations: usize,
    pub turned_down: usize,
    pub standing: usize,
    pub point: Vec<u64>,
}

/// How far a run was when it was refused by an arithmetic error.
#[derive(Clone, Debug, PartialEq, Eq)]
pub struct Moment {
    pub iterations: usize,
    pub turned_down: usize,
    pub standing: usize,
    pub point: Vec<u64>,
}

#[derive(Clone, Debug, PartialEq, Eq)]
pub enum Answer {
    Question(Question),
    Finish(Finish),
    /// 5 or 6: the run is over.
    Error(u64, Moment),
    /// 1 to 4: nothing changed.
    Refused(u64),
}

impl Answer {
    /// A line: `q number kind standing point`, `f stop rejected independent constraints iterations turned standing
    /// point`, or `x number`; numbers hexadecimal, points in words.
    pub fn line(&self) -> String {
        let with = |start: String, point: &[u64]| format!("{start} {}", hex(point));
        let line = match self {
            Answer::Question(q) => with(
                format!("q {:X} {:X} {:X}", q.number, q.kind, q.standing),
                &q.point,
            ),
            Answer::Finish(f) => with(
                format!(
                    "f {:X} {:X} {:X} {:X} {:X} {:X} {:X}",
                    f.stop,
                    f.rejected,
                    f.independent,
                    f.constraints,
                    f.iterations,
                    f.turned_down,
                    f.standing
                ),
                &f.point,
            ),
            Answer::Error(number, _) | Answer::Refused(number) => format!("x {number:X}"),
        };
        line.trim_end().to_string()
    }
}
