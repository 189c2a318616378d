#!/usr/bin/env python3
"""Copies the scalars of geop-core-math and two of its solvers to a folder, as a crate that rustc compiles alone and
that tells what a run does.

usage: prepare.py SOURCE OUT [--silent]
  SOURCE: the folder that holds core/geop-core-math; OUT: where the crate is written
  --silent: a run tells nothing, so that its time is that of the Rust as it is

Each file must be the one that the comparison was written for, by its sha256. Each edit replaces an exact text an exact
number of times. Where either does not hold, nothing is written.
"""
import hashlib
import os
import sys

FILES = {
    "geop_error.rs": "50a6e657faf78e8445e7baf546416ff7c2b4d39668b46d3535a8c7ad2074f581",
    "scalars/mod.rs": "21d0aa4e84eeed12993c1fda145a424dee222e43bc20809296b6cadaca309128",
    "scalars/number.rs": "968548acec5b65901c98166c5c181a45a619728cc2902259a4d18e869ecad487",
    "solvers/least_squares.rs": "69ddbd08e51a4117f45b07deae12084a78898004137e837c653239e41c643662",
    "solvers/linear.rs": "80021b9e633e88f901e8c54db2e786646d3defb758ec4e93809a80b7eb8c7304",
}

DERIVED = "#[derive(Clone, Copy, Debug, PartialEq, Eq"

SOLVERS = ["dot", "norm", "choose", "sharp", "minus_solved", "least_squares"]
# What a run is made of: functions, methods of `Rows`, structs and their fields.
PIECES = ["step", "judge", "learned", "along", "update_curvature"]
METHODS = ["linearized", "squared", "transposed"]
STRUCTS = ["Step", "Judged"]
FIELDS = [
    "delta: Vec<Scalar>,\n    /// The constraints' multipliers.",
    "lambda: Vec<Scalar>,\n    /// How many of",
    "independent: usize,\n}\n\n/// `v - a w`",
    "s: Vec<Scalar>,\n    length: Scalar,",
    "length: Scalar,\n    /// It definitely improves",
    "lower: bool,\n    /// Neither",
    "undecided: bool,\n    /// It is at most half",
    "contracting: bool,\n}\n\nfn judge(",
]
REJECTIONS = ["NotPositive", "Infeasible", "Unresolved", "NotLower"]
# Where a point is moved on: the end of a loop in `corrected`, and of one in `minimize`.
KEPT = "        (x, e) = (next, e_next);\n    }\n"
FIXED_SIZE = ["solve_linear_system<", "solve_pivoted<", "solve_banded<", "shortest_solution("]


def told(event):
    return f"crate::trace::tell(crate::trace::Event::{event});"


# (file, how often, old, new)
EDITS = [
    # serde is no part of std.
    ("scalars/mod.rs", 1, "pub mod as_f64 {", "#[cfg(any())]\npub mod as_f64 {"),
    # The comparison calls the two from outside the crate.
    ("scalars/mod.rs", 1, "pub(crate) fn next_up(", "pub fn next_up("),
    ("scalars/mod.rs", 1, "pub(crate) fn next_down(", "pub fn next_down("),
    # Rust leaves open which zero f64::min and f64::max give for -0 and +0: here the first. `union` is the one place of
    # those compared where it shows: in `mul` the chosen product is stepped, and both zeros step to the same number; in
    # `abs` both operands of f64::max are absolute values, so no -0 is among them.
    (
        "scalars/mod.rs",
        1,
        "Self::new(self.lo.min(other.lo), self.hi.max(other.hi))",
        "Self::new(crate::first_min(self.lo, other.lo), crate::first_max(self.hi, other.hi))",
    ),
    # serde is no part of std.
    ("solvers/least_squares.rs", 2, DERIVED + ", serde::Serialize, serde::Deserialize)]", DERIVED + ")]"),
    # The comparison calls them from outside the crate.
    *[("solvers/least_squares.rs", 1, f"\nfn {name}(", f"\npub fn {name}(") for name in SOLVERS],
    *[("solvers/least_squares.rs", 1, f"\n    {field}", f"\n    pub {field}") for field in FIELDS],
    *[("solvers/least_squares.rs", 1, f"\nfn {name}(", f"\npub fn {name}(") for name in PIECES],
    ("solvers/least_squares.rs", 1, "\nasync fn corrected<", "\npub async fn corrected<"),
    *[("solvers/least_squares.rs", 1, f"\n    fn {name}(", f"\n    pub fn {name}(") for name in METHODS],
    *[("solvers/least_squares.rs", 1, f"\nstruct {name} {{", f"\npub struct {name} {{") for name in STRUCTS],
    # Where more rows are independent than variables move, k - r wraps and the loop may not end: here there are no
    # directions then. It was met outside the domain only.
    ("solvers/least_squares.rs", 1, "while z.len() < k - r {", "while z.len() < k.saturating_sub(r) {"),
    # A run tells the kind of each question, what it turns down, and when the point of a question is kept or stands.
    (
        "solvers/least_squares.rs",
        1,
        "    let Some(mut e) = evaluate(&x).await else {",
        f"    {told('Start')}\n    let Some(mut e) = evaluate(&x).await else {{",
    ),
    (
        "solvers/least_squares.rs",
        1,
        "Some(next) => match evaluate(&next).await {",
        f"Some(next) => match {{ {told('Trial')} evaluate(&next).await }} {{",
    ),
    (
        "solvers/least_squares.rs",
        1,
        "        let Some(e_next) = evaluate(&next).await else {",
        f"        {told('Correction')}\n        let Some(e_next) = evaluate(&next).await else {{",
    ),
    (
        "solvers/least_squares.rs",
        1,
        KEPT + "    Ok((x, e, taken))",
        f"        {told('Kept')}\n{KEPT}    Ok((x, e, taken))",
    ),
    ("solvers/least_squares.rs", 1, KEPT + "    Ok(Outcome {", f"        {told('Stands')}\n{KEPT}    Ok(Outcome {{"),
    (
        "solvers/least_squares.rs",
        1,
        "if first && judged.undecided && last.is_some() && !judged.contracting {",
        f"if first && judged.undecided && last.is_none() {{ {told('Unstopped')} }}\n"
        "if first && judged.undecided && last.is_some() && !judged.contracting {",
    ),
    (
        "solvers/least_squares.rs",
        1,
        "if taken(&judged) {",
        f"if taken(&judged) {{ if !judged.lower {{ {told('Contracts')} }}",
    ),
    ("solvers/least_squares.rs", 2, "turned_down += 1;", f"turned_down += 1; {told('TurnedDown')}"),
    ("solvers/least_squares.rs", 1, "plain = true;", f"plain = true; {told('Retried')}"),
    *[
        (
            "solvers/least_squares.rs",
            1,
            f"rejected = Some(Rejection::{why});",
            f"rejected = Some(Rejection::{why}); {told(why)}",
        )
        for why in REJECTIONS
    ],
    # Small matrices and vectors of fixed size are not copied, nor are the functions over them compared.
    ("solvers/linear.rs", 1, "    matrix::Matrix,\n", ""),
    ("solvers/linear.rs", 1, "    vector::{Vector, Vector3},\n", ""),
    *[("solvers/linear.rs", 1, f"\npub fn {name}", f"\n#[cfg(any())]\npub fn {name}") for name in FIXED_SIZE],
]

# What a run tells is kept by this line.
TELLS = "        EVENTS.with_borrow_mut(|events| events.push(event));\n"

ROOT = """pub mod geop_error;
pub mod scalars;

pub mod solvers {
    pub mod least_squares;
    pub mod linear;

    // The Rust counts its work here, for tests of its own.
    fn factorised(_rows: usize, _columns: usize) {}
}

// What a run on this thread did, in order, for the comparison.
pub mod trace {
    use std::cell::RefCell;

    #[derive(Clone, Copy, Debug, PartialEq, Eq)]
    pub enum Event {
        // A question of this kind is asked next.
        Start,
        Trial,
        Correction,
        // The point of the last question is kept as a correction.
        Kept,
        // The point that landed last stands.
        Stands,
        // A first step is undecided with no step before, which is no stop; or it is taken since it contracts.
        Unstopped,
        Contracts,
        // A step was turned down, and why.
        TurnedDown,
        Retried,
        NotPositive,
        Infeasible,
        Unresolved,
        NotLower,
    }

    thread_local! {
        static EVENTS: RefCell<Vec<Event>> = const { RefCell::new(Vec::new()) };
    }

    #[inline(always)]
    pub fn tell(event: Event) {
        EVENTS.with_borrow_mut(|events| events.push(event));
    }

    // What was told since this was last asked.
    pub fn told() -> Vec<Event> {
        EVENTS.take()
    }
}

// f64::min and f64::max, and of two equal numbers the first.
pub(crate) fn first_min(a: f64, b: f64) -> f64 {
    if a.is_nan() || b < a { b } else { a }
}

pub(crate) fn first_max(a: f64, b: f64) -> f64 {
    if a.is_nan() || b > a { b } else { a }
}
"""


def prepared(folder):
    texts = {}
    for name, expected in FILES.items():
        path = os.path.join(folder, name)
        data = open(path, "rb").read()
        found = hashlib.sha256(data).hexdigest()
        if found != expected:
            other = "is not the file that this comparison was written for"
            sys.exit(f"compare: {path} {other}: sha256 {found}, not {expected}")
        texts[name] = data.decode("utf-8")
    for name, times, old, new in EDITS:
        found = texts[name].count(old)
        if found != times:
            sys.exit(f"compare: {name} has {old!r} {found} times, not {times}")
        texts[name] = texts[name].replace(old, new)
    texts["lib.rs"] = ROOT
    return texts


def main():
    silent = sys.argv[3:] == ["--silent"]
    if len(sys.argv) != 3 and not silent:
        sys.exit(__doc__)
    source, out = sys.argv[1:3]
    texts = prepared(os.path.join(source, "core/geop-core-math/src"))
    if silent:
        texts["lib.rs"] = texts["lib.rs"].replace(TELLS, "")
    for name, text in texts.items():
        path = os.path.join(out, name)
        os.makedirs(os.path.dirname(path), exist_ok=True)
        with open(path, "w", encoding="utf-8") as file:
            file.write(text)


if __name__ == "__main__":
    main()
