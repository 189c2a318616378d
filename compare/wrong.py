#!/usr/bin/env python3
"""Writes the comparison with one thing wrong in it, so that it differs.

usage: wrong.py NAME SOURCE OUT
  NAME: one of WRONG; SOURCE: the folder that holds core/geop-core-math
  OUT: where the Rust is written as OUT/geop_core_math, and beside it compare/src with the declaration of the archive
       wrong.py --names
  each NAME with the crate whose list its case is of, or with hostile or sheets
"""
import os
import shutil
import sys

import prepare

RUST = "geop_core_math"
COMPARE = "compare/src"
# The comparison declares the archive by this file of the crate for Rust.
DECLARED = "rust/src/archive.rs"

# (name, the list of its case, folder, file, old, new)
WRONG = [
    # The middle by half the width: the greatest float has another one.
    (
        "middle",
        "interval_replay",
        RUST,
        "scalars/mod.rs",
        "let m = (self.lo + self.hi) / 2.0;",
        "let m = self.lo + (self.hi - self.lo) / 2.0;",
    ),
    # A root of zero that is not stepped below zero.
    (
        "root",
        "interval_replay",
        RUST,
        "scalars/mod.rs",
        "next_down(lo_clamped.sqrt()),",
        "next_down(lo_clamped.sqrt()).max(0.0),",
    ),
    # Two terms or more of an entry below the diagonal, subtracted in another order: three rows are needed.
    (
        "order",
        "linear_replay",
        RUST,
        "solvers/linear.rs",
        "let sum = (0..j).fold(a[i][j], |sum, k| sum.sub(l[i][k].mul(l[j][k])));",
        "let sum = (0..j).rev().fold(a[i][j], |sum, k| sum.sub(l[i][k].mul(l[j][k])));",
    ),
    # An undecided first step as a stop, whether or not a step came before.
    (
        "stop",
        "run_replay",
        RUST,
        "solvers/least_squares.rs",
        "if first && judged.undecided && last.is_some() && !judged.contracting {",
        "if first && judged.undecided && !judged.contracting {",
    ),
    # The last pair of the filter alone: a third point is needed.
    (
        "filter",
        "run_replay",
        RUST,
        "solvers/least_squares.rs",
        "&& filter.iter().all(|&(f_taken, theta_taken)| {",
        "&& filter.iter().rev().take(1).all(|&(f_taken, theta_taken)| {",
    ),
    # One turn-down more before number 4.
    ("rule", "hostile", COMPARE, "hostile/rule.rs", "1100 * (iterations + 1)", "1100 * iterations + 1101"),
    # A zero kept behind a minus sign.
    (
        "spelling",
        "sheets",
        COMPARE,
        "spellings/normalised.rs",
        "size if sign == b\"-\" => [b\"-\", size].concat(),",
        "size if sign == b\"-\" => [b\"-0\", size].concat(),",
    ),
    # Minus zero below zero.
    ("sheet", "sheets", COMPARE, "sheets/reader.rs", "negative: minus && !digits.is_empty(),", "negative: minus,"),
]


def write(name, source, out):
    _, _, folder, file, old, new = next(wrong for wrong in WRONG if wrong[0] == name)
    for path, text in prepare.prepared(os.path.join(source, "core/geop-core-math/src")).items():
        path = os.path.join(out, RUST, path)
        os.makedirs(os.path.dirname(path), exist_ok=True)
        open(path, "w", encoding="utf-8").write(text)
    root = os.path.dirname(os.path.dirname(os.path.abspath(__file__)))
    shutil.copytree(os.path.join(root, COMPARE), os.path.join(out, COMPARE), dirs_exist_ok=True)
    os.makedirs(os.path.dirname(os.path.join(out, DECLARED)), exist_ok=True)
    shutil.copy(os.path.join(root, DECLARED), os.path.join(out, DECLARED))
    path = os.path.join(out, folder, file)
    text = open(path, encoding="utf-8").read()
    if text.count(old) != 1:
        sys.exit(f"wrong.py: {file} has {old!r} {text.count(old)} times, not once")
    open(path, "w", encoding="utf-8").write(text.replace(old, new))


def main():
    if sys.argv[1:] == ["--names"]:
        for name, of, *_ in WRONG:
            print(name, of)
    elif len(sys.argv) == 4:
        write(*sys.argv[1:])
    else:
        sys.exit(__doc__)


main()
