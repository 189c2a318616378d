//! The comparison of the pieces of a run: random calls of every size, and the refusals of counts and lengths.

pub mod lengths;
pub mod pieces;
pub mod problems;
pub mod rust;
mod smaller;

use crate::Count;
use crate::interval::operands::Random;
use crate::parts::side_by_side;
use crate::progress::Progress;
use crate::words::{hex, words};
use pieces::{CONSTRAINTS, Call, PIECES, Piece, RESIDUALS, Reply, VARIABLES};
use smaller::least;
use std::collections::BTreeMap;

/// The replies of one piece.
#[derive(Default)]
struct Tally {
    /// How often each number was replied: 0, and the refusals 1, 2, 5 and 6.
    numbers: [u64; 7],
    /// How often each thing was said, by random calls that were not refused.
    said: BTreeMap<&'static str, u64>,
    compared: u64,
    differ: u64,
}

fn bits(marks: &[bool]) -> String {
    marks
        .iter()
        .map(|&mark| if mark { '1' } else { '0' })
        .collect()
}

fn shown(piece: &Piece, call: &Call, expected: &Reply, rattle: &Reply) -> String {
    let (n, m, s) = (call.n, call.m, call.s);
    let mut text = format!("  {} of {n}, {m} and {s}, count {}", piece.name, call.count);
    for input in &call.inputs {
        text += &format!("\n    input    {}", hex(&words(input)));
    }
    for scalar in &call.scalars {
        text += &format!("\n    scalar   {}", hex(&words(&[scalar.lo, scalar.hi])));
    }
    text += &format!("\n    marks    {} taken {}", bits(&call.marks), call.taken);
    text += &format!("\n    before   {}", hex(&words(&call.out.concat())));
    for (name, reply) in [("expected", expected), ("Rattle  ", rattle)] {
        let (value, out) = (hex(&reply.value), hex(&reply.out));
        let (number, marks) = (reply.number, bits(&reply.marks));
        let inputs = if reply.kept { "" } else { ", inputs written" };
        text += &format!("\n    {name} {number} value {value} out {out} marks {marks}{inputs}");
    }
    text + "\n"
}

impl Tally {
    /// Whether the two replies differ.
    fn add(&mut self, expected: &Reply, rattle: &Reply) -> bool {
        self.compared += 1;
        if let Some(count) = self.numbers.get_mut(rattle.number as usize) {
            *count += 1;
        }
        let differ = expected != rattle;
        self.differ += u64::from(differ);
        differ
    }

    fn line(&self, name: &str, lengths: u64, random: u64) -> String {
        let [finished, n1, n2, _, _, n5, n6] = self.numbers;
        let said = self.said.iter().filter(|(name, _)| !name.is_empty());
        let said: String = said
            .map(|(name, count)| format!("; {name}: {count}"))
            .collect();
        format!(
            "{name:<20} {lengths:>8} lengths {random:>9} random {:>4} differ; \
             0: {finished}, 1: {n1}, 2: {n2}, 5: {n5}, 6: {n6}{said}",
            self.differ
        )
    }
}

/// The smallest call found that differs. The fixed lists have no pieces, so it is told by its numbers.
fn least_shown(piece: &Piece, call: &Call) -> String {
    let call = least(piece, call);
    shown(piece, &call, &(piece.rust)(&call), &piece.replied(&call))
}

/// What was compared of a piece, and the text that says so.
fn compare_piece(piece: &Piece, seed: u64, random: u64, progress: &Progress) -> (Count, String) {
    let mut tally = Tally::default();
    let mut text = String::new();
    for (call, expected) in lengths::refusals(piece) {
        let rattle = piece.replied(&call);
        if tally.add(&expected, &rattle) && text.is_empty() {
            text = shown(piece, &call, &expected, &rattle);
        }
    }
    let lengths = tally.compared;
    let mut drawn = Random::new(seed ^ piece.code << 40);
    let size = |random: &mut Random, most: usize| random.below(most as u64 + 1) as usize;
    for _ in 0..random {
        let (n, m) = (size(&mut drawn, VARIABLES), size(&mut drawn, CONSTRAINTS));
        let s = size(&mut drawn, RESIDUALS);
        let call = (piece.draw)(&mut drawn, n, m, s);
        let rattle = piece.replied(&call);
        if tally.add(&(piece.rust)(&call), &rattle) && text.is_empty() {
            text = least_shown(piece, &call);
        }
        if rattle.number == 0 {
            *tally.said.entry((piece.says)(&call, &rattle)).or_default() += 1;
        }
        progress.add(1);
    }
    text += &tally.line(piece.name, lengths, random);
    let count = Count {
        compared: tally.compared,
        differ: tally.differ,
    };
    (count, text)
}

/// The pieces side by side; their lines in order.
pub fn compare(seed: u64, random: u64) -> Count {
    let progress = Progress::new("pieces", random * PIECES.len() as u64);
    let mut total = Count::default();
    side_by_side(
        PIECES.len(),
        |i| compare_piece(&PIECES[i], seed, random, &progress),
        |(count, text)| {
            println!("{text}");
            total += count;
        },
    );
    total
}
