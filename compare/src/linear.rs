//! The comparison of the functions of `linear`: random calls of every size, and the refusals of counts and lengths.

pub mod functions;
pub mod lengths;
pub mod list;
pub mod matrices;
mod smaller;

use crate::Count;
use crate::interval::operands::Random;
use crate::parts::side_by_side;
use crate::progress::Progress;
use crate::shrink::smallest;
use functions::{Call, FUNCTIONS, Function, LIMIT, Reply};
use smaller::Smaller;

/// The replies of one function.
#[derive(Default)]
struct Tally {
    /// How often each number was replied: 0, and the refusals 1, 2, 5 and 6.
    numbers: [u64; 7],
    compared: u64,
    differ: u64,
}

impl Tally {
    /// Whether the two replies differ.
    fn add(&mut self, expected: &Reply, rattle: &Reply) -> bool {
        self.compared += 1;
        if let Some(count) = self.numbers.get_mut(rattle.number as usize) {
            *count += 1;
        }
        let differ = expected != rattle;
        self.differ += u64::from(differ);
        differ
    }
}

/// A call as a case of the list, with the reply that is expected and the one that is given.
fn case(function: &Function, call: &Call, expected: &Reply, rattle: &Reply) -> String {
    let kept = if rattle.kept {
        ""
    } else {
        "the inputs are written\n"
    };
    let [expected, rattle] = [expected, rattle].map(|reply| list::line(function, call, reply));
    crate::case("linear_replay", &expected, &rattle) + kept
}

impl Smaller<'_> {
    fn replies(&self) -> (Reply, Reply) {
        let out = self.function.shape(self.call.m, self.call.n).out;
        let rattle = self.function.replied(&self.call, vec![self.before; out]);
        ((self.function.rust)(&self.call), rattle)
    }

    /// The smallest call found that differs.
    fn least(self) -> String {
        let least = smallest(self, |call| {
            let (rust, rattle) = call.replies();
            rust != rattle
        });
        let (rust, rattle) = least.replies();
        case(least.function, &least.call, &rust, &rattle)
    }
}

/// What was compared of a function, and the text that says so.
fn compare_function(
    function: &Function,
    seed: u64,
    random: u64,
    progress: &Progress,
) -> (Count, String) {
    let mut tally = Tally::default();
    let mut text = String::new();
    for (call, out, expected) in lengths::refusals(function) {
        let rattle = function.replied(&call, vec![lengths::BEFORE; out]);
        if tally.add(&expected, &rattle) && text.is_empty() {
            text = case(function, &call, &expected, &rattle);
        }
    }
    let lengths = tally.compared;
    let mut drawn = Random::new(seed ^ function.code << 48);
    let size = |random: &mut Random| random.below(LIMIT as u64 + 1) as usize;
    for _ in 0..random {
        let (m, n) = (size(&mut drawn), size(&mut drawn));
        let call = (function.draw)(&mut drawn, m, n);
        let before = f64::from_bits(drawn.word());
        let drawn = Smaller {
            function,
            call,
            before,
        };
        let (rust, rattle) = drawn.replies();
        if tally.add(&rust, &rattle) && text.is_empty() {
            text = drawn.least();
        }
        progress.add(1);
    }
    let [finished, n1, n2, _, _, n5, n6] = tally.numbers;
    text += &format!(
        "{:<20} {lengths:>8} lengths {random:>9} random {:>4} differ; \
         0: {finished}, 1: {n1}, 2: {n2}, 5: {n5}, 6: {n6}",
        function.name, tally.differ
    );
    let count = Count {
        compared: tally.compared,
        differ: tally.differ,
    };
    (count, text)
}

pub fn compare(seed: u64, random: u64) -> Count {
    let progress = Progress::new("linear", random * FUNCTIONS.len() as u64);
    let mut total = Count::default();
    side_by_side(
        FUNCTIONS.len(),
        |i| compare_function(&FUNCTIONS[i], seed, random, &progress),
        |(count, text)| {
            println!("{text}");
            total += count;
        },
    );
    total
}
