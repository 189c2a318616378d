//! The fixed list that `run_replay` reads: small runs that together show all that `tally::expected` lists, a few of the
//! greatest sizes, and begins and replies that are refused. Refusals 1 to 4 are by the rule, all else is by the Rust.

use crate::interval::operands::Random;
use crate::runs::beside::bad_reply;
use crate::runs::named;
use crate::runs::problem::{self, MOST, Problem, Sizes};
use crate::runs::rust::{History, history_of};
use crate::runs::tally::{Tally, expected, shown};
use crate::runs::text::{beginning, reply};
use geop_core_math::scalars::Scalar;
use geop_core_math::trace::Event;

/// So many runs at least, and each thing that is listed is shown by so many of those drawn, where so many tries find
/// them.
const RUNS: usize = 200;
const SHOWN: u64 = 6;
const TRIES: u64 = 20_000;

/// Sizes, replies and turn-downs of a small run, and the runs of the greatest sizes.
const SMALL: usize = 8;
const REPLIES: usize = 14;
const TURN_DOWNS: usize = 40;
const GREATEST: usize = 2;

/// One question in so many gets a refused reply first, and one run in so many a reply after its end.
const REFUSED: u64 = 5;

/// The run with refused replies in between and after its end.
fn text(history: &History, random: &mut Random) -> String {
    let mut text = beginning(history.sizes, history.max_step, &history.start);
    for (i, answer) in history.answers.iter().enumerate() {
        text += &format!("{}\n", answer.line());
        let Some(next) = history.replies.get(i) else {
            continue;
        };
        if random.at_odds(REFUSED) {
            let which = [0, 1, 3][random.below(3) as usize];
            if let Some((rows, _, number)) = bad_reply(history.sizes, random, which) {
                text += &format!("{}x {number:X}\n", reply(&Some(rows)));
            }
        }
        text += &reply(next);
    }
    if random.at_odds(REFUSED) {
        text += "n\nx 4\n";
    }
    text + "end\n"
}

fn is_small(history: &History) -> bool {
    let turned = |&&event: &&Event| event == Event::TurnedDown;
    let turn_downs = history.events.iter().filter(turned).count();
    history.replies.len() <= REPLIES && turn_downs <= TURN_DOWNS
}

/// A begin that is refused, and a reply to no run.
fn refused_begin(sizes: Sizes, max_step: Scalar, start: &[f64], number: u64) -> String {
    let text = beginning(sizes, max_step, start);
    format!("{text}x {number:X}\nn\nx 4\nend\n")
}

fn refused_begins() -> Vec<String> {
    let fit = Sizes {
        n: 1,
        s: 1,
        limit: 5,
    };
    let (one, start) = (Scalar::ONE, [1.0, 1.0]);
    let above = f64::from_bits(MOST.to_bits() + 1);
    let max = |lo: f64, hi: f64| Scalar { lo, hi };
    vec![
        refused_begin(Sizes { n: 13, ..fit }, one, &[1.0; 26], 1),
        refused_begin(Sizes { s: 25, ..fit }, one, &start, 1),
        refused_begin(Sizes { limit: 201, ..fit }, one, &start, 1),
        refused_begin(fit, one, &[2.0, 1.0], 3),
        refused_begin(fit, one, &[1.0, above], 3),
        refused_begin(fit, one, &[-above, 1.0], 3),
        refused_begin(fit, one, &[f64::NAN, 1.0], 3),
        refused_begin(fit, max(0.0, 1.0), &start, 3),
        refused_begin(fit, max(1.0, above), &start, 3),
        refused_begin(fit, max(2.0, 1.0), &start, 3),
        refused_begin(fit, max(f64::NAN, f64::NAN), &start, 3),
    ]
}

/// The greatest sizes, for one iteration.
fn greatest(seed: u64) -> Vec<History> {
    let sizes = Sizes {
        n: 12,
        s: 24,
        limit: 1,
    };
    let of_that_size = (0..).map(|i| Problem::smooth(seed ^ i << 8, sizes, 12));
    let few = |history: &History| (2..=4).contains(&history.replies.len()) && is_small(history);
    of_that_size
        .map(history_of)
        .filter(few)
        .take(GREATEST)
        .collect()
}

/// Runs drawn at random, each for something that few of those before show.
fn drawn(seed: u64, wanted: usize) -> Vec<History> {
    let mut tally = Tally::default();
    let mut chosen = Vec::new();
    let names: Vec<String> = expected()
        .into_iter()
        .flat_map(|(_, names)| names)
        .collect();
    for i in 0..TRIES {
        let problem = problem::drawn(seed, i);
        let Sizes { n, s, .. } = problem.sizes;
        if n + s > SMALL {
            continue;
        }
        let history = history_of(problem);
        if n + s + history.most_constraints() > SMALL || !is_small(&history) {
            continue;
        }
        let mut shows = shown(&history);
        shows.sort_unstable();
        shows.dedup();
        let rare = |name: &String| names.contains(name) && tally.count(name) < SHOWN;
        let fill = i > TRIES / 2 && chosen.len() < wanted;
        if fill || shows.iter().any(rare) {
            tally.add(shows);
            chosen.push(history);
        }
    }
    chosen
}

pub fn runs(seed: u64) -> Vec<String> {
    let mut random = Random::new(seed);
    let mut all = refused_begins();
    let named = named::problems().into_iter().map(history_of);
    all.extend(named.map(|history| text(&history, &mut random)));
    all.extend(
        greatest(seed)
            .iter()
            .map(|history| text(history, &mut random)),
    );
    let rest = drawn(seed, RUNS.saturating_sub(all.len()));
    all.extend(rest.iter().map(|history| text(history, &mut random)));
    all
}
