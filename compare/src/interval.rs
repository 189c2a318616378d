//! The comparison of the functions of `interval`: all special operands, then random ones.

pub mod functions;
pub mod list;
pub mod operands;

use crate::Count;
use crate::parts::side_by_side;
use crate::progress::Progress;
use crate::shrink::{Case, SCALARS, WHOLES, simpler_scalar, simpler_whole, smallest};
use functions::{FUNCTIONS, Function, Operands, Takes};
use operands::Random;

fn differs(function: &Function, operands: &Operands) -> bool {
    (function.rust)(operands) != (function.rattle)(operands)
}

/// Operands to be made simpler, by what the function takes.
struct Simpler(Takes, Operands);

impl Case for Simpler {
    fn changes(&self) -> usize {
        match self.0 {
            Takes::Integer | Takes::Integers => 2 * WHOLES,
            _ => 2 * SCALARS,
        }
    }

    fn changed(&self, change: usize) -> Option<Simpler> {
        let Simpler(takes, mut w) = *self;
        match takes {
            Takes::Nothing => return None,
            Takes::Integer | Takes::Integers => {
                let place = change / WHOLES;
                w[place] = simpler_whole(w[place], change % WHOLES)?;
            }
            Takes::Float => w[0] = simpler_scalar([w[0], w[0]], change % SCALARS)?[0],
            Takes::Scalar | Takes::Scalars => {
                let place = 2 * (change / SCALARS);
                let ends = simpler_scalar([w[place], w[place + 1]], change % SCALARS)?;
                w[place..place + 2].copy_from_slice(&ends);
            }
        }
        Some(Simpler(takes, w))
    }
}

/// The smallest operands found that differ, as a case of the list.
fn case(function: &Function, operands: &Operands) -> String {
    let start = Simpler(function.takes, list::plain(function.takes, operands));
    let Simpler(_, least) = smallest(start, |case| differs(function, &case.1));
    let [rust, rattle] =
        [function.rust, function.rattle].map(|by| list::line(function, &least, by(&least)));
    crate::case("interval_replay", &rust, &rattle)
}

/// What was compared of a function, and the line that says so.
fn compare_function(
    function: &Function,
    seed: u64,
    random: u64,
    progress: &Progress,
) -> (Count, String) {
    let random = if function.takes == Takes::Nothing {
        0
    } else {
        random
    };
    let specials = operands::specials(function.takes);
    let mut drawn = Random::new(seed ^ u64::from(function.code) << 56);
    let drawn = (0..random).map(|_| drawn.operands(function.takes));
    let (mut differ, mut first) = (0, None);
    for operands in specials.iter().copied().chain(drawn) {
        if differs(function, &operands) {
            differ += 1;
            first = first.or(Some(operands));
        }
        progress.add(1);
    }
    let line = format!(
        "{:<20} {:>8} special {:>9} random {:>4} differ",
        function.name,
        specials.len(),
        random,
        differ
    );
    let count = Count {
        compared: specials.len() as u64 + random,
        differ,
    };
    match first {
        Some(operands) => (count, format!("{}{line}", case(function, &operands))),
        None => (count, line),
    }
}

pub fn compare(seed: u64, random: u64) -> Count {
    println!(
        "seed {}; special scalars {}, special floats {}, special integers {}",
        seed,
        operands::special_scalars().len(),
        operands::special_floats().len(),
        operands::special_integers().len()
    );
    let progress = Progress::new("scalars", random * FUNCTIONS.len() as u64);
    let mut total = Count::default();
    side_by_side(
        FUNCTIONS.len(),
        |i| compare_function(&FUNCTIONS[i], seed, random, &progress),
        |(count, text)| {
            println!("{text}");
            total += count;
        },
    );
    total
}
