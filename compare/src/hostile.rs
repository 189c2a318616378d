//! Calls that no honest caller makes: runs and areas altered between calls, wrong lengths, numbers outside the domain,
//! replies out of turn. Each call must end, be refused with the number of PROTOCOL, Refusals, and then change not one
//! bit of run and area, and leave a canonical area else.

mod altered;
mod begins;
mod call;
mod rule;
mod smaller;

use crate::Count;
use crate::archive::{EventNumbers, Run};
use crate::interval::operands::Random;
use crate::parts::side_by_side;
use crate::progress::Progress;
use crate::runs::beside::{Held, Manner, compared};
use crate::runs::problem::{self, MOST, Rows};
use crate::runs::rattle::AREA;
use crate::runs::rust::{History, history_of};
use altered::alterations;
use call::Call;

/// The states are altered in so many parts.
const PARTS: usize = 64;
/// So many earlier states of a run are kept, to be handed back out of turn.
const EARLIER: usize = 16;
/// The greatest sum of the sizes of a state that is altered: every call is made over and over.
const SMALL: usize = 10;

/// The calls by what is wrong with them.
#[derive(Clone, Copy)]
enum Kind {
    Field,
    AnyRun,
    Area,
    Count,
    Length,
    End,
    OutOfTurn,
    Begin,
}

const KINDS: [&str; 8] = [
    "field altered",
    "any run",
    "area altered",
    "any m",
    "wrong length",
    "end of the domain",
    "out of turn",
    "begin",
];

#[derive(Default)]
struct Sum {
    states: u64,
    kinds: [u64; KINDS.len()],
    /// Calls by the number that refused them; 0: questions and finishes.
    numbers: [u64; 7],
    differ: u64,
    /// The first that differs, as it is told.
    first: Option<String>,
}

impl Sum {
    fn calls(&self) -> u64 {
        self.kinds.iter().sum()
    }

    fn count(&mut self, kind: Kind, told: &EventNumbers) {
        self.kinds[kind as usize] += 1;
        let number = if told.which == 2 { told.number } else { 0 };
        if let Some(count) = self.numbers.get_mut(number) {
            *count += 1;
        }
    }

    fn differ(&mut self, text: impl FnOnce() -> String) {
        self.differ += 1;
        if self.first.is_none() {
            self.first = Some(text());
        }
    }

    /// A reply over a run and an area that may be altered.
    fn reply(&mut self, kind: Kind, run: &Run, area: &[f64], rows: Option<&Rows>) {
        let (told, fault) = call::made(run, area, rows);
        self.count(kind, &told);
        if let Some(fault) = fault {
            let call = Call::new(run, area, rows);
            self.differ(|| smaller::least(call, fault));
        }
    }

    /// Rows and none.
    fn both(&mut self, kind: Kind, run: &Run, area: &[f64], rows: &Rows) {
        self.reply(kind, run, area, Some(rows));
        self.reply(kind, run, area, None);
    }

    /// Every field of the run in turn.
    fn alter_fields(&mut self, held: &Held, rows: &Rows, random: &mut Random) {
        for run in alterations(&held.run) {
            let fitting = rows_for(&run, rows, random);
            self.both(Kind::Field, &run, &held.area, &fitting);
            // The rows of the run as it was, which may then have another length.
            self.reply(Kind::Field, &run, &held.area, Some(rows));
        }
    }

    /// Every m, with the numbers that it asks for, with one less, and with those of another m.
    fn alter_counts(&mut self, held: &Held, rows: &Rows, random: &mut Random) {
        for m in (0..=14).chain([1 << 32, 1 << 63, usize::MAX]) {
            let fitting = rows_of(&held.run, m, rows, random);
            self.reply(Kind::Count, &held.run, &held.area, Some(&fitting));
            let mut short = fitting.clone();
            short.numbers.pop();
            self.reply(Kind::Count, &held.run, &held.area, Some(&short));
            let other = Rows { m, ..rows.clone() };
            self.reply(Kind::Count, &held.run, &held.area, Some(&other));
            self.reply(Kind::Count, &held.run, &held.area[1..], Some(&fitting));
        }
    }

    fn alter_lengths(&mut self, held: &Held, rows: &Rows) {
        for length in [0, 1, AREA - 1, AREA + 1, 2 * AREA] {
            let mut area = held.area.clone();
            area.resize(length, 1.0);
            self.both(Kind::Length, &held.run, &area, rows);
        }
        let count = rows.numbers.len();
        for length in [0, 1, count.saturating_sub(1), count + 1, 2 * count] {
            let mut other = rows.clone();
            other.numbers.resize(length, 1.0);
            self.both(Kind::Length, &held.run, &held.area, &other);
        }
    }

    fn alter_ends(&mut self, held: &Held, rows: &Rows) {
        let above = f64::from_bits(MOST.to_bits() + 1);
        let infinity = f64::INFINITY;
        for place in [0, 1, rows.numbers.len().wrapping_sub(1)] {
            for end in [f64::NAN, infinity, -infinity, above, -above, MOST, -MOST] {
                let mut other = rows.clone();
                if let Some(number) = other.numbers.get_mut(place) {
                    *number = end;
                }
                self.both(Kind::End, &held.run, &held.area, &other);
            }
        }
    }

    fn alter_area(&mut self, held: &Held, rows: &Rows, random: &mut Random) {
        for _ in 0..20 {
            let area = random.altered_area(&held.area);
            self.both(Kind::Area, &held.run, &area, rows);
            let run = random.any_run();
            let fitting = rows_for(&run, rows, random);
            self.both(Kind::AnyRun, &run, &area, &fitting);
        }
    }

    /// A run as it was before, with the area as it is now, and the other way round.
    fn out_of_turn(&mut self, held: &Held, earlier: &[Held], rows: &Rows) {
        for before in earlier {
            self.both(Kind::OutOfTurn, &before.run, &held.area, rows);
            self.both(Kind::OutOfTurn, &held.run, &before.area, rows);
        }
    }

    /// The states of a run as they are met, some of them altered, until there are so many calls.
    fn alter(&mut self, history: &History, wanted: u64, random: &mut Random) {
        let manner = Manner {
            word: random.word(),
            refuses: false,
            tells: false,
        };
        let nothing = Rows {
            m: 1,
            numbers: vec![1.0; history.sizes.row_numbers(1)],
        };
        let mut earlier = Vec::new();
        compared(history, manner, |held, at| {
            if self.calls() >= wanted {
                return;
            }
            let rows = history.rows(at).unwrap_or(&nothing);
            self.out_of_turn(held, &earlier, rows);
            if random.at_odds(2 + at as u64) {
                self.states += 1;
                self.alter_fields(held, rows, random);
                self.alter_counts(held, rows, random);
                self.alter_lengths(held, rows);
                self.alter_ends(held, rows);
                self.alter_area(held, rows, random);
            }
            if earlier.len() < EARLIER {
                earlier.push(held.clone());
            }
        });
    }

    fn join(&mut self, other: Sum) {
        self.states += other.states;
        for (sum, count) in self.kinds.iter_mut().zip(other.kinds) {
            *sum += count;
        }
        for (sum, count) in self.numbers.iter_mut().zip(other.numbers) {
            *sum += count;
        }
        self.differ += other.differ;
        self.first = self.first.take().or(other.first);
    }

    fn told(self) -> Count {
        if let Some(text) = &self.first {
            print!("{text}");
        }
        let [accepted, n1, n2, n3, n4, n5, n6] = self.numbers;
        let kinds: Vec<String> = KINDS
            .iter()
            .zip(self.kinds)
            .map(|(name, count)| format!("{name}: {count}"))
            .collect();
        println!(
            "hostile: {} states, {} calls, {} differ; accepted: {accepted}, \
             1: {n1}, 2: {n2}, 3: {n3}, 4: {n4}, 5: {n5}, 6: {n6}",
            self.states,
            self.calls(),
            self.differ
        );
        println!("  {}", kinds.join(", "));
        Count {
            compared: self.calls(),
            differ: self.differ,
        }
    }
}

/// The rows with m constraint rows, cut to the length that the run's sizes ask for, or with more of them drawn; with
/// the numbers that they have where counts do not fit.
fn rows_of(run: &Run, m: usize, rows: &Rows, random: &mut Random) -> Rows {
    let mut numbers = rows.numbers.clone();
    if run.n <= 12 && m <= 14 && run.s <= 24 {
        let count = 2 * (m + run.s) * (run.n + 1);
        numbers.truncate(count);
        while numbers.len() < count {
            let x = random.sized(-3, 3);
            numbers.extend([x, x]);
        }
    }
    Rows { m, numbers }
}

/// With an m of any size that a reply may have.
fn rows_for(run: &Run, rows: &Rows, random: &mut Random) -> Rows {
    let m = match random.below(3) {
        0 => random.below(13) as usize,
        _ => rows.m,
    };
    rows_of(run, m, rows, random)
}

/// The small runs of one part, until there are so many calls.
fn compare_part(seed: u64, wanted: u64, part: usize, progress: &Progress) -> Sum {
    let mut sum = Sum::default();
    let mut random = Random::new(seed ^ (part as u64) << 40);
    for i in (part as u64..).step_by(PARTS) {
        let calls = sum.calls();
        if calls >= wanted {
            break;
        }
        let drawn = problem::drawn(seed ^ 0x5EED, i);
        let sizes = drawn.sizes;
        if sizes.n + sizes.s <= SMALL {
            sum.alter(&history_of(drawn), wanted, &mut random);
            progress.add(sum.calls() - calls);
        }
    }
    sum
}

pub fn compare(seed: u64, calls: u64) -> Count {
    let mut sum = Sum::default();
    sum.begins();
    let progress = Progress::new("hostile", calls);
    let wanted = calls.div_ceil(PARTS as u64);
    side_by_side(
        PARTS,
        |part| compare_part(seed, wanted, part, &progress),
        |part| sum.join(part),
    );
    drop(progress);
    sum.told()
}
