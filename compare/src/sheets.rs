//! Whole sheets, text in and text out: the archive beside a reader of its own, `minimize` of the Rust and its print.
//! Each time the 320 bytes of the slot, the number returned and the 8,000 numbers of the area are compared.

pub mod call;
mod damaged;
mod drawn;
pub mod named;
pub mod reader;
pub mod rows;
pub mod settled;
pub mod smaller;
pub mod spelled;

use crate::Count;
use crate::interval::operands::Random;
use crate::parts::side_by_side;
use crate::progress::Progress;
use crate::runs::rattle::AREA;
use call::{Fault, Lent, SLOT, fault_of_lengths};
use named::Named;
use reader::Sheet;
use settled::printed;
use spelled::text;
use std::collections::BTreeMap;

/// The random sheets are compared in so many parts.
const PARTS: usize = 64;
/// So many damaged ones for each that is accepted.
const DAMAGED: u64 = 20;
/// The first so many of the named sheets are handed in with wrong lengths too: the edges are among them.
const LENGTHS: usize = 100;
/// So many named sheets that are wrong are told.
const TOLD: usize = 10;

/// What the named sheets alone must have shown. The start of a sheet is always answered, so that none is infeasible.
const SHOWN: [&str; 9] = [
    "error=6",
    "error=7",
    "error=8",
    "error=9",
    "stop=nochange",
    "stop=undecided",
    "stop=flat",
    "stop=damped",
    "stop=budget",
];

#[derive(Clone, Copy)]
enum Kind {
    Named,
    Drawn,
    Damaged,
    Lengths,
}

const KINDS: [&str; 4] = ["named", "drawn", "damaged", "wrong lengths"];

#[derive(Default)]
struct Sum {
    kinds: [u64; KINDS.len()],
    /// By the first line that the Rust prints.
    ends: BTreeMap<String, u64>,
    /// Damaged ones that are still accepted.
    accepted: u64,
    differ: u64,
    /// The shortest of those that differ.
    least: Option<(Vec<u8>, Fault)>,
    /// What else is wrong.
    told: Vec<String>,
}

impl Sum {
    fn add(&mut self, kind: Kind, text: Vec<u8>, lent: &mut Lent, random: &mut Random) -> String {
        let wanted = printed(&text);
        self.kinds[kind as usize] += 1;
        let end = wanted.lines().next().unwrap_or_default();
        if let Some(count) = self.ends.get_mut(end) {
            *count += 1;
        } else {
            self.ends.insert(end.to_string(), 1);
        }
        if let Some(fault) = lent.fault(&text, &wanted, random) {
            self.differ += 1;
            self.least_of(text, fault);
        }
        wanted
    }

    fn least_of(&mut self, text: Vec<u8>, fault: Fault) {
        let is_less = |(least, _): &(Vec<u8>, Fault)| text.len() < least.len();
        if self.least.as_ref().is_none_or(is_less) {
            self.least = Some((text, fault));
        }
    }

    /// What the Rust prints must be what is known of the sheet, too.
    fn add_named(&mut self, named: Named, lent: &mut Lent, random: &mut Random) {
        let Named {
            name,
            text,
            error,
            prints,
        } = named;
        let wanted = self.add(Kind::Named, text, lent, random);
        let is_known = match (error, prints) {
            (Some(number), _) => wanted == format!("error={number}\n"),
            (None, Some(prints)) => wanted == prints,
            (None, None) => wanted.starts_with("stop="),
        };
        if !is_known {
            self.differ += 1;
            let wrong = format!(
                "sheet {name}: the Rust prints \"{}\"",
                wanted.escape_default()
            );
            self.told.push(wrong);
        }
    }

    /// Refused by 2 before anything is read.
    fn add_lengths(&mut self, Named { name, text, .. }: &Named, random: &mut Random) {
        let areas = [0, 1, AREA - 1, AREA, AREA + 1, 2 * AREA];
        let slots = [0, 1, SLOT - 1, SLOT, SLOT + 1, 2 * SLOT];
        for lengths in areas
            .into_iter()
            .flat_map(|area| slots.map(|slot| [area, slot]))
        {
            if lengths == [AREA, SLOT] {
                continue;
            }
            self.kinds[Kind::Lengths as usize] += 1;
            if let Some(fault) = fault_of_lengths(text, lengths, random) {
                self.differ += 1;
                let wrong = format!("sheet {name} with lengths {lengths:?}: {fault}");
                self.told.push(wrong);
            }
        }
    }

    fn join(&mut self, other: Sum) {
        for (sum, count) in self.kinds.iter_mut().zip(other.kinds) {
            *sum += count;
        }
        for (end, count) in other.ends {
            *self.ends.entry(end).or_default() += count;
        }
        self.accepted += other.accepted;
        self.differ += other.differ;
        if let Some((text, fault)) = other.least {
            self.least_of(text, fault);
        }
        self.told.extend(other.told);
    }

    /// Prints what was compared; what never occurred counts as a difference.
    fn told(self) -> Count {
        if let Some((text, fault)) = self.least {
            let mut random = Random::new(0);
            let mut lent = Lent::new();
            let fault_of = |text: &[u8]| lent.fault_of(text, &mut random);
            print!("{}", smaller::least(text, fault, fault_of));
        }
        for wrong in self.told.iter().take(TOLD) {
            println!("{wrong}");
        }
        let kinds: Vec<String> = KINDS
            .iter()
            .zip(self.kinds)
            .map(|(name, count)| format!("{count} {name}"))
            .collect();
        println!(
            "sheets: {}, {} differ; damaged and still accepted: {}",
            kinds.join(", "),
            self.differ,
            self.accepted
        );
        let ends: Vec<String> = self
            .ends
            .iter()
            .map(|(end, count)| format!("{end}: {count}"))
            .collect();
        println!("  {}", ends.join(", "));
        let missing = SHOWN.iter().filter(|end| !self.ends.contains_key(**end));
        let missing: Vec<&&str> = missing.collect();
        for end in &missing {
            println!("  never occurred: {end}");
        }
        Count {
            compared: self.kinds.iter().sum(),
            differ: self.differ + missing.len() as u64,
        }
    }
}

/// A sheet to damage: mostly one iteration, in which every number is used, so that those still accepted take little.
fn to_damage(sheet: Sheet, random: &mut Random) -> Sheet {
    let limit = match random.below(8) {
        0..3 => 0,
        3 => 2,
        _ => 1,
    };
    Sheet { limit, ..sheet }
}

fn compare_part(seed: u64, sheets: u64, part: usize, progress: &Progress) -> Sum {
    let mut sum = Sum::default();
    let mut random = Random::new(seed.wrapping_mul(0x2545_F491_4F6C_DD1D) ^ (part as u64) << 40);
    let mut lent = Lent::new();
    for _ in (part as u64..sheets).step_by(PARTS) {
        let sheet = random.sheet();
        let lines = random.sheet_lines(&sheet);
        sum.add(Kind::Drawn, text(&lines), &mut lent, &mut random);
        let sheet = to_damage(sheet, &mut random);
        let lines = random.sheet_lines(&sheet);
        for _ in 0..DAMAGED {
            let damaged = random.damaged(&lines);
            let printed = sum.add(Kind::Damaged, damaged, &mut lent, &mut random);
            sum.accepted += u64::from(printed.starts_with("stop="));
        }
        progress.add(1);
    }
    sum
}

pub fn compare(seed: u64, sheets: u64) -> Count {
    let mut sum = Sum::default();
    let mut random = Random::new(seed);
    let mut lent = Lent::new();
    for (i, named) in named::all().into_iter().enumerate() {
        if i < LENGTHS {
            sum.add_lengths(&named, &mut random);
        }
        sum.add_named(named, &mut lent, &mut random);
    }
    let progress = Progress::new("sheets", sheets);
    side_by_side(
        PARTS,
        |part| compare_part(seed, sheets, part, &progress),
        |part| sum.join(part),
    );
    drop(progress);
    sum.told()
}
