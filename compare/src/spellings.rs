//! The one spelling of a sheet: the archive's writer beside one that strikes signs and zeros from the text as it
//! stands. Each time the 4,096 bytes, the count or the number returned, and the spelling of what was written are
//! compared. Of pairs of texts that say the same the bytes must be the same, and of those that differ in one number
//! or rule they must not.

mod call;
pub mod normalised;
mod other;

use crate::Count;
use crate::interval::operands::Random;
use crate::parts::side_by_side;
use crate::progress::Progress;
use crate::sheets::named::{self, Named};
use crate::sheets::reader::{MALFORMED, MOST_BYTES, read};
use crate::sheets::smaller;
use crate::sheets::spelled::text;
use call::{Fault, Lent, fault_of_length};
use normalised::normalised;
use std::collections::BTreeMap;

/// The random texts are compared in so many parts.
const PARTS: usize = 64;
/// So many damaged texts for each sheet that is drawn.
const DAMAGED: u64 = 4;
/// The first so many of the named sheets are handed in with wrong lengths too: the edges are among them.
const LENGTHS: usize = 100;
/// So many of the named sheets and pairs that are wrong are told.
const TOLD: usize = 10;

#[derive(Clone, Copy)]
enum Kind {
    Named,
    Drawn,
    Damaged,
    Lengths,
    Same,
    Different,
}

const KINDS: [&str; 6] = [
    "named",
    "drawn",
    "damaged",
    "wrong lengths",
    "pairs that say the same",
    "pairs that differ in one number or rule",
];

/// What must have been shown: every answer, and a minus zero and a plus sign that were struck.
const SHOWN: [&str; 7] = [
    "as it was",
    "spelled otherwise",
    "minus zero",
    "plus sign",
    "error 7",
    "error 8",
    "error 9",
];

#[derive(Default)]
struct Sum {
    kinds: [u64; KINDS.len()],
    shown: BTreeMap<&'static str, u64>,
    differ: u64,
    /// The shortest of those that differ.
    least: Option<(Vec<u8>, Fault)>,
    /// What else is wrong.
    told: Vec<String>,
}

fn holds(text: &[u8], part: &[u8]) -> bool {
    text.windows(part.len()).any(|window| window == part)
}

/// What a text shows.
fn shown(text: &[u8], wanted: &Result<Vec<u8>, u64>) -> Vec<&'static str> {
    match wanted {
        Ok(spelling) if spelling == text => vec!["as it was"],
        Ok(_) => {
            let struck = [("minus zero", &b"-0"[..]), ("plus sign", &b"+"[..])];
            let struck = struck.into_iter().filter(|(_, part)| holds(text, part));
            let struck = struck.map(|(name, _)| name);
            std::iter::once("spelled otherwise").chain(struck).collect()
        }
        Err(7) => vec!["error 7"],
        Err(8) => vec!["error 8"],
        Err(_) => vec!["error 9"],
    }
}

impl Sum {
    /// What a text is by itself.
    fn add(
        &mut self,
        kind: Kind,
        text: &[u8],
        lent: &mut Lent,
        random: &mut Random,
    ) -> Result<Vec<u8>, u64> {
        let wanted = normalised(text);
        self.kinds[kind as usize] += 1;
        for name in shown(text, &wanted) {
            *self.shown.entry(name).or_default() += 1;
        }
        if let Some(fault) = lent.fault(text, &wanted, random) {
            self.differ += 1;
            self.least_of(text.to_vec(), fault);
        }
        wanted
    }

    fn least_of(&mut self, text: Vec<u8>, fault: Fault) {
        let is_less = |(least, _): &(Vec<u8>, Fault)| text.len() < least.len();
        if self.least.as_ref().is_none_or(is_less) {
            self.least = Some((text, fault));
        }
    }

    /// What the text alone gives must be what is known of the sheet, too. An arithmetic refusal is none of the text's.
    fn add_named(&mut self, named: &Named, lent: &mut Lent, random: &mut Random) {
        let wanted = self.add(Kind::Named, &named.text, lent, random);
        if wanted.err() != named.error.filter(|&number| number >= MALFORMED) {
            self.differ += 1;
            let wrong = format!(
                "sheet {}: the error by the text alone is another",
                named.name
            );
            self.told.push(wrong);
        }
    }

    /// Refused by 2 before anything is read.
    fn add_lengths(&mut self, Named { name, text, .. }: &Named, random: &mut Random) {
        for length in [0, 1, MOST_BYTES - 1, MOST_BYTES + 1, 2 * MOST_BYTES] {
            self.kinds[Kind::Lengths as usize] += 1;
            if let Some(fault) = fault_of_length(text, length, random) {
                self.differ += 1;
                let wrong = format!("sheet {name} with {length} bytes lent: {fault}");
                self.told.push(wrong);
            }
        }
    }

    /// Two sheets: their bytes must be the same where all that is read of them is.
    fn add_pair(&mut self, kind: Kind, pair: [&[u8]; 2], lent: &mut Lent, random: &mut Random) {
        let [Ok(first), Ok(second)] = pair.map(read) else {
            return;
        };
        self.kinds[kind as usize] += 1;
        let is_same = matches!(kind, Kind::Same);
        let bytes = pair.map(|text| {
            self.add(Kind::Drawn, text, lent, random).ok();
            lent.bytes().to_vec()
        });
        if (first == second) != is_same || (bytes[0] == bytes[1]) != is_same {
            self.differ += 1;
            let [first, second] = pair.map(<[u8]>::escape_ascii);
            let kind = KINDS[kind as usize];
            let wrong = format!("not one of the {kind}: \"{first}\" and \"{second}\"");
            self.told.push(wrong);
        }
    }

    fn join(&mut self, other: Sum) {
        for (sum, count) in self.kinds.iter_mut().zip(other.kinds) {
            *sum += count;
        }
        for (name, count) in other.shown {
            *self.shown.entry(name).or_default() += count;
        }
        self.differ += other.differ;
        if let Some((text, fault)) = other.least {
            self.least_of(text, fault);
        }
        self.told.extend(other.told);
    }

    /// Prints what was compared; what never occurred counts as a difference.
    fn told(self) -> Count {
        if let Some((text, fault)) = self.least {
            let mut random = Random::new(0);
            let mut lent = Lent::new();
            let fault_of = |text: &[u8]| lent.fault_of(text, &mut random);
            print!("{}", smaller::least(text, fault, fault_of));
        }
        for wrong in self.told.iter().take(TOLD) {
            println!("{wrong}");
        }
        let kinds = KINDS.iter().zip(self.kinds);
        let kinds: Vec<String> = kinds
            .map(|(name, count)| format!("{count} {name}"))
            .collect();
        println!("spellings: {}, {} differ", kinds.join(", "), self.differ);
        let shown = self.shown.iter();
        let shown: Vec<String> = shown
            .map(|(name, count)| format!("{name}: {count}"))
            .collect();
        println!("  {}", shown.join(", "));
        let missing = SHOWN.iter().filter(|name| !self.shown.contains_key(**name));
        let missing: Vec<&&str> = missing.collect();
        for name in &missing {
            println!("  never occurred: {name}");
        }
        Count {
            compared: self.kinds.iter().sum(),
            differ: self.differ + missing.len() as u64,
        }
    }
}

fn compare_part(seed: u64, sheets: u64, part: usize, progress: &Progress) -> Sum {
    let mut sum = Sum::default();
    let mut random = Random::new(seed.wrapping_mul(0x9FB2_1C65_1E98_DF25) ^ (part as u64) << 40);
    let mut lent = Lent::new();
    for _ in (part as u64..sheets).step_by(PARTS) {
        let sheet = random.sheet();
        let lines = random.sheet_lines(&sheet);
        let first = text(&lines);
        let second = text(&random.sheet_lines(&sheet));
        sum.add_pair(Kind::Same, [&first, &second], &mut lent, &mut random);
        if let Some(other) = random.other_sheet(&sheet) {
            let other = text(&random.sheet_lines(&other));
            sum.add_pair(Kind::Different, [&first, &other], &mut lent, &mut random);
        }
        for _ in 0..DAMAGED {
            let damaged = random.damaged(&lines);
            sum.add(Kind::Damaged, &damaged, &mut lent, &mut random)
                .ok();
        }
        progress.add(1);
    }
    sum
}

pub fn compare(seed: u64, sheets: u64) -> Count {
    let mut sum = Sum::default();
    let mut random = Random::new(seed);
    let mut lent = Lent::new();
    for (i, named) in named::all().iter().enumerate() {
        if i < LENGTHS {
            sum.add_lengths(named, &mut random);
        }
        sum.add_named(named, &mut lent, &mut random);
    }
    let progress = Progress::new("spellings", sheets);
    side_by_side(
        PARTS,
        |part| compare_part(seed, sheets, part, &progress),
        |part| sum.join(part),
    );
    drop(progress);
    sum.told()
}
