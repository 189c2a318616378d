//! A text handed to the Rattle, with what is lent for it, beside what the Rust prints.

use crate::archive::yadzvego_settle_text;
use crate::interval::operands::Random;
use crate::runs::rattle::{AREA, bits};
use crate::sheets::settled::printed;
use std::fmt;

/// How many bytes a slot has.
pub const SLOT: usize = 320;

/// So many numbers and bytes stand behind what is lent, to be left alone.
const BEHIND: usize = 16;

/// The areas are filled with rubbish in one call of so many; else they are as the call before left them.
const SELDOM: u64 = 8;

/// An area and a slot, with what stands behind them.
pub struct Lent {
    area: Vec<f64>,
    slot: Vec<u8>,
}

/// What is wrong with a call.
pub enum Fault {
    Returned(usize),
    /// What the slot holds, and what it must begin with.
    Slot(Vec<u8>, String),
    /// The first place in the area that is not +0, or was written although the call was refused.
    Area(usize),
    /// A slot was written although the call was refused.
    Written,
    /// Something behind what was lent was written.
    Behind,
}

impl fmt::Display for Fault {
    fn fmt(&self, f: &mut fmt::Formatter) -> fmt::Result {
        match self {
            Fault::Returned(number) => write!(f, "it returned {number}"),
            Fault::Slot(slot, wanted) => {
                let used = slot.iter().rposition(|&byte| byte != 0);
                let (slot, zeros) = slot.split_at(used.map_or(0, |last| last + 1));
                let (wanted, slot) = (wanted.escape_default(), slot.escape_ascii());
                write!(f, "the Rust prints: \"{wanted}\"\n")?;
                write!(f, "the slot holds: \"{slot}\" and {} zeros", zeros.len())
            }
            Fault::Area(place) => write!(f, "the area is wrong at {place}"),
            Fault::Written => write!(f, "the slot was written"),
            Fault::Behind => write!(f, "what stands behind was written"),
        }
    }
}

/// What the call returns for the first so many numbers and bytes.
fn called(text: &[u8], area: &mut [f64], slot: &mut [u8]) -> usize {
    let (area, area_len) = (area.as_mut_ptr(), area.len());
    let (slot, slot_len) = (slot.as_mut_ptr(), slot.len());
    // Safety: each pointer and its count are those of a slice.
    unsafe { yadzvego_settle_text(text.as_ptr(), text.len(), area, area_len, slot, slot_len) }
}

impl Lent {
    pub fn new() -> Lent {
        Lent {
            area: vec![0.0; AREA + BEHIND],
            slot: vec![0; SLOT + BEHIND],
        }
    }

    /// The slot always, the area now and then.
    fn soil(&mut self, random: &mut Random) {
        self.slot.fill(random.word() as u8 | 1);
        if random.at_odds(SELDOM) {
            for number in &mut self.area {
                *number = f64::from_bits(random.word());
            }
        }
    }

    /// What the slot holds after the call.
    pub fn settle(&mut self, text: &[u8]) -> &[u8] {
        called(text, &mut self.area[..AREA], &mut self.slot[..SLOT]);
        &self.slot[..SLOT]
    }

    /// The fault of a call with lengths that are right; `wanted` is what the Rust prints.
    pub fn fault(&mut self, text: &[u8], wanted: &str, random: &mut Random) -> Option<Fault> {
        self.soil(random);
        let behind = bits(&self.area[AREA..]);
        let rubbish = self.slot[SLOT];
        let returned = called(text, &mut self.area[..AREA], &mut self.slot[..SLOT]);
        if returned != 0 {
            return Some(Fault::Returned(returned));
        }
        let (slot, after) = self.slot.split_at(SLOT);
        let (printed, rest) = slot.split_at(wanted.len());
        if printed != wanted.as_bytes() || rest.iter().any(|&byte| byte != 0) {
            return Some(Fault::Slot(slot.to_vec(), wanted.to_string()));
        }
        let mut numbers = self.area[..AREA].iter();
        if let Some(place) = numbers.position(|x| x.to_bits() != 0) {
            return Some(Fault::Area(place));
        }
        let kept = after.iter().all(|&byte| byte == rubbish) && bits(&self.area[AREA..]) == behind;
        (!kept).then_some(Fault::Behind)
    }

    /// The fault of a text, with what the Rust prints worked out.
    pub fn fault_of(&mut self, text: &[u8], random: &mut Random) -> Option<Fault> {
        self.fault(text, &printed(text), random)
    }
}

/// The fault of a call with a wrong length, which must be refused by 2.
pub fn fault_of_lengths(
    text: &[u8],
    [area, slot]: [usize; 2],
    random: &mut Random,
) -> Option<Fault> {
    let mut numbers: Vec<f64> = (0..area + BEHIND)
        .map(|_| f64::from_bits(random.word()))
        .collect();
    let mut bytes: Vec<u8> = (0..slot + BEHIND).map(|_| random.word() as u8).collect();
    let (numbers_before, bytes_before) = (bits(&numbers), bytes.clone());
    let returned = called(text, &mut numbers[..area], &mut bytes[..slot]);
    if returned != 2 {
        return Some(Fault::Returned(returned));
    }
    if bytes != bytes_before {
        return Some(Fault::Written);
    }
    let mut both = bits(&numbers).into_iter().zip(numbers_before);
    both.position(|(now, before)| now != before)
        .map(Fault::Area)
}
