//! A text handed to the Rattle's writer, with the bytes that are lent for it, beside its spelling by the text alone.

use crate::archive::yadzvego_spell_text;
use crate::interval::operands::Random;
use crate::sheets::reader::MOST_BYTES;
use crate::spellings::normalised::normalised;
use std::fmt;

/// So many bytes stand behind those that are lent, to be left alone.
const BEHIND: usize = 16;

/// What is wrong with a call.
pub enum Fault {
    /// What it returned, and what it must return.
    Returned(Result<usize, u64>, Result<usize, u64>),
    /// The first bytes, which must be these.
    Bytes(Vec<u8>, Vec<u8>),
    /// A byte behind the spelling that is not 0.
    Rest(usize),
    /// A byte that was written although the call was refused, or that was not lent.
    Written(usize),
    /// The spelling, spelled once more, is another.
    Twice,
}

impl fmt::Display for Fault {
    fn fmt(&self, f: &mut fmt::Formatter) -> fmt::Result {
        match self {
            Fault::Returned(found, wanted) => write!(f, "it returned {found:?}, not {wanted:?}"),
            Fault::Bytes(found, wanted) => {
                let (found, wanted) = (found.escape_ascii(), wanted.escape_ascii());
                write!(f, "it wrote \"{found}\"\nwhere the text has \"{wanted}\"")
            }
            Fault::Rest(place) => write!(f, "byte {place} behind the spelling is not 0"),
            Fault::Written(place) => write!(f, "byte {place} was written"),
            Fault::Twice => write!(f, "spelled once more it is another"),
        }
    }
}

/// How many bytes were written, or the number of the refusal.
pub fn called(text: &[u8], out: &mut [u8]) -> Result<usize, u64> {
    let (out, out_len) = (out.as_mut_ptr(), out.len());
    // Safety: each pointer and its count are those of a slice.
    let result = unsafe { yadzvego_spell_text(text.as_ptr(), text.len(), out, out_len) };
    match result.number {
        0 => Ok(result.length),
        number => Err(number as u64),
    }
}

/// The bytes lent, with what stands behind them.
pub struct Lent(Vec<u8>);

impl Lent {
    pub fn new() -> Lent {
        Lent(vec![0; MOST_BYTES + BEHIND])
    }

    /// All 4,096 bytes after the last call.
    pub fn bytes(&self) -> &[u8] {
        &self.0[..MOST_BYTES]
    }

    /// A call over bytes of rubbish: what was written where it must not be.
    fn fault_over_rubbish(
        &mut self,
        text: &[u8],
        wanted: &Result<Vec<u8>, u64>,
        random: &mut Random,
    ) -> Option<Fault> {
        let rubbish = random.word() as u8 | 1;
        self.0.fill(rubbish);
        let returned = called(text, &mut self.0[..MOST_BYTES]);
        let length = wanted.as_ref().map(Vec::len).map_err(|&number| number);
        if returned != length {
            return Some(Fault::Returned(returned, length));
        }
        let altered = |byte: &u8| *byte != rubbish;
        let Ok(spelling) = wanted else {
            return self.0.iter().position(altered).map(Fault::Written);
        };
        let (found, rest) = self.0[..MOST_BYTES].split_at(spelling.len());
        if found != spelling {
            return Some(Fault::Bytes(found.to_vec(), spelling.clone()));
        }
        if let Some(place) = rest.iter().position(|&byte| byte != 0) {
            return Some(Fault::Rest(place));
        }
        let behind = self.0[MOST_BYTES..].iter().position(altered);
        behind.map(|place| Fault::Written(MOST_BYTES + place))
    }

    /// The fault of a text; `wanted` is its spelling by the text alone, or the number of its error.
    pub fn fault(
        &mut self,
        text: &[u8],
        wanted: &Result<Vec<u8>, u64>,
        random: &mut Random,
    ) -> Option<Fault> {
        let fault = self.fault_over_rubbish(text, wanted, random);
        let (None, Ok(spelling)) = (&fault, wanted) else {
            return fault;
        };
        let mut again = [1; MOST_BYTES];
        let is_same = called(spelling, &mut again) == Ok(spelling.len()) && again == *self.bytes();
        (!is_same).then_some(Fault::Twice)
    }

    /// The same, with the spelling by the text alone worked out.
    pub fn fault_of(&mut self, text: &[u8], random: &mut Random) -> Option<Fault> {
        self.fault(text, &normalised(text), random)
    }
}

/// The fault of a call with so many bytes, which must be refused by 2 whatever the text.
pub fn fault_of_length(text: &[u8], length: usize, random: &mut Random) -> Option<Fault> {
    let mut bytes: Vec<u8> = (0..length + BEHIND).map(|_| random.word() as u8).collect();
    let before = bytes.clone();
    let returned = called(text, &mut bytes[..length]);
    if returned != Err(2) {
        return Some(Fault::Returned(returned, Err(2)));
    }
    let mut both = bytes.iter().zip(before);
    both.position(|(now, before)| *now != before)
        .map(Fault::Written)
}
