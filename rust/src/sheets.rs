//! Sheets: a text that describes points and the rules between them, settled or spelled by one call.
//!
//! The lines of a sheet, in this order and each ended by a line feed: `points=N`, N lines `at=X,Y`, `limit=K` (the most
//! iterations), `reach=R` (the longest step), `rules=M`, and M lines `span=I,J,D`, `level=I,J` or `plumb=I,J`.
//! Coordinates and lengths are whole micrometres, and points count from 0. docs/PROTOCOL.md, Sheets, has the ranges.
//!
//! What is printed are the lines `stop=`, `iterations=` and `turned=`, then `at=` for each point with the bits of its
//! coordinates in hexadecimal digits; or the one line `error=` with a number: 7 for a line missing, surplus or
//! malformed or more than [`MOST_BYTES`] bytes, 8 for a number outside its range, 9 for a rule with equal points or one
//! not present, 5 or 6 for an arithmetic refusal.
//!
//! The one spelling of a sheet has its lines with every number without a plus sign, leading zeros or minus zero, so
//! that texts that say the same are the same bytes under version control.

use crate::archive::{yadzvego_settle_text, yadzvego_spell_text};
use crate::calls::AREA;
use crate::geop_error::{GeopError, GeopResult};

/// How many bytes a slot has. No sheet prints as many.
pub const SLOT: usize = 320;

/// How many bytes a sheet has at most, and how many are lent for its one spelling.
pub const MOST_BYTES: usize = 4096;

/// What is printed of a text.
///
/// ```
/// use yadzvego::sheets::settle;
///
/// let text = "points=1\nat=3,4\nlimit=0\nreach=1\nrules=0\n";
/// let printed = settle(text);
/// assert_eq!(printed, "stop=budget\niterations=0\nturned=0\nat=4008000000000000,4010000000000000\n");
/// assert_eq!(settle("points=7\n"), "error=8\n");
///
/// // The coordinates of a point are the bits of two floats.
/// let (x, y) = printed.lines().nth(3).and_then(|line| line["at=".len()..].split_once(',')).unwrap();
/// assert_eq!(u64::from_str_radix(x, 16).map(f64::from_bits), Ok(3.0));
/// assert_eq!(u64::from_str_radix(y, 16).map(f64::from_bits), Ok(4.0));
/// ```
pub fn settle(text: impl AsRef<[u8]>) -> String {
    let mut area = vec![0.0; AREA];
    let mut slot = [0; SLOT];
    settle_text(text.as_ref(), &mut area, &mut slot).expect("area and slot have their lengths");
    let printed = slot.iter().take_while(|&&byte| byte != 0);
    printed.map(|&byte| char::from(byte)).collect()
}

/// The same into a slot of [`SLOT`] bytes, with zeros behind what is printed, over an area of [`AREA`] numbers, which
/// are +0 afterwards. Another length of either is refused, with nothing written.
///
/// ```
/// use yadzvego::AREA;
/// use yadzvego::geop_error::GeopError;
/// use yadzvego::sheets::{SLOT, settle_text};
///
/// let (mut area, mut slot) = (vec![0.0; AREA], [1; SLOT]);
/// for text in ["points=1\nat=3,x\n", "points=1\nat=3,4\nlimit=201\n"] {
///     settle_text(text.as_bytes(), &mut area, &mut slot)?;
///     assert!(slot.starts_with(b"error="));
///     assert_eq!(slot["error=7\n".len()..], [0; SLOT - 8]);
/// }
/// assert_eq!(settle_text(b"", &mut area, &mut slot[1..]), Err(GeopError::WrongLength));
/// # Ok::<(), GeopError>(())
/// ```
pub fn settle_text(text: &[u8], area: &mut [f64], slot: &mut [u8]) -> GeopResult<()> {
    // Safety: each pointer and its count are those of a slice, and the slices that are written overlap no other.
    let number = unsafe {
        yadzvego_settle_text(
            text.as_ptr(),
            text.len(),
            area.as_mut_ptr(),
            area.len(),
            slot.as_mut_ptr(),
            slot.len(),
        )
    };
    match number {
        0 => Ok(()),
        number => Err(GeopError::numbered(number)),
    }
}

/// The one spelling of a sheet's text. Two texts have the same one just where their numbers and rules are equal, and it
/// is its own spelling. A text that is no sheet is refused by the number that [`settle`] prints of it.
///
/// ```
/// use yadzvego::geop_error::GeopError;
/// use yadzvego::sheets::spell;
///
/// let text = "points=+1\nat=-0,004\nlimit=00\nreach=1\nrules=0\n";
/// let spelling = "points=1\nat=0,4\nlimit=0\nreach=1\nrules=0\n";
/// assert_eq!(spell(text)?, spelling);
/// assert_eq!(spell(spelling)?, spelling);
/// assert_eq!(spell("points=7\n"), Err(GeopError::OutOfRange));
/// # Ok::<(), GeopError>(())
/// ```
pub fn spell(text: impl AsRef<[u8]>) -> GeopResult<String> {
    let mut out = [0; MOST_BYTES];
    let length = spell_text(text.as_ref(), &mut out)?;
    Ok(out[..length].iter().map(|&byte| char::from(byte)).collect())
}

/// The same into [`MOST_BYTES`] bytes, with zeros behind the spelling; how many bytes it has. Another length is refused
/// first, then a text that is no sheet, both with nothing written.
///
/// ```
/// use yadzvego::geop_error::GeopError;
/// use yadzvego::sheets::{MOST_BYTES, spell_text};
///
/// let mut out = [1; MOST_BYTES];
/// let length = spell_text(b"points=1\nat=3,+4\nlimit=0\nreach=1\nrules=0\n", &mut out)?;
/// assert!(out[..length].starts_with(b"points=1\nat=3,4\n"));
/// assert!(out[length..].iter().all(|&byte| byte == 0));
/// assert_eq!(spell_text(b"", &mut out), Err(GeopError::Malformed));
/// assert_eq!(spell_text(b"", &mut out[1..]), Err(GeopError::WrongLength));
/// # Ok::<(), GeopError>(())
/// ```
pub fn spell_text(text: &[u8], out: &mut [u8]) -> GeopResult<usize> {
    // Safety: each pointer and its count are those of a slice, and the slice that is written overlaps no other.
    let result =
        unsafe { yadzvego_spell_text(text.as_ptr(), text.len(), out.as_mut_ptr(), out.len()) };
    match result.number {
        0 => Ok(result.length),
        number => Err(GeopError::numbered(number)),
    }
}
