//! The fixed list of the Rust's answers that `interval_replay` reads: a line for each answer, all of one width.

use crate::interval::functions::{Answer, FUNCTIONS, Function, Operands, Takes};
use crate::interval::operands::{self, Random};
use crate::words::NAN;

/// How many lines each function has of its special operands, and of random ones.
const SPECIAL: usize = 64;
const RANDOM: usize = 40;

const ZERO: u64 = 0;
const MINUS_ZERO: u64 = 0x8000_0000_0000_0000;
const ONE: u64 = 0x3FF0_0000_0000_0000;
const MINUS_ONE: u64 = 0xBFF0_0000_0000_0000;
const TWO: u64 = 0x4000_0000_0000_0000;
const THREE: u64 = 0x4008_0000_0000_0000;
const FOUR: u64 = 0x4010_0000_0000_0000;
const FIVE: u64 = 0x4014_0000_0000_0000;
const INFINITY: u64 = 0x7FF0_0000_0000_0000;

/// The inputs that docs/DIFFERENCES.md names, and the known answers, by the functions' codes.
const NAMED: [(u8, Operands); 25] = [
    (0x00, [MINUS_ZERO, 0, 0, 0]),
    (0x01, [INFINITY, 0, 0, 0]),
    (0x04, [1, 1000, 0, 0]),
    (0x04, [1, 0, 0, 0]),
    (0x11, [NAN, ONE, 0, 0]),
    (0x11, [MINUS_ONE, NAN, 0, 0]),
    (0x11, [MINUS_ZERO, MINUS_ZERO, 0, 0]),
    (0x11, [MINUS_ONE, ZERO, 0, 0]),
    (0x12, [FOUR, FOUR, 0, 0]),
    (0x12, [ZERO, ZERO, 0, 0]),
    (0x12, [MINUS_ONE, FOUR, 0, 0]),
    (0x12, [0xC000_0000_0000_0000, MINUS_ONE, 0, 0]),
    (0x12, [FOUR, NAN, 0, 0]),
    (0x12, [NAN, MINUS_ONE, 0, 0]),
    (0x20, [NAN, NAN, 0, 0]),
    (0x20, [FIVE, NAN, 0, 0]),
    (0x20, [THREE, 0xC000_0000_0000_0000, 0, 0]),
    (0x30, [NAN, NAN, ONE, ONE]),
    (0x32, [NAN, TWO, THREE, FOUR]),
    (0x32, [ZERO, ZERO, INFINITY, INFINITY]),
    (
        0x33,
        [0x4018_0000_0000_0000, 0x4018_0000_0000_0000, THREE, THREE],
    ),
    (0x33, [ONE, ONE, ONE, MINUS_ONE]),
    (
        0x34,
        [
            MINUS_ZERO,
            ZERO,
            0xC014_0000_0000_0000,
            0xC014_0000_0000_0000,
        ],
    ),
    (0x34, [THREE, ONE, ZERO, ZERO]),
    (0x34, [NAN, FIVE, ONE, TWO]),
];

fn is_float(takes: Takes) -> bool {
    matches!(takes, Takes::Float | Takes::Scalar | Takes::Scalars)
}

/// A NaN operand has one pattern in the list.
pub fn plain(takes: Takes, operands: &Operands) -> Operands {
    operands.map(|w| {
        if is_float(takes) && f64::from_bits(w).is_nan() {
            NAN
        } else {
            w
        }
    })
}

/// The function's code, four operands, the number of the refusal or 0, and two words of the answer.
pub fn line(function: &Function, operands: &Operands, answer: Answer) -> String {
    let [a, b, c, d] = operands;
    let [lo, hi] = answer.words;
    format!(
        "{:02X} {a:016X} {b:016X} {c:016X} {d:016X} = {} {lo:016X} {hi:016X}\n",
        function.code, answer.number
    )
}

/// The same with the Rust's answer.
fn rust_line(function: &Function, operands: &Operands) -> String {
    let operands = plain(function.takes, operands);
    line(function, &operands, (function.rust)(&operands))
}

/// Special operands spread over the whole list of them.
fn spread(specials: &[Operands], random: &mut Random) -> Vec<Operands> {
    (0..SPECIAL)
        .map(|i| specials[random.part(i, SPECIAL, specials.len())])
        .collect()
}

fn function(code: u8) -> &'static Function {
    FUNCTIONS
        .iter()
        .find(|f| f.code == code)
        .expect("a function's code")
}

pub fn lines(seed: u64) -> Vec<String> {
    let mut lines: Vec<String> = NAMED
        .iter()
        .map(|(code, w)| rust_line(function(*code), w))
        .collect();
    for function in FUNCTIONS.iter().filter(|f| f.takes != Takes::Nothing) {
        let mut random = Random::new(seed ^ u64::from(function.code) << 56);
        let specials = spread(&operands::specials(function.takes), &mut random);
        let drawn = (0..RANDOM).map(|_| random.operands(function.takes));
        let operands: Vec<Operands> = specials.into_iter().chain(drawn).collect();
        lines.extend(operands.iter().map(|w| rust_line(function, w)));
    }
    lines
}
