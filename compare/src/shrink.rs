//! The smallest case that still differs: changes are tried one after another, and each that keeps the difference is
//! kept.

use crate::words::NAN;

/// So many changes are tried of one case.
const TRIES: usize = 50_000;

pub trait Case: Sized {
    /// How many changes there are.
    fn changes(&self) -> usize;
    /// The case after one of them; nothing where it would be no simpler.
    fn changed(&self, change: usize) -> Option<Self>;
}

/// A case that differs, changed until no change keeps the difference.
pub fn smallest<C: Case>(mut case: C, mut differs: impl FnMut(&C) -> bool) -> C {
    let mut tries = 0;
    loop {
        let before = tries;
        let mut simpler = false;
        let mut change = 0;
        while change < case.changes() && tries < TRIES {
            tries += 1;
            match case.changed(change).filter(&mut differs) {
                // What is behind may have moved here.
                Some(next) => {
                    case = next;
                    simpler = true;
                }
                None => change += 1,
            }
        }
        if !simpler || before == tries {
            return case;
        }
    }
}

// ---- simpler numbers

const SIGN: u64 = 1 << 63;
const DIGITS: u64 = (1 << 52) - 1;
const ONE: u64 = 1023 << 52;

/// The word of a whole number, as a float.
fn whole(w: u64) -> u64 {
    f64::from_bits(w).trunc().to_bits()
}

/// Half of its binary digits, the first ones.
fn fewer_digits(w: u64) -> u64 {
    let digits = 52 - (w & DIGITS).trailing_zeros().min(52);
    w & !(DIGITS >> (digits / 2))
}

/// Its exponent half as far from that of one.
fn nearer_one(w: u64) -> u64 {
    let exponent = (w & !SIGN) >> 52;
    w & (SIGN | DIGITS) | (exponent + 1023) / 2 << 52
}

/// How hard a float is to read.
fn float_cost(w: u64) -> u64 {
    match w {
        0 => 0,
        ONE => 1,
        _ => {
            let digits = 52 - (w & DIGITS).trailing_zeros().min(52);
            let exponent = ((w & !SIGN) >> 52).abs_diff(1023);
            2 + (w >> 63) + u64::from(digits) + exponent
        }
    }
}

const FLOATS: usize = 8;

fn simpler_float(w: u64, change: usize) -> u64 {
    match change {
        0 => 0,
        1 => ONE,
        2 => w & !SIGN,
        3 => whole(w),
        4 => w & !DIGITS,
        5 => fewer_digits(w),
        6 => nearer_one(w),
        _ => NAN,
    }
}

fn ends_cost([lo, hi]: [u64; 2]) -> u64 {
    float_cost(lo) + float_cost(hi) + u64::from(lo != hi)
}

/// How many changes of a scalar are tried.
pub const SCALARS: usize = 2 + 3 * FLOATS;

/// One end for both, then both ends, the lower and the upper made simpler.
pub fn simpler_scalar([lo, hi]: [u64; 2], change: usize) -> Option<[u64; 2]> {
    let next = match (change.checked_sub(2), change) {
        (None, 0) => [lo, lo],
        (None, _) => [hi, hi],
        (Some(change), _) => {
            let (which, change) = (change / FLOATS, change % FLOATS);
            let (a, b) = (simpler_float(lo, change), simpler_float(hi, change));
            [[a, b], [a, hi], [lo, b]][which]
        }
    };
    (ends_cost(next) < ends_cost([lo, hi])).then_some(next)
}

/// The same of a slice of numbers, two for each scalar: `change` counts through its scalars.
pub fn simpler_in(numbers: &[f64], change: usize) -> Option<Vec<f64>> {
    let place = 2 * (change / SCALARS);
    let ends = [numbers[place], numbers[place + 1]].map(f64::to_bits);
    let ends = simpler_scalar(ends, change % SCALARS)?;
    let mut next = numbers.to_vec();
    next[place] = f64::from_bits(ends[0]);
    next[place + 1] = f64::from_bits(ends[1]);
    Some(next)
}

/// How many changes `simpler_in` has.
pub fn changes_in(numbers: &[f64]) -> usize {
    numbers.len() / 2 * SCALARS
}

pub const WHOLES: usize = 5;

/// A whole number nearer zero, by the two's complement of the word.
pub fn simpler_whole(w: u64, change: usize) -> Option<u64> {
    let v = w as i64;
    let next = match change {
        0 => 0,
        1 => 1,
        2 => v.wrapping_neg(),
        3 => v / 2,
        _ => v - v.signum(),
    };
    let cost = |v: i64| 2 * u128::from(v.unsigned_abs()) + u128::from(v < 0);
    (cost(next) < cost(v)).then_some(next as u64)
}

// ---- smaller matrices

/// A matrix without its i-th row, or without its i-th column; two numbers for each scalar.
pub fn without(numbers: &[f64], [rows, columns]: [usize; 2], i: usize, is_row: bool) -> Vec<f64> {
    let mut left = Vec::new();
    for row in (0..rows).filter(|&row| !is_row || row != i) {
        for column in (0..columns).filter(|&column| is_row || column != i) {
            let place = 2 * (row * columns + column);
            left.extend_from_slice(&numbers[place..place + 2]);
        }
    }
    left
}
