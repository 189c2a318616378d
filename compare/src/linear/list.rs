//! The fixed list that `linear_replay` reads: a line for each call, of words with 16 digits. Refusals 1 and 2 are by
//! the rule, all else is by the Rust.

use crate::interval::operands::Random;
use crate::linear::functions::{Call, FUNCTIONS, Function, LIMIT, Reply};
use crate::linear::lengths;
use crate::words::{hex, word};

/// After one call of each size: so many of small sizes, and so many with each refusal by the scalars, where so many
/// tries find them.
const SMALL: usize = 24;
const SMALL_SIZE: u64 = 4;
const REFUSED: usize = 6;
const TRIES: usize = 20_000;

/// Of the refusals by counts and lengths the first, which is of a count of 25, and of those with short slices one in so
/// many.
const STRIDE: usize = 5;
const SHORT: usize = 60;

/// The function's code, the counts, the lengths of three inputs, of the marks and of the output, and the number of the
/// refusal or 0; then the words of the inputs and of the marks, and of the output and the marks as the call leaves
/// them.
pub fn line(function: &Function, call: &Call, reply: &Reply) -> String {
    let length = |i: usize| call.inputs.get(i).map_or(0, Vec::len);
    let counts = [
        call.m,
        call.n,
        length(0),
        length(1),
        length(2),
        call.marks.len(),
        reply.out.len(),
    ];
    let mut words = vec![function.code];
    words.extend(counts.map(|count| count as u64));
    words.push(reply.number);
    words.extend(call.inputs.iter().flatten().map(|&x| word(x)));
    words.extend(call.marks.iter().map(|&mark| u64::from(mark)));
    words.extend(&reply.out);
    words.extend(reply.marks.iter().map(|&mark| u64::from(mark)));
    hex(&words) + "\n"
}

fn drawn(function: &Function, random: &mut Random, m: usize, n: usize) -> String {
    let call = (function.draw)(random, m, n);
    line(function, &call, &(function.rust)(&call))
}

fn refused(function: &Function, random: &mut Random, number: u64) -> Vec<String> {
    let mut lines = Vec::new();
    for _ in 0..TRIES {
        if lines.len() == REFUSED {
            break;
        }
        let (m, n) = (random.below(SMALL_SIZE), random.below(SMALL_SIZE));
        let call = (function.draw)(random, m as usize, n as usize);
        let reply = (function.rust)(&call);
        if reply.number == number {
            lines.push(line(function, &call, &reply));
        }
    }
    lines
}

fn by_lengths(function: &Function) -> Vec<String> {
    let refusals = lengths::refusals(function);
    let short = refusals
        .iter()
        .skip(1)
        .filter(|(call, ..)| call.inputs[0].len() < SHORT);
    let some = refusals.iter().take(1).chain(short.step_by(STRIDE));
    some.map(|(call, _, reply)| line(function, call, reply))
        .collect()
}

fn call(m: usize, n: usize, inputs: &[&[f64]]) -> Call {
    Call {
        m,
        n,
        inputs: inputs.iter().map(|input| input.to_vec()).collect(),
        marks: Vec::new(),
    }
}

/// The inputs that docs/DIFFERENCES.md names, and the known answers, by the functions' codes.
fn named() -> Vec<(u64, Call)> {
    // 2^-1024, whose reciprocal is infinite.
    let tiny = f64::from_bits(1 << 50);
    vec![
        (2, call(0, 0, &[&[]])),
        (2, call(0, 1, &[&[f64::NAN, f64::NAN]])),
        (2, call(0, 1, &[&[tiny, tiny]])),
        (2, call(0, 2, &[&[3.0, 3.0, 4.0, 4.0]])),
        (3, call(0, 0, &[&[-1.0, 0.0]])),
        (3, call(0, 0, &[&[0.0, 2.0]])),
        (3, call(0, 0, &[&[1.0, 3.0]])),
        (7, call(0, 2, &[&[], &[]])),
        (8, call(0, 1, &[&[], &[], &[1.0, 2.0]])),
    ]
}

pub fn lines(seed: u64) -> Vec<String> {
    let mut lines = Vec::new();
    for (code, call) in named() {
        let function = FUNCTIONS
            .iter()
            .find(|f| f.code == code)
            .expect("a function's code");
        lines.push(line(function, &call, &(function.rust)(&call)));
    }
    for function in &FUNCTIONS {
        let mut random = Random::new(seed ^ function.code << 48);
        for size in 0..=LIMIT {
            // 7 and 25 have no common factor, so the rows have each size too.
            let rows = (size * 7 + 3) % (LIMIT + 1);
            lines.push(drawn(function, &mut random, rows, size));
        }
        for _ in 0..SMALL {
            let (m, n) = (random.below(SMALL_SIZE), random.below(SMALL_SIZE));
            lines.push(drawn(function, &mut random, m as usize, n as usize));
        }
        for number in [5, 6] {
            lines.extend(refused(function, &mut random, number));
        }
        lines.extend(by_lengths(function));
    }
    lines
}
