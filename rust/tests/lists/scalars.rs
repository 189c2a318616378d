//! The methods of `Scalar` on the fixed list that crates/interval_replay replays: a function's code, two scalars or two
//! whole numbers, and the number of the refusal with the value.

use crate::{file, number};
use yadzvego::geop_error::GeopResult;
use yadzvego::scalars::Scalar;

const NAN: u64 = 0x7FF8_0000_0000_0000;

/// Every NaN by one word.
fn word(x: f64) -> u64 {
    if x.is_nan() { NAN } else { x.to_bits() }
}

fn value(v: Scalar) -> [u64; 3] {
    [0, word(v.lo), word(v.hi)]
}

fn result(r: GeopResult<Scalar>) -> [u64; 3] {
    r.map_or_else(|why| [why.number() as u64, 0, 0], value)
}

fn truth(holds: bool) -> [u64; 3] {
    [0, u64::from(holds), 0]
}

/// What the function of that code gives; none for `next_up` and `next_down`, which are not public in geop.
fn given(code: usize, w: &[u64]) -> Option<[u64; 3]> {
    let [a, b, c, d] = [0, 1, 2, 3].map(|i| f64::from_bits(w[i]));
    let (x, y) = (Scalar::new(a, b), Scalar::new(c, d));
    Some(match code {
        0x00 | 0x01 => return None,
        0x02 => value(Scalar::degenerate(a)),
        0x03 => value(Scalar::from_i64(w[0] as i64)),
        0x04 => result(Scalar::from_ratio(w[0] as i64, w[1] as i64)),
        0x10 => value(x.neg()),
        0x11 => value(x.abs()),
        0x12 => result(x.sqrt()),
        0x13 => value(x.midpoint()),
        0x14 => value(x.lower()),
        0x15 => value(x.upper()),
        0x16 => value(x.sharpen()),
        0x20 => truth(x.is_zero()),
        0x21 => truth(x.is_finite()),
        0x22 => truth(x.is_sharp()),
        0x30 => value(x.add(y)),
        0x31 => value(x.sub(y)),
        0x32 => value(x.mul(y)),
        0x33 => result(x.div(y)),
        0x34 => value(x.max(y)),
        0x40 => truth(x.could_be_equal(y)),
        0x41 => truth(x.definitely_not_equal(y)),
        0x42 => truth(x.could_be_greater(y)),
        0x43 => truth(x.definitely_greater(y)),
        0x44 => truth(x.could_be_less(y)),
        0x45 => truth(x.definitely_less(y)),
        _ => panic!("code {code:X}"),
    })
}

#[test]
fn answers_are_the_lists() {
    let mut answers = 0;
    for line in file("crates/interval_replay/stdin").lines() {
        let (asked, expected) = line.split_once(" = ").expect("an answer");
        let words = |text: &str| text.split(' ').map(|w| number(w) as u64).collect();
        let (asked, expected): (Vec<u64>, Vec<u64>) = (words(asked), words(expected));
        if let Some(given) = given(asked[0] as usize, &asked[1..]) {
            assert_eq!(given.to_vec(), expected, "{line}");
            answers += 1;
        }
    }
    assert!(answers > 2_400, "{answers} answers");
}

/// What the list does not have.
#[test]
fn constants_and_floats() {
    let ends = |v: Scalar| (v.lo, v.hi);
    assert_eq!(ends(Scalar::ZERO), (0.0, 0.0));
    assert_eq!(ends(Scalar::ONE), (1.0, 1.0));
    assert_eq!(ends(Scalar::TWO), (2.0, 2.0));
    assert_eq!(ends(Scalar::default()), (0.0, 0.0));
    assert_eq!(ends(Scalar::from_f64(3.5)), (3.5, 3.5));
    assert_eq!(Scalar::new(1.0, 4.0).to_f64(), 2.5);
    assert_eq!(Scalar::new(1.0, 4.0).to_string(), "2.500");
}
