//! The functions of `interval` compared. Operands and answers are words: the bits of a float, the two's complement of
//! an integer.

use crate::archive;
use crate::words::word;
use geop_core_math::geop_error::{GeopError, GeopResult};
use geop_core_math::scalars::{self, Scalar};

/// A scalar is two words; operands that a function does not take are 0.
pub type Operands = [u64; 4];

/// A refusal's number, or 0 and the words of the value.
#[derive(Clone, Copy, PartialEq, Eq)]
pub struct Answer {
    pub number: u64,
    pub words: [u64; 2],
}

#[derive(Clone, Copy, PartialEq, Eq)]
pub enum Takes {
    Nothing,
    Float,
    Integer,
    Integers,
    Scalar,
    Scalars,
}

pub struct Function {
    pub name: &'static str,
    /// How the list of answers names it.
    pub code: u8,
    pub takes: Takes,
    pub rust: fn(&Operands) -> Answer,
    pub rattle: fn(&Operands) -> Answer,
}

fn value(lo: f64, hi: f64) -> Answer {
    Answer {
        number: 0,
        words: [word(lo), word(hi)],
    }
}

trait Answers {
    fn answer(self) -> Answer;
}

impl Answers for bool {
    fn answer(self) -> Answer {
        Answer {
            number: 0,
            words: [u64::from(self), 0],
        }
    }
}

impl Answers for f64 {
    fn answer(self) -> Answer {
        Answer {
            number: 0,
            words: [word(self), 0],
        }
    }
}

impl Answers for Scalar {
    fn answer(self) -> Answer {
        value(self.lo, self.hi)
    }
}

impl Answers for archive::Scalar {
    fn answer(self) -> Answer {
        value(self.lo, self.hi)
    }
}

impl Answers for archive::ScalarResult {
    fn answer(self) -> Answer {
        Answer {
            number: self.number,
            ..self.value.answer()
        }
    }
}

pub fn number_of(error: &GeopError) -> u64 {
    match error.root_message() {
        "Scalar::sqrt: interval is definitely negative" => 5,
        "Scalar::div: divisor interval contains zero" => 6,
        "Scalar::from_ratio: denominator is zero" => 6,
        other => panic!("an error without a number: {other}"),
    }
}

/// A refusal is its number with the value zero.
impl Answers for GeopResult<Scalar> {
    fn answer(self) -> Answer {
        match self {
            Ok(value) => value.answer(),
            Err(error) => Answer {
                number: number_of(&error),
                words: [0, 0],
            },
        }
    }
}

fn rust_scalar(w: &Operands, at: usize) -> Scalar {
    Scalar {
        lo: f64::from_bits(w[at]),
        hi: f64::from_bits(w[at + 1]),
    }
}

fn rattle_scalar(w: &Operands, at: usize) -> archive::Scalar {
    archive::Scalar {
        lo: f64::from_bits(w[at]),
        hi: f64::from_bits(w[at + 1]),
    }
}

macro_rules! function {
    ($code:literal, $name:literal, $takes:ident, $w:ident, $rust:expr, $rattle:expr) => {
        Function {
            name: $name,
            code: $code,
            takes: Takes::$takes,
            rust: |$w| $rust.answer(),
            rattle: |$w| $rattle.answer(),
        }
    };
}

macro_rules! constant {
    ($code:literal, $name:literal, $rust:ident, $rattle:ident) => {
        function!($code, $name, Nothing, _w, Scalar::$rust, archive::$rattle())
    };
}

macro_rules! float {
    ($code:literal, $name:literal, $rust:path, $rattle:ident) => {
        function!(
            $code,
            $name,
            Float,
            w,
            $rust(f64::from_bits(w[0])),
            archive::$rattle(f64::from_bits(w[0]))
        )
    };
}

macro_rules! unary {
    ($code:literal, $name:literal, $rust:ident, $rattle:ident) => {
        function!(
            $code,
            $name,
            Scalar,
            w,
            rust_scalar(w, 0).$rust(),
            archive::$rattle(rattle_scalar(w, 0))
        )
    };
}

macro_rules! binary {
    ($code:literal, $name:literal, $rust:ident, $rattle:ident) => {
        function!(
            $code,
            $name,
            Scalars,
            w,
            rust_scalar(w, 0).$rust(rust_scalar(w, 2)),
            archive::$rattle(rattle_scalar(w, 0), rattle_scalar(w, 2))
        )
    };
}

pub const FUNCTIONS: [Function; 29] = [
    constant!(0x50, "ZERO", ZERO, yadzvego_interval_zero),
    constant!(0x51, "ONE", ONE, yadzvego_interval_one),
    constant!(0x52, "TWO", TWO, yadzvego_interval_two),
    float!(0x00, "next_up", scalars::next_up, yadzvego_interval_next_up),
    float!(
        0x01,
        "next_down",
        scalars::next_down,
        yadzvego_interval_next_down
    ),
    float!(
        0x02,
        "degenerate",
        Scalar::degenerate,
        yadzvego_interval_degenerate
    ),
    function!(
        0x03,
        "from_i64",
        Integer,
        w,
        Scalar::from_i64(w[0] as i64),
        archive::yadzvego_interval_from_i64(w[0] as i64)
    ),
    function!(
        0x04,
        "from_ratio",
        Integers,
        w,
        Scalar::from_ratio(w[0] as i64, w[1] as i64),
        archive::yadzvego_interval_from_ratio(w[0] as i64, w[1] as i64)
    ),
    unary!(0x10, "neg", neg, yadzvego_interval_neg),
    unary!(0x11, "abs", abs, yadzvego_interval_abs),
    unary!(0x12, "sqrt", sqrt, yadzvego_interval_sqrt),
    unary!(0x13, "midpoint", midpoint, yadzvego_interval_midpoint),
    unary!(0x14, "lower", lower, yadzvego_interval_lower),
    unary!(0x15, "upper", upper, yadzvego_interval_upper),
    unary!(0x16, "sharpen", sharpen, yadzvego_interval_sharpen),
    unary!(0x20, "is_zero", is_zero, yadzvego_interval_is_zero),
    unary!(0x21, "is_finite", is_finite, yadzvego_interval_is_finite),
    unary!(0x22, "is_sharp", is_sharp, yadzvego_interval_is_sharp),
    binary!(0x30, "add", add, yadzvego_interval_add),
    binary!(0x31, "sub", sub, yadzvego_interval_sub),
    binary!(0x32, "mul", mul, yadzvego_interval_mul),
    binary!(0x33, "div", div, yadzvego_interval_div),
    binary!(0x34, "max", max, yadzvego_interval_max),
    binary!(
        0x40,
        "could_be_equal",
        could_be_equal,
        yadzvego_interval_could_be_equal
    ),
    binary!(
        0x41,
        "definitely_not_equal",
        definitely_not_equal,
        yadzvego_interval_definitely_not_equal
    ),
    binary!(
        0x42,
        "could_be_greater",
        could_be_greater,
        yadzvego_interval_could_be_greater
    ),
    binary!(
        0x43,
        "definitely_greater",
        definitely_greater,
        yadzvego_interval_definitely_greater
    ),
    binary!(
        0x44,
        "could_be_less",
        could_be_less,
        yadzvego_interval_could_be_less
    ),
    binary!(
        0x45,
        "definitely_less",
        definitely_less,
        yadzvego_interval_definitely_less
    ),
];
