//! geop's number, an interval `[lo, hi]` of `f64` with every operation rounded outward: the methods that the archive
//! has.

pub use crate::archive::Scalar;
use crate::archive::{self, ScalarResult};
use crate::geop_error::{GeopError, GeopResult};
use std::fmt::{self, Display, Formatter};

impl Display for Scalar {
    fn fmt(&self, f: &mut Formatter<'_>) -> fmt::Result {
        write!(f, "{:.3}", self.to_f64())
    }
}

/// The value, or the refusal of that number.
fn result(r: ScalarResult) -> GeopResult<Scalar> {
    match r.number {
        0 => Ok(r.value),
        number => Err(GeopError::numbered(number as usize)),
    }
}

#[allow(
    clippy::should_implement_trait,
    reason = "the names are geop's, whose division may refuse"
)]
impl Scalar {
    /// `[0, 0]`.
    pub const ZERO: Self = Scalar { lo: 0.0, hi: 0.0 };
    /// `[1, 1]`.
    pub const ONE: Self = Scalar { lo: 1.0, hi: 1.0 };
    /// `[2, 2]`.
    pub const TWO: Self = Scalar { lo: 2.0, hi: 2.0 };

    /// The interval of these ends, as they are: nothing is tested.
    pub fn new(lo: f64, hi: f64) -> Self {
        Scalar { lo, hi }
    }

    /// `[v, v]`.
    pub fn degenerate(v: f64) -> Self {
        Scalar { lo: v, hi: v }
    }

    /// `[v, v]`: exact of the float, which a decimal constant need not be. [`Scalar::from_ratio`] holds a decimal.
    pub fn from_f64(v: f64) -> Self {
        Scalar::degenerate(v)
    }

    /// The middle, `(lo + hi) / 2`.
    pub fn to_f64(self) -> f64 {
        self.sharpen().lo
    }

    /// The nearest float of a whole number, ties to even; exact up to 2^53.
    pub fn from_i64(v: i64) -> Self {
        archive::yadzvego_interval_from_i64(v)
    }

    /// An interval that holds `num / den` for whole numbers up to 2^53: 0.1 is `from_ratio(1, 10)`. Fails over 0.
    pub fn from_ratio(num: i64, den: i64) -> GeopResult<Self> {
        result(archive::yadzvego_interval_from_ratio(num, den))
    }

    /// Holds every sum of a number of each.
    pub fn add(self, other: Self) -> Self {
        archive::yadzvego_interval_add(self, other)
    }

    /// Holds every difference.
    pub fn sub(self, other: Self) -> Self {
        archive::yadzvego_interval_sub(self, other)
    }

    /// Holds every product.
    pub fn mul(self, other: Self) -> Self {
        archive::yadzvego_interval_mul(self, other)
    }

    /// `[-hi, -lo]`.
    pub fn neg(self) -> Self {
        archive::yadzvego_interval_neg(self)
    }

    /// Fails where the divisor could be zero.
    pub fn div(self, other: Self) -> GeopResult<Self> {
        result(archive::yadzvego_interval_div(self, other))
    }

    /// Holds every magnitude.
    pub fn abs(self) -> Self {
        archive::yadzvego_interval_abs(self)
    }

    /// Fails where it is definitely negative.
    pub fn sqrt(self) -> GeopResult<Self> {
        result(archive::yadzvego_interval_sqrt(self))
    }

    /// Whether the intervals touch.
    pub fn could_be_equal(self, other: Self) -> bool {
        archive::yadzvego_interval_could_be_equal(self, other)
    }

    /// Whether they do not touch.
    pub fn definitely_not_equal(self, other: Self) -> bool {
        archive::yadzvego_interval_definitely_not_equal(self, other)
    }

    /// Whether some number of this one is greater than some of the other.
    pub fn could_be_greater(self, other: Self) -> bool {
        archive::yadzvego_interval_could_be_greater(self, other)
    }

    /// Whether every number of this one is greater than every one of the other.
    pub fn definitely_greater(self, other: Self) -> bool {
        archive::yadzvego_interval_definitely_greater(self, other)
    }

    /// Whether some number of this one is less than some of the other.
    pub fn could_be_less(self, other: Self) -> bool {
        archive::yadzvego_interval_could_be_less(self, other)
    }

    /// Whether every number of this one is less than every one of the other.
    pub fn definitely_less(self, other: Self) -> bool {
        archive::yadzvego_interval_definitely_less(self, other)
    }

    /// Whether neither end is on its side of zero: true of `[0, 0]`, of NaN and of inverted ends around 0.
    pub fn is_zero(self) -> bool {
        archive::yadzvego_interval_is_zero(self)
    }

    /// Whether both ends are finite.
    pub fn is_finite(self) -> bool {
        archive::yadzvego_interval_is_finite(self)
    }

    /// The middle as an interval, rounded outward.
    pub fn midpoint(self) -> Self {
        archive::yadzvego_interval_midpoint(self)
    }

    /// Whether both ends are equal.
    pub fn is_sharp(self) -> bool {
        archive::yadzvego_interval_is_sharp(self)
    }

    /// `[lo, lo]`.
    pub fn lower(self) -> Self {
        archive::yadzvego_interval_lower(self)
    }

    /// `[hi, hi]`.
    pub fn upper(self) -> Self {
        archive::yadzvego_interval_upper(self)
    }

    /// The middle `(lo + hi) / 2` at both ends.
    pub fn sharpen(self) -> Self {
        archive::yadzvego_interval_sharpen(self)
    }

    /// The greater lower and the greater upper end, in order.
    pub fn max(self, other: Self) -> Self {
        archive::yadzvego_interval_max(self, other)
    }
}
