//! A sheet's text read a second time, from the description of sheets alone. Digits stay text, compared by their count
//! and then one after another, so that a number of any length is read.

use crate::sheets::rows::Rule;
use std::cmp::Ordering;

/// The most bytes of a sheet.
pub const MOST_BYTES: usize = 4096;

/// The faults of a line, in the order in which they count.
pub const MALFORMED: u64 = 7;
pub const OUT_OF_RANGE: u64 = 8;
pub const NO_SUCH_POINT: u64 = 9;

/// The least and the most of each number that has a range.
pub type Range = [&'static str; 2];
pub const POINTS: Range = ["1", "6"];
pub const COORDINATE: Range = ["-10000000", "10000000"];
pub const LIMIT: Range = ["0", "200"];
pub const REACH: Range = ["1", "10000000"];
pub const RULES: Range = ["0", "12"];
pub const DISTANCE: Range = ["1", "10000000"];

#[derive(PartialEq)]
pub struct Sheet {
    /// x0, y0, x1 and so on.
    pub at: Vec<i64>,
    pub limit: usize,
    pub reach: i64,
    pub rules: Vec<Rule>,
}

/// A whole number. Zero is not negative and has no digits, so that equal numbers are equal texts.
#[derive(Clone, Copy, PartialEq, Eq)]
struct Number<'a> {
    negative: bool,
    digits: &'a [u8],
}

impl<'a> Number<'a> {
    fn read(text: &'a [u8]) -> Option<Number<'a>> {
        let (minus, digits) = match text {
            [b'-', rest @ ..] => (true, rest),
            [b'+', rest @ ..] => (false, rest),
            _ => (false, text),
        };
        if digits.is_empty() || !digits.iter().all(u8::is_ascii_digit) {
            return None;
        }
        let zeros = digits.iter().take_while(|&&digit| digit == b'0').count();
        let digits = &digits[zeros..];
        Some(Number {
            negative: minus && !digits.is_empty(),
            digits,
        })
    }

    fn of(text: &'static str) -> Number<'static> {
        Number::read(text.as_bytes()).expect("a bound is a number")
    }

    /// Of a number that is known to be small.
    fn value(self) -> i64 {
        let size = self
            .digits
            .iter()
            .fold(0, |size, digit| 10 * size + i64::from(digit - b'0'));
        if self.negative { -size } else { size }
    }

    fn ranged(self, [least, most]: Range) -> Result<i64, u64> {
        let fits = Number::of(least) <= self && self <= Number::of(most);
        fits.then(|| self.value()).ok_or(OUT_OF_RANGE)
    }
}

impl Ord for Number<'_> {
    fn cmp(&self, other: &Self) -> Ordering {
        let counts = self.digits.len().cmp(&other.digits.len());
        let sizes = counts.then_with(|| self.digits.cmp(other.digits));
        match (self.negative, other.negative) {
            (false, false) => sizes,
            (true, true) => sizes.reverse(),
            (true, false) => Ordering::Less,
            (false, true) => Ordering::Greater,
        }
    }
}

impl PartialOrd for Number<'_> {
    fn partial_cmp(&self, other: &Self) -> Option<Ordering> {
        Some(self.cmp(other))
    }
}

/// What is left to read.
struct Rest<'a>(&'a [u8]);

impl<'a> Rest<'a> {
    /// The key and the numbers of the next line.
    fn line(&mut self) -> Result<(&'a [u8], Vec<Number<'a>>), u64> {
        let end = self.0.iter().position(|&byte| byte == b'\n');
        let (line, rest) = self.0.split_at(end.ok_or(MALFORMED)?);
        self.0 = &rest[1..];
        let mut parts = line.splitn(2, |&byte| byte == b'=');
        let (Some(key), Some(fields)) = (parts.next(), parts.next()) else {
            return Err(MALFORMED);
        };
        let numbers: Option<Vec<Number>> = fields
            .split(|&byte| byte == b',')
            .map(Number::read)
            .collect();
        Ok((key, numbers.ok_or(MALFORMED)?))
    }

    /// The numbers of a line that must have this key and so many of them.
    fn keyed<const K: usize>(&mut self, wanted: &str) -> Result<[Number<'a>; K], u64> {
        let (key, numbers) = self.line()?;
        let numbers = <[Number; K]>::try_from(numbers).map_err(|_| MALFORMED)?;
        let is_wanted = key == wanted.as_bytes();
        is_wanted.then_some(numbers).ok_or(MALFORMED)
    }

    fn one(&mut self, key: &str, range: Range) -> Result<i64, u64> {
        let [number] = self.keyed(key)?;
        number.ranged(range)
    }

    fn rule(&mut self, points: i64) -> Result<Rule, u64> {
        let (key, numbers) = self.line()?;
        let (i, j, distance) = match (key, &numbers[..]) {
            (b"span", &[i, j, distance]) => (i, j, Some(distance)),
            (b"level" | b"plumb", &[i, j]) => (i, j, None),
            _ => return Err(MALFORMED),
        };
        let distance = distance.map(|d| d.ranged(DISTANCE)).transpose()?;
        let points = points.to_string();
        let all = Number::read(points.as_bytes()).expect("a count is a number");
        let is_present = |point: Number| Number::of("0") <= point && point < all;
        if i == j || !is_present(i) || !is_present(j) {
            return Err(NO_SUCH_POINT);
        }
        let (i, j) = (i.value() as usize, j.value() as usize);
        Ok(match (key, distance) {
            (_, Some(distance)) => Rule::Span(i, j, distance),
            (b"level", None) => Rule::Level(i, j),
            (_, None) => Rule::Plumb(i, j),
        })
    }
}

/// The sheet that a text states, or the number of its first line at fault.
pub fn read(text: &[u8]) -> Result<Sheet, u64> {
    if text.len() > MOST_BYTES {
        return Err(MALFORMED);
    }
    let mut rest = Rest(text);
    let points = rest.one("points", POINTS)?;
    let mut at = Vec::new();
    for _ in 0..points {
        let [x, y] = rest.keyed("at")?;
        at.extend([x.ranged(COORDINATE)?, y.ranged(COORDINATE)?]);
    }
    let limit = rest.one("limit", LIMIT)? as usize;
    let reach = rest.one("reach", REACH)?;
    let count = rest.one("rules", RULES)?;
    let rules: Result<Vec<Rule>, u64> = (0..count).map(|_| rest.rule(points)).collect();
    let rules = rules?;
    // Whatever follows is a surplus line.
    let sheet = Sheet {
        at,
        limit,
        reach,
        rules,
    };
    rest.0.is_empty().then_some(sheet).ok_or(MALFORMED)
}
