//! Operands: the special ones, and random ones drawn from classes.

use crate::interval::functions::{Operands, Takes};
use crate::words::NAN;

type Ends = [u64; 2];

const SIGN: u64 = 1 << 63;
const INFINITY: u64 = 0x7FF0_0000_0000_0000;
const LARGEST: u64 = INFINITY - 1;
const SMALLEST_NORMAL: u64 = 1 << 52;

/// The bits of 2 to the power `e`, subnormal ones included.
fn power(e: i64) -> u64 {
    if e < -1022 {
        1 << (e + 1074)
    } else {
        ((e + 1023) as u64) << 52
    }
}

// ---- the special ones

const POWERS: [i64; 24] = [
    -1074, -1024, -1023, -1022, -1021, -538, -537, -512, -511, -400, -53, -52, -1, 0, 1, 2, 52, 53,
    63, 400, 511, 512, 1022, 1023,
];

const SINGLES: [f64; 12] = [
    3.0,
    5.0,
    9.0,
    10.0,
    0.1,
    0.75,
    1e-3,
    1e300,
    1e-300,
    1e-310,
    4503599761588225.0,
    1e16,
];

/// Both zeros, infinities, NaNs of several payloads, the largest and smallest of each kind, powers of two and their
/// neighbours, of both signs.
pub fn special_floats() -> Vec<u64> {
    let mut sizes = vec![
        0,
        1,
        2,
        SMALLEST_NORMAL - 2,
        SMALLEST_NORMAL - 1,
        LARGEST - 1,
        LARGEST,
        INFINITY,
    ];
    for e in POWERS {
        sizes.extend([power(e) - 1, power(e), power(e) + 1]);
    }
    sizes.extend(SINGLES.map(f64::to_bits));
    sizes.sort_unstable();
    sizes.dedup();
    let mut floats: Vec<u64> = sizes.iter().flat_map(|&x| [x, x | SIGN]).collect();
    floats.extend([NAN, NAN | SIGN, INFINITY + 1, u64::MAX]);
    floats
}

/// The point intervals of the special floats, and every pair of ends out of a few: also inverted, touching and
/// straddling zero, with NaN ends.
pub fn special_scalars() -> Vec<Ends> {
    let sizes = [
        0,
        1,
        power(-1024),
        power(0),
        power(0) + 1,
        power(1),
        power(400),
        LARGEST,
        INFINITY,
    ];
    let mut ends: Vec<u64> = sizes.iter().flat_map(|&x| [x, x | SIGN]).collect();
    ends.push(NAN);
    let points = special_floats().into_iter().map(|x| [x, x]);
    let pairs = ends
        .iter()
        .flat_map(|&lo| ends.iter().map(move |&hi| [lo, hi]));
    let mut scalars: Vec<Ends> = points.chain(pairs).collect();
    scalars.sort_unstable();
    scalars.dedup();
    scalars
}

/// Small ones, the ends of the type, and numbers at and beside the midpoints of two floats.
pub fn special_integers() -> Vec<u64> {
    let mut integers: Vec<i64> = vec![
        0,
        1,
        2,
        3,
        7,
        10,
        180,
        1000,
        i64::MAX,
        i64::MAX - 1,
        i64::MIN,
        i64::MIN + 1,
    ];
    for k in [31, 32, 52, 53, 54, 60, 62] {
        integers.extend((-3..=3).map(|d| (1i64 << k) + d));
    }
    for ulp in [4, 512, 1024] {
        let top = if ulp == 1024 {
            i64::MAX - 1023
        } else {
            ulp << 52
        };
        let half = ulp / 2;
        integers.extend(
            [
                half - 1,
                half,
                half + 1,
                3 * half - 1,
                3 * half,
                3 * half + 1,
            ]
            .map(|d| top.saturating_add(d)),
        );
        integers.extend([half - 1, half, half + 1].map(|d| top - d));
    }
    let negated: Vec<i64> = integers.iter().map(|x| x.wrapping_neg()).collect();
    integers.extend(negated);
    integers.sort_unstable();
    integers.dedup();
    integers.into_iter().map(|x| x as u64).collect()
}

fn pairs<A: Copy>(items: &[A], mut joined: impl FnMut(A, A) -> Operands) -> Vec<Operands> {
    items
        .iter()
        .flat_map(|&x| items.iter().map(move |&y| (x, y)))
        .map(|(x, y)| joined(x, y))
        .collect()
}

/// Every special operand of a function, and of a function of two every pair.
pub fn specials(takes: Takes) -> Vec<Operands> {
    match takes {
        Takes::Nothing => vec![[0; 4]],
        Takes::Float => special_floats().into_iter().map(|x| [x, 0, 0, 0]).collect(),
        Takes::Integer => special_integers()
            .into_iter()
            .map(|x| [x, 0, 0, 0])
            .collect(),
        Takes::Integers => pairs(&special_integers(), |x, y| [x, y, 0, 0]),
        Takes::Scalar => special_scalars()
            .into_iter()
            .map(|x| [x[0], x[1], 0, 0])
            .collect(),
        Takes::Scalars => pairs(&special_scalars(), |x, y| [x[0], x[1], y[0], y[1]]),
    }
}

// ---- the random ones

/// splitmix64.
pub struct Random {
    state: u64,
    floats: Vec<u64>,
    scalars: Vec<Ends>,
    integers: Vec<u64>,
}

impl Random {
    pub fn new(seed: u64) -> Self {
        Random {
            state: seed,
            floats: special_floats(),
            scalars: special_scalars(),
            integers: special_integers(),
        }
    }

    pub fn word(&mut self) -> u64 {
        self.state = self.state.wrapping_add(0x9E37_79B9_7F4A_7C15);
        let z = (self.state ^ (self.state >> 30)).wrapping_mul(0xBF58_476D_1CE4_E5B9);
        let z = (z ^ (z >> 27)).wrapping_mul(0x94D0_49BB_1331_11EB);
        z ^ (z >> 31)
    }

    pub fn below(&mut self, n: u64) -> u64 {
        ((u128::from(self.word()) * u128::from(n)) >> 64) as u64
    }

    pub fn between(&mut self, from: i64, to: i64) -> i64 {
        from + self.below((to - from + 1) as u64) as i64
    }

    fn digits(&mut self) -> u64 {
        self.word() >> 12
    }

    pub fn scaled(&mut self, from: i64, to: i64) -> u64 {
        power(self.between(from, to)) | self.digits()
    }

    /// `bits`, moved by a few patterns.
    fn beside(&mut self, bits: u64) -> u64 {
        bits.saturating_add_signed(self.between(-2, 2))
            .min(INFINITY)
    }

    /// The square of a whole number by a power of four, or a float beside it.
    fn square(&mut self) -> u64 {
        let root = (self.word() >> self.between(38, 63)) as f64;
        let scale = f64::from_bits(power(self.between(-260, 240)));
        let square = (root * root * scale * scale).to_bits();
        if self.below(2) == 0 {
            square
        } else {
            self.beside(square)
        }
    }

    /// A float with no sign, by its class.
    fn size(&mut self) -> u64 {
        match self.below(16) {
            0 => 0,
            1 => self.digits() >> self.below(52),
            2 => {
                let e = self.between(-1074, 1023);
                self.beside(power(e))
            }
            3 => self.scaled(900, 1023),
            4 => self.scaled(-1022, -900),
            5 | 6 => self.scaled(-30, 30),
            7 => self.scaled(-1022, 1023),
            8 => self.scaled(505, 515),
            9 => self.scaled(-540, -505),
            10 => self.scaled(395, 405),
            11 => (self.below(1000) as f64 / 2.0).to_bits(),
            12 | 13 => self.square(),
            14 => {
                let at = self.below(self.floats.len() as u64);
                self.floats[at as usize] & !SIGN
            }
            _ => self.word() & !SIGN,
        }
    }

    fn float(&mut self) -> u64 {
        let size = self.size();
        if self.below(64) == 0 {
            NAN
        } else {
            size | (self.word() & SIGN)
        }
    }

    /// Two ends, by their class.
    pub fn scalar(&mut self) -> Ends {
        let (a, b) = (self.float(), self.float());
        let ordered = if f64::from_bits(a) <= f64::from_bits(b) {
            [a, b]
        } else {
            [b, a]
        };
        match self.below(16) {
            0..4 => ordered,
            4 | 5 => [a, a],
            6 => [ordered[1], ordered[0]],
            7 => {
                let near = self.beside(a & !SIGN);
                [a, near | (a & SIGN)]
            }
            8 => [a | SIGN, b & !SIGN],
            9 => [self.word() & SIGN, b & !SIGN],
            10 => [a | SIGN, self.word() & SIGN],
            11 => [a & !SIGN, a & !SIGN],
            12 => {
                let a = a & !SIGN;
                let near = self.beside(a);
                [a, near]
            }
            13 => match self.below(3) {
                0 => [NAN, b],
                1 => [a, NAN],
                _ => [a | SIGN, a & !SIGN],
            },
            14 => {
                let at = self.below(self.scalars.len() as u64);
                self.scalars[at as usize]
            }
            _ => [a, b],
        }
    }

    /// A second operand: often one that shares an end with the first, so that comparisons meet ties.
    fn beside_scalar(&mut self, x: Ends) -> Ends {
        let y = self.scalar();
        match self.below(12) {
            0 => x,
            1 => [x[1] ^ SIGN, x[0] ^ SIGN],
            2 => [x[1], y[1]],
            3 => [y[0], x[0]],
            4 => [x[0], y[1]],
            _ => y,
        }
    }

    fn integer(&mut self) -> u64 {
        match self.below(6) {
            0 => self.below(2001).wrapping_sub(1000),
            1 => self.word(),
            2 => self.word() >> self.below(64),
            3 => {
                let k = self.below(64);
                (1u64 << k).wrapping_add(self.below(9)).wrapping_sub(4)
            }
            4 => {
                // 54 digits, the last of them one: a midpoint of two floats.
                let midpoint = (self.word() >> 10 | 1 << 53 | 1) << self.below(10);
                let near = midpoint.wrapping_add(self.below(3)).wrapping_sub(1);
                if self.below(2) == 0 {
                    near
                } else {
                    near.wrapping_neg()
                }
            }
            _ => {
                let at = self.below(self.integers.len() as u64);
                self.integers[at as usize]
            }
        }
    }

    /// A place in the i-th of n parts of a list.
    pub fn part(&mut self, i: usize, n: usize, length: usize) -> usize {
        let (from, to) = (i * length / n, (i + 1) * length / n);
        from + self.below((to - from).max(1) as u64) as usize
    }

    pub fn operands(&mut self, takes: Takes) -> Operands {
        match takes {
            Takes::Nothing => [0; 4],
            Takes::Float => [self.float(), 0, 0, 0],
            Takes::Integer => [self.integer(), 0, 0, 0],
            Takes::Integers => [self.integer(), self.integer(), 0, 0],
            Takes::Scalar => {
                let x = self.scalar();
                [x[0], x[1], 0, 0]
            }
            Takes::Scalars => {
                let x = self.scalar();
                let y = self.beside_scalar(x);
                [x[0], x[1], y[0], y[1]]
            }
        }
    }
}
