//! Floats as words: the bits, and one word for every NaN, so that a NaN equals a NaN.

pub const NAN: u64 = 0x7FF8_0000_0000_0000;

pub fn word(x: f64) -> u64 {
    if x.is_nan() { NAN } else { x.to_bits() }
}

pub fn words(numbers: &[f64]) -> Vec<u64> {
    numbers.iter().map(|&x| word(x)).collect()
}

pub fn hex(words: &[u64]) -> String {
    words
        .iter()
        .map(|w| format!("{w:016X}"))
        .collect::<Vec<_>>()
        .join(" ")
}
