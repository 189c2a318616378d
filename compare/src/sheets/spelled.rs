//! A sheet as it is spelled, line by line and field by field, so that each part can be spelled wrongly.

use crate::interval::operands::Random;
use crate::sheets::reader::Sheet;
use crate::sheets::rows::Rule;

#[derive(Clone)]
pub struct Line {
    pub key: Vec<u8>,
    pub fields: Vec<Vec<u8>>,
    pub end: Vec<u8>,
}

impl Line {
    pub fn new(key: &str, fields: Vec<Vec<u8>>) -> Line {
        Line {
            key: key.into(),
            fields,
            end: b"\n".to_vec(),
        }
    }

    /// A line of one field has no comma.
    pub fn text(&self) -> Vec<u8> {
        let fields = self.fields.join(&b","[..]);
        [&self.key[..], b"=", &fields, &self.end].concat()
    }
}

pub fn text(lines: &[Line]) -> Vec<u8> {
    lines.iter().flat_map(Line::text).collect()
}

/// A rule's key, its points and its distance.
fn parts(rule: Rule) -> (&'static str, Vec<i64>) {
    match rule {
        Rule::Span(i, j, d) => ("span", vec![i as i64, j as i64, d]),
        Rule::Level(i, j) => ("level", vec![i as i64, j as i64]),
        Rule::Plumb(i, j) => ("plumb", vec![i as i64, j as i64]),
    }
}

/// The lines of a sheet, each number spelled by `spell`.
pub fn lines(sheet: &Sheet, mut spell: impl FnMut(i64) -> Vec<u8>) -> Vec<Line> {
    let mut numbers = vec![("points", vec![sheet.at.len() as i64 / 2])];
    numbers.extend(sheet.at.chunks_exact(2).map(|at| ("at", at.to_vec())));
    numbers.push(("limit", vec![sheet.limit as i64]));
    numbers.push(("reach", vec![sheet.reach]));
    numbers.push(("rules", vec![sheet.rules.len() as i64]));
    numbers.extend(sheet.rules.iter().map(|&rule| parts(rule)));
    let mut line = |(key, numbers): (&str, Vec<i64>)| {
        Line::new(key, numbers.into_iter().map(&mut spell).collect())
    };
    numbers.into_iter().map(&mut line).collect()
}

/// Without a plus sign, leading zeros or minus zero.
pub fn plain(v: i64) -> Vec<u8> {
    v.to_string().into_bytes()
}

impl Random {
    /// With a sign and leading zeros now and then.
    pub fn spelled(&mut self, v: i64) -> Vec<u8> {
        let sign = match self.below(16) {
            _ if v < 0 => "-",
            0 | 1 => "+",
            2 if v == 0 => "-",
            _ => "",
        };
        let zeros = match self.below(64) {
            0 => self.below(300),
            1..4 => self.below(30),
            4..12 => 1 + self.below(3),
            _ => 0,
        };
        let zeros = "0".repeat(zeros as usize);
        format!("{sign}{zeros}{}", v.unsigned_abs()).into_bytes()
    }
}
