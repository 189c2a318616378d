//! Sheets damaged: fields, keys, line ends and whole lines spelled wrongly, and bytes altered anywhere. Some are still
//! accepted.

use crate::interval::operands::Random;
use crate::sheets::reader::MOST_BYTES;
use crate::sheets::spelled::{Line, text};

/// Fields that are no numbers, and some that are against first sight.
#[rustfmt::skip]
const ODD: [&str; 32] = [
    "", "+", "-", "--1", "++1", "+-1", "-+1", "1-", "1+", " 1", "1 ", "\t1", "1\r", "1\0", "\0", "1.0", "1e3", "0x1",
    "1_0", "1'0", "1=1", "=1", "a", "\u{b2}", "\u{661}", "\u{2212}1", "1;2", "0-1", "-0", "+0", "-000", "00000000000",
];

/// Bounds and their neighbours of every number, the widths of machine numbers, and numbers that wrap to small ones.
#[rustfmt::skip]
const SIZES: [&str; 40] = [
    "0", "1", "2", "3", "4", "5", "6", "7", "8", "11", "12", "13", "14", "199", "200", "201", "202", "9999998",
    "9999999", "10000000", "10000001", "10000002", "20000000", "99999999", "100000000", "127", "128", "255", "256",
    "65536", "2147483648", "4294967296", "4294967297", "9223372036854775807", "9223372036854775808",
    "9223372036854775809", "18446744073709551615", "18446744073709551616", "18446744073709551617",
    "340282366920938463463374607431768211457",
];

#[rustfmt::skip]
const KEYS: [&str; 22] = [
    "points", "at", "limit", "reach", "rules", "span", "level", "plumb", "POINTS", "At", "LIMIT", "Reach", "SPAN",
    "Level", "", " at", "at ", "atx", "spa", "spans", "turned", "#",
];

#[rustfmt::skip]
const ENDS: [&str; 11] = ["", "\r\n", "\r", "\n\n", "\n\r", " \n", "\0\n", "\n ", ",\n", "\x0b", ";\n"];

/// What stands behind the last line.
#[rustfmt::skip]
const SURPLUS: [&str; 12] = [
    "\n", " ", "\0", "\r", "a", "level=0,1", "level=0,1\n", "plumb=9,9\n", "span=0,1,0\n", "points=1\n", "rules=0\n",
    "try=1\n",
];

const BYTES: &[u8] = b"0123456789+-,=\n\r\0 \t.aAptslrzZ/:\x7f\x80\xff";

fn key_is(line: &Line, keys: &[&str]) -> bool {
    keys.iter().any(|key| line.key == key.as_bytes())
}

impl Random {
    fn one_of<'a, T>(&mut self, all: &'a [T]) -> &'a T {
        &all[self.below(all.len() as u64) as usize]
    }

    fn place(&mut self, count: usize) -> usize {
        self.below(count as u64) as usize
    }

    /// A size with any sign and any zeros, or of hundreds of digits.
    fn odd_number(&mut self) -> Vec<u8> {
        let sign = *self.one_of(&["", "", "", "-", "-", "+"]);
        let zeros = match self.below(16) {
            0 => self.place(600),
            1..4 => self.place(20),
            _ => 0,
        };
        let mut size = self.one_of(&SIZES).to_string();
        if self.at_odds(24) {
            let digits = 1 + self.place(700);
            size = (0..digits)
                .map(|_| *self.one_of(b"0123456789") as char)
                .collect();
        }
        format!("{sign}{}{size}", "0".repeat(zeros)).into_bytes()
    }

    fn field(&mut self, line: &mut Line) {
        if line.fields.is_empty() {
            return;
        }
        let at = self.place(line.fields.len());
        line.fields[at] = match self.below(4) {
            0 => self.one_of(&ODD).as_bytes().to_vec(),
            _ => self.odd_number(),
        };
    }

    fn field_count(&mut self, line: &mut Line) {
        let at = self.place(line.fields.len() + 1);
        if self.at_odds(2) && at < line.fields.len() {
            line.fields.remove(at);
        } else {
            let number = self.below(4) as i64;
            let more = self.spelled(number);
            line.fields.insert(at, more);
        }
    }

    /// The points of a rule: equal ones, ones that are not there, negative ones and minus zero.
    fn points(&mut self, line: &mut Line) {
        if line.fields.len() < 2 {
            return;
        }
        match self.below(4) {
            0 => line.fields[1] = line.fields[0].clone(),
            1 => line.fields.swap(0, 1),
            _ => {
                let at = self.place(2);
                let odd = [
                    "-0", "-1", "6", "7", "00", "-00", "+0", "5", "4", "3", "2", "1", "0",
                ];
                line.fields[at] = self.one_of(&odd).as_bytes().to_vec();
            }
        }
    }

    /// One of the lines with such a key, or any.
    fn line_with<'a>(&mut self, lines: &'a mut [Line], keys: &[&str]) -> Option<&'a mut Line> {
        let places: Vec<usize> = (0..lines.len())
            .filter(|&i| keys.is_empty() || key_is(&lines[i], keys))
            .collect();
        if places.is_empty() {
            return None;
        }
        let place = *self.one_of(&places);
        lines.get_mut(place)
    }

    /// A line left out, doubled, moved or exchanged, or one more count.
    fn order(&mut self, lines: &mut Vec<Line>) {
        if lines.is_empty() {
            return;
        }
        let (i, j) = (self.place(lines.len()), self.place(lines.len()));
        match self.below(5) {
            0 => {
                lines.remove(i);
            }
            1 => lines.insert(i, lines[i].clone()),
            2 => lines.swap(i, j),
            3 => {
                let line = lines.remove(i);
                lines.insert(j.min(lines.len()), line);
            }
            _ => {
                let by = self.between(-1, 1);
                if let Some(line) = self.line_with(lines, &["points", "rules"]) {
                    let count = std::str::from_utf8(&line.fields.concat())
                        .ok()
                        .and_then(|text| text.parse::<i64>().ok());
                    line.fields = vec![(count.unwrap_or(0) + by).to_string().into_bytes()];
                }
            }
        }
    }

    /// Zeros before a number, until there are so many bytes.
    pub fn padded(&mut self, lines: &mut [Line], bytes: usize) {
        let missing = bytes.saturating_sub(text(lines).len());
        let Some(line) = self.line_with(lines, &[]) else {
            return;
        };
        if line.fields.is_empty() {
            return;
        }
        let at = self.place(line.fields.len());
        let field = &mut line.fields[at];
        let signs = usize::from(field.first().is_some_and(|byte| b"+-".contains(byte)));
        field.splice(signs..signs, vec![b'0'; missing]);
    }

    fn damage_lines(&mut self, lines: &mut Vec<Line>) {
        const RULES: &[&str] = &["span", "level", "plumb"];
        match self.below(16) {
            0..5 => {
                let keys: &[&str] = if self.at_odds(3) { RULES } else { &[] };
                if let Some(line) = self.line_with(lines, keys) {
                    self.field(line);
                }
            }
            5 => {
                if let Some(line) = self.line_with(lines, &[]) {
                    self.field_count(line);
                }
            }
            6..9 => {
                if let Some(line) = self.line_with(lines, RULES) {
                    self.points(line);
                }
            }
            9 => {
                if let Some(line) = self.line_with(lines, &[]) {
                    line.key = self.one_of(&KEYS).as_bytes().to_vec();
                }
            }
            10 => {
                if let Some(line) = self.line_with(lines, RULES) {
                    line.key = self.one_of(RULES).as_bytes().to_vec();
                }
            }
            11 => {
                if let Some(line) = self.line_with(lines, &[]) {
                    line.end = self.one_of(&ENDS).as_bytes().to_vec();
                }
            }
            12..15 => self.order(lines),
            _ => {
                if let Some(last) = lines.last_mut() {
                    last.end.extend(self.one_of(&SURPLUS).as_bytes());
                }
            }
        }
    }

    fn damage_bytes(&mut self, text: &mut Vec<u8>) {
        let (i, j) = (self.place(text.len() + 1), self.place(text.len() + 1));
        let (from, to) = (i.min(j), i.max(j));
        match self.below(8) {
            0 if i < text.len() => text[i] ^= 1 << self.below(8),
            1 if i < text.len() => text[i] = *self.one_of(BYTES),
            2 if i < text.len() => text[i] = self.word() as u8,
            3 => text.truncate(i),
            4 => drop(text.drain(from..to)),
            5 => drop(text.splice(from..from, text[from..to].to_vec())),
            6 if i < text.len() => drop(text.remove(i)),
            _ => text.insert(i, *self.one_of(BYTES)),
        }
    }

    /// The text of these lines, damaged once or several times.
    pub fn damaged(&mut self, lines: &[Line]) -> Vec<u8> {
        let mut lines = lines.to_vec();
        let (of_lines, of_bytes) = match self.below(16) {
            0..6 => (1, 0),
            6..9 => (2, 0),
            9 => (3, 0),
            10..14 => (0, 1),
            14 => (1, 1),
            _ => (0, 2),
        };
        for _ in 0..of_lines {
            self.damage_lines(&mut lines);
        }
        if self.at_odds(24) {
            let bytes = MOST_BYTES - 2 + self.place(5);
            self.padded(&mut lines, bytes);
        }
        let mut text = text(&lines);
        for _ in 0..of_bytes {
            self.damage_bytes(&mut text);
        }
        text
    }
}
