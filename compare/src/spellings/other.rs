//! Sheets that differ from another in one number, or in the kind or the count of their rules.

use crate::interval::operands::Random;
use crate::sheets::reader::{Sheet, read};
use crate::sheets::spelled::{Line, lines, plain, text};

/// So many changes are tried; most give a sheet.
const TRIES: usize = 40;

fn number(field: &[u8]) -> i64 {
    let text = std::str::from_utf8(field).expect("a plain number");
    text.parse().expect("a plain number")
}

impl Random {
    /// One number of a line made another.
    fn other_number(&mut self, line: &mut Line) {
        let place = self.below(line.fields.len() as u64) as usize;
        let v = number(&line.fields[place]);
        let other = match self.below(6) {
            0 => -v,
            1 => 10 * v,
            2 => v / 10,
            3 => v + self.between(-1000, 1000),
            4 => v - 1,
            _ => v + 1,
        };
        line.fields[place] = plain(other);
    }

    fn other_lines(&mut self, lines: &mut Vec<Line>) {
        let last = lines.len() - 1;
        let place = self.below(lines.len() as u64) as usize;
        match self.below(8) {
            0 if lines[last].key == b"level" => lines[last].key = b"plumb".to_vec(),
            0 if lines[last].key == b"plumb" => lines[last].key = b"level".to_vec(),
            // One rule less.
            1 if lines[last].key != b"rules" => {
                lines.pop();
                for line in lines.iter_mut().filter(|line| line.key == b"rules") {
                    line.fields = vec![plain(number(&line.fields[0]) - 1)];
                }
            }
            _ => self.other_number(&mut lines[place]),
        }
    }

    /// Another sheet that differs in little from this one.
    pub fn other_sheet(&mut self, sheet: &Sheet) -> Option<Sheet> {
        for _ in 0..TRIES {
            let mut lines = lines(sheet, plain);
            self.other_lines(&mut lines);
            match read(&text(&lines)) {
                Ok(other) if other != *sheet => return Some(other),
                _ => {}
            }
        }
        None
    }
}
