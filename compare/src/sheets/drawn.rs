//! Sheets that are accepted, drawn at random: frames as the whole runs have them, and sheets of any numbers in range.

use crate::interval::operands::Random;
use crate::runs::frame::Frame;
use crate::sheets::reader::Sheet;
use crate::sheets::rows::Rule;
use crate::sheets::spelled::{Line, lines};

const FARTHEST: i64 = 10_000_000;

impl Random {
    /// Of all sizes, the ends of the range among them.
    fn length(&mut self) -> i64 {
        match self.below(8) {
            0 => 1,
            1 => FARTHEST,
            2 => FARTHEST - self.between(0, 3),
            _ => {
                let most = [5, 100, 30_000, FARTHEST][self.below(4) as usize];
                self.between(1, most)
            }
        }
    }

    fn whole_coordinate(&mut self) -> i64 {
        match self.below(8) {
            0 => 0,
            1 => -self.length(),
            _ if self.at_odds(2) => self.length(),
            _ => self.between(-4, 4),
        }
    }

    fn sheet_rule(&mut self, points: u64) -> Rule {
        let i = self.below(points);
        let j = (i + 1 + self.below(points - 1)) % points;
        let (i, j) = (i as usize, j as usize);
        match self.below(4) {
            0 => Rule::Level(i, j),
            1 => Rule::Plumb(i, j),
            _ => Rule::Span(i, j, self.length()),
        }
    }

    /// Points that coincide and rules that contradict each other are among them.
    fn any_sheet(&mut self) -> Sheet {
        let most = if self.at_odds(3) { 6 } else { 3 };
        let points = 1 + self.below(most);
        let mut at: Vec<i64> = (0..2 * points).map(|_| self.whole_coordinate()).collect();
        if points > 1 && self.at_odds(4) {
            at.copy_within(..2, 2);
        }
        let most = if self.at_odds(6) { 13 } else { 5 };
        let count = if points == 1 { 0 } else { self.below(most) };
        let mut rules: Vec<Rule> = (0..count).map(|_| self.sheet_rule(points)).collect();
        if let (Some(&first), true) = (rules.first(), self.at_odds(4)) {
            let again = match first {
                Rule::Span(i, j, _) => Rule::Span(j, i, self.length()),
                other => other,
            };
            rules.truncate(11);
            rules.push(again);
        }
        Sheet {
            limit: self.limit(at.len()),
            reach: self.length(),
            at,
            rules,
        }
    }

    /// A frame of the whole runs.
    pub fn frame_sheet(&mut self, frame: &Frame) -> Sheet {
        let whole = |v: f64| v as i64;
        Sheet {
            at: frame.start.iter().map(|v| whole(v.lo)).collect(),
            limit: frame.sizes(self).limit,
            reach: whole(frame.reach(self).lo),
            rules: frame.rules.clone(),
        }
    }

    /// An accepted sheet.
    pub fn sheet(&mut self) -> Sheet {
        if self.at_odds(2) {
            return self.any_sheet();
        }
        let frame = Frame::drawn(self);
        self.frame_sheet(&frame)
    }

    /// Its lines, numbers with signs and leading zeros among them.
    pub fn sheet_lines(&mut self, sheet: &Sheet) -> Vec<Line> {
        lines(sheet, |v| self.spelled(v))
    }
}
