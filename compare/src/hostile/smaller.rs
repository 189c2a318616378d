//! Smaller hostile calls: simpler numbers in the run, in the area and in the rows.

use crate::hostile::altered::{CASES, COUNTS, MARKS, SCALARS};
use crate::hostile::call::{Call, Fault};
use crate::runs::problem::Rows;
use crate::shrink::{
    self, Case, WHOLES, changes_in, simpler_in, simpler_scalar, simpler_whole, smallest,
};
use crate::words::{hex, word};

/// So many numbers of the area are set to +0 at once.
const BLOCKS: [usize; 4] = [2000, 200, 20, 1];

impl Call {
    fn with_count(&self, change: usize) -> Option<Call> {
        let mut less = self.clone();
        let count = COUNTS[change / WHOLES].1(&mut less.run);
        *count = simpler_whole(*count as u64, change % WHOLES)? as usize;
        Some(less)
    }

    fn with_scalar(&self, change: usize) -> Option<Call> {
        let mut less = self.clone();
        let scalar = SCALARS[change / shrink::SCALARS].1(&mut less.run);
        let ends = [scalar.lo, scalar.hi].map(f64::to_bits);
        let [lo, hi] = simpler_scalar(ends, change % shrink::SCALARS)?.map(f64::from_bits);
        *scalar = crate::archive::Scalar { lo, hi };
        Some(less)
    }

    fn with_case(&self, change: usize) -> Option<Call> {
        let mut less = self.clone();
        let case = CASES[change].1(&mut less.run);
        (std::mem::take(case) > 0).then_some(less)
    }

    fn with_mark(&self, change: usize) -> Option<Call> {
        let mut less = self.clone();
        let mark = match MARKS.get(change) {
            Some((_, field)) => field(&mut less.run),
            None => &mut less.run.moving[change - MARKS.len()],
        };
        std::mem::take(mark).then_some(less)
    }

    fn with_block(&self, mut change: usize) -> Option<Call> {
        for size in BLOCKS {
            let blocks = self.area.len().div_ceil(size);
            if change < blocks {
                let to = self.area.len().min((change + 1) * size);
                let block = change * size..to;
                let mut less = self.clone();
                let used = self.area[block.clone()].iter().any(|x| x.to_bits() != 0);
                less.area[block].fill(0.0);
                return used.then_some(less);
            }
            change -= blocks;
        }
        None
    }

    fn with_rows(&self, change: usize) -> Option<Call> {
        let rows = self.rows.as_ref()?;
        let rows = match change.checked_sub(1) {
            None => None,
            Some(change) => Some(Rows {
                m: rows.m,
                numbers: simpler_in(&rows.numbers, change)?,
            }),
        };
        let mut less = self.clone();
        less.rows = rows;
        Some(less)
    }

    /// How many changes there are of each kind, in their order.
    fn kinds(&self) -> [usize; 6] {
        let blocks = BLOCKS.map(|size| self.area.len().div_ceil(size));
        let numbers = self
            .rows
            .as_ref()
            .map_or(0, |rows| changes_in(&rows.numbers));
        [
            1 + numbers,
            blocks.iter().sum(),
            COUNTS.len() * WHOLES,
            SCALARS.len() * shrink::SCALARS,
            CASES.len(),
            MARKS.len() + self.run.moving.len(),
        ]
    }

    /// A line: the words of the run's fields, the area's length with what is not +0 in it, and the rows.
    fn line(&self) -> String {
        let mut run = self.run;
        let mut fields: Vec<u64> = COUNTS
            .iter()
            .map(|(_, field)| *field(&mut run) as u64)
            .collect();
        for (_, field) in SCALARS {
            let scalar = field(&mut run);
            fields.extend([word(scalar.lo), word(scalar.hi)]);
        }
        fields.extend(CASES.iter().map(|(_, field)| u64::from(*field(&mut run))));
        fields.extend(MARKS.iter().map(|(_, field)| u64::from(*field(&mut run))));
        fields.extend(run.moving.map(u64::from));
        let places = self
            .area
            .iter()
            .enumerate()
            .filter(|(_, x)| x.to_bits() != 0);
        let area: Vec<String> = places.map(|(i, &x)| format!("{i}:{:X}", word(x))).collect();
        let rows = match &self.rows {
            None => "none".to_string(),
            Some(Rows { m, numbers }) => format!(
                "{m} {} {}",
                numbers.len(),
                hex(&crate::words::words(numbers))
            ),
        };
        let fields: Vec<String> = fields.iter().map(|w| format!("{w:X}")).collect();
        format!(
            "run {} area {} {} rows {rows}",
            fields.join(" "),
            self.area.len(),
            area.join(" ")
        )
    }
}

impl Case for Call {
    fn changes(&self) -> usize {
        self.kinds().iter().sum()
    }

    fn changed(&self, mut change: usize) -> Option<Call> {
        let mut kind = 0;
        for count in self.kinds() {
            if change < count {
                break;
            }
            change -= count;
            kind += 1;
        }
        match kind {
            0 => self.with_rows(change),
            1 => self.with_block(change),
            2 => self.with_count(change),
            3 => self.with_scalar(change),
            4 => self.with_case(change),
            _ => self.with_mark(change),
        }
    }
}

/// The smallest call found that is wrong, and how.
pub fn least(call: Call, fault: Fault) -> String {
    let least = smallest(call, |call| call.fault().is_some());
    let fault = least.fault().unwrap_or(fault);
    format!("hostile call: {}\n{fault}\n", least.line())
}
