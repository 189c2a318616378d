//! Whole sheets, text in and text out: the frames of the whole runs, by the same seed. Reading, rows, the run and the
//! print are all in the time, on both sides.

use super::settled::{FRAMES, LIMIT, VARIABLES, frame};
use super::{Task, Timed, mixed, timed};
use crate::interval::operands::Random;
use crate::sheets::call::Lent;
use crate::sheets::reader::Sheet;
use crate::sheets::settled::printed;
use crate::sheets::spelled::{lines, plain, text};

pub struct Sheets(Vec<Vec<u8>>);

/// Of what is printed, without the zeros behind it.
fn words(printed: &[u8]) -> u64 {
    let bytes = printed.iter().take_while(|&&byte| byte != 0);
    bytes.fold(0, |sum, &byte| mixed(sum, u64::from(byte)))
}

impl Sheets {
    pub fn drawn() -> Sheets {
        let mut random = Random::new(3);
        let sheet = |_| {
            let frame = frame(&mut random, &|variables| variables >= VARIABLES);
            let sheet = Sheet {
                limit: LIMIT,
                ..random.frame_sheet(&frame)
            };
            text(&lines(&sheet, plain))
        };
        Sheets((0..FRAMES).map(sheet).collect())
    }

    pub fn task(&self) -> Task<'_> {
        let parts = self.0.iter().map(|text| {
            let mut lent = Lent::new();
            let sides: [Timed; 2] = [
                timed(|| words(printed(text).as_bytes())),
                timed(move || words(lent.settle(text))),
            ];
            sides
        });
        Task {
            name: "a sheet, text in and text out".to_string(),
            times: FRAMES,
            goal: Some(0.7),
            parts: parts.collect(),
        }
    }
}
