//! One reply over any run and any area: what it must be answered, and what is wrong with what it is.

use crate::archive::{EventNumbers, Run, yadzvego_point_length, yadzvego_point_place};
use crate::hostile::rule;
use crate::runs::area::is_canonical;
use crate::runs::problem::Rows;
use crate::runs::rattle::{self, run_bits};

/// What is wrong.
pub type Fault = String;

#[derive(Clone)]
pub struct Call {
    pub run: Run,
    pub area: Vec<f64>,
    pub rows: Option<Rows>,
}

pub fn same_bits(a: &[f64], b: &[f64]) -> bool {
    let same = |(x, y): (&f64, &f64)| x.to_bits() == y.to_bits();
    a.len() == b.len() && a.iter().zip(b).all(same)
}

fn fault(
    run: &Run,
    area: &[f64],
    expected: Option<u64>,
    left: &Run,
    after: &[f64],
    told: &EventNumbers,
) -> Option<Fault> {
    let place = yadzvego_point_place(*run, area.len());
    let point = (place, yadzvego_point_length(*run, area.len()));
    let refused = (told.which == 2).then_some(told.number as u64);
    if point != rule::point(run, area.len()) {
        return Some(format!("the point is at {point:?}"));
    }
    match expected {
        Some(number) if refused != Some(number) => {
            Some(format!("{told:?} where {number} refuses it"))
        }
        Some(number) if run_bits(left) != run_bits(run) => {
            Some(format!("refused by {number}, and the run is altered"))
        }
        Some(number) if !same_bits(after, area) => {
            Some(format!("refused by {number}, and the area is altered"))
        }
        Some(_) => None,
        None if refused.is_some_and(|number| number != 5 && number != 6) => {
            Some(format!("{told:?} where it is accepted"))
        }
        None => (!is_canonical(left, after)).then(|| "the area is not canonical".to_string()),
    }
}

/// What the call is answered, and what is wrong with that.
pub fn made(run: &Run, area: &[f64], rows: Option<&Rows>) -> (EventNumbers, Option<Fault>) {
    let mut after = area.to_vec();
    let (left, told) = rattle::reply(*run, &mut after, rows);
    let expected = rule::refusal(run, area.len(), rows);
    (told, fault(run, area, expected, &left, &after, &told))
}

impl Call {
    pub fn new(run: &Run, area: &[f64], rows: Option<&Rows>) -> Call {
        Call {
            run: *run,
            area: area.to_vec(),
            rows: rows.cloned(),
        }
    }

    pub fn fault(&self) -> Option<Fault> {
        made(&self.run, &self.area, self.rows.as_ref()).1
    }
}
