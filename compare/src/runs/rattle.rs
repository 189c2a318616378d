//! A run of the Rattle: the run and the area that a caller keeps between calls, and the calls over them.

use crate::archive::{
    self, EventNumbers, ReturnedNumbers, Run, yadzvego_begin, yadzvego_point_length,
    yadzvego_point_place, yadzvego_reply, yadzvego_reply_none,
};
use crate::runs::answers::{Answer, Finish, Moment, Question};
use crate::runs::problem::{Rows, Sizes};
use crate::words::words;
use geop_core_math::scalars::Scalar;

/// How many numbers an area has.
pub const AREA: usize = 8000;

pub fn begin(
    sizes: Sizes,
    start: &[f64],
    max_step: Scalar,
    area: &mut [f64],
) -> (Run, EventNumbers) {
    let Sizes { n, s, limit } = sizes;
    let max_step = archive::Scalar {
        lo: max_step.lo,
        hi: max_step.hi,
    };
    let (at, count) = (area.as_mut_ptr(), area.len());
    // Safety: each pointer and its count are those of a slice.
    let ReturnedNumbers { run, event } = unsafe {
        yadzvego_begin(
            n,
            s,
            limit,
            start.as_ptr(),
            start.len(),
            max_step,
            at,
            count,
        )
    };
    (run, event)
}

/// With rows, or with none.
pub fn reply(run: Run, area: &mut [f64], rows: Option<&Rows>) -> (Run, EventNumbers) {
    let (at, count) = (area.as_mut_ptr(), area.len());
    // Safety: each pointer and its count are those of a slice.
    let ReturnedNumbers { run, event } = unsafe {
        match rows {
            Some(Rows { m, numbers }) => {
                yadzvego_reply(run, at, count, *m, numbers.as_ptr(), numbers.len())
            }
            None => yadzvego_reply_none(run, at, count),
        }
    };
    (run, event)
}

/// The point that the run hands out: the asked one, or the standing one.
pub fn point(run: Run, area: &[f64]) -> &[f64] {
    let place = yadzvego_point_place(run, area.len());
    &area[place..place + yadzvego_point_length(run, area.len())]
}

/// The protocol's words for an event, given the run and the area after the call.
pub fn answer(run: Run, area: &[f64], told: EventNumbers) -> Answer {
    let point = || words(point(run, area));
    match told.which {
        0 => Answer::Question(Question {
            number: told.number,
            kind: told.kind,
            standing: told.standing,
            point: point(),
        }),
        1 => Answer::Finish(Finish {
            stop: told.stop,
            rejected: told.rejected,
            independent: told.independent,
            constraints: told.constraints,
            iterations: told.iterations,
            turned_down: told.turned_down,
            standing: told.standing,
            point: point(),
        }),
        _ if told.number == 5 || told.number == 6 => Answer::Error(
            told.number as u64,
            Moment {
                iterations: run.iterations,
                turned_down: run.turned_down,
                standing: run.standing,
                point: point(),
            },
        ),
        _ => Answer::Refused(told.number as u64),
    }
}

/// The bits of a run, those of a NaN too: a reply that is refused by 1 to 4 returns the run that was handed in.
pub fn run_bits(run: &Run) -> Vec<u64> {
    let counts = [
        run.n,
        run.s,
        run.limit,
        run.iterations,
        run.question,
        run.standing,
        run.landed,
        run.corrections,
        run.standing_m,
        run.landed_m,
        run.turned_down,
    ];
    let scalars = [
        run.mu,
        run.radius,
        run.predicted,
        run.tried,
        run.max_step,
        run.last_length,
    ];
    let mut all: Vec<u64> = counts.iter().map(|&count| count as u64).collect();
    all.extend(
        scalars
            .iter()
            .flat_map(|x| [x.lo.to_bits(), x.hi.to_bits()]),
    );
    all.extend([run.phase, run.rejected, run.last].map(u64::from));
    all.extend([run.first, run.plain].map(u64::from));
    all.extend(run.moving.map(u64::from));
    all
}

/// The bits of an area: a call that is refused changes not one.
pub fn bits(area: &[f64]) -> Vec<u64> {
    area.iter().map(|x| x.to_bits()).collect()
}
