//! A drawer with a stop: its front at x is pulled along the runner towards 500, and a buffer of 600 before a wall at
//! 1000 stops it at 400. The buffer is a constraint only where front and buffer meet, with less than 1 between them, so
//! each reply has an m of its own.

use yadzvego::scalars::Scalar;
use yadzvego::solvers::least_squares::Stop;
use yadzvego::{AREA, Event, Kind, begin, point, reply};

fn whole(v: i64) -> Scalar {
    Scalar::from_i64(v)
}

/// Where they meet, the constraint room room - 600 600 with its slope, for the room 1000 - x before the wall; then the
/// sum row x - 500 with its slope. Beside them, how many constraints there are.
fn rows(x: Scalar) -> (usize, Vec<f64>) {
    let room = whole(1000).sub(x);
    let mut rows = Vec::new();
    if room.definitely_less(whole(601)) {
        rows.push(room.mul(room).sub(whole(600 * 600)));
        rows.push(whole(-2).mul(room));
    }
    let m = rows.len() / 2;
    rows.extend([x.sub(whole(500)), Scalar::ONE]);
    (m, rows.iter().flat_map(|v| [v.lo, v.hi]).collect())
}

fn name(kind: Kind) -> &'static str {
    match kind {
        Kind::Start => "start",
        Kind::Trial => "trial",
        Kind::Correction => "correction",
    }
}

fn main() {
    let mut area = vec![0.0; AREA];
    let mut now = begin(1, 1, 50, &[0.0, 0.0], whole(150), &mut area);
    while let Event::Question { kind, .. } = now.event {
        let x = Scalar::new(point(now.run, &area)[0], point(now.run, &area)[1]);
        let (m, rows) = rows(x);
        println!("{} at={:.4} m={m}", name(kind), x.lo);
        now = reply(now.run, &mut area, m, &rows);
    }
    let x = point(now.run, &area)[0];
    match now.event {
        Event::Finish {
            stop:
                Stop::Flat {
                    independent,
                    constraints,
                },
            iterations,
            turned_down,
            ..
        } => {
            println!("stop=flat\nindependent={independent}\nconstraints={constraints}");
            println!("iterations={iterations}\nturned={turned_down}\nat={x:.16}");
        }
        event => println!("{event:?}"),
    }
}
