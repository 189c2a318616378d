//! Settles a small drawing: a hinge at (3, 4) goes to where a strut of 10 from the origin reaches it, as near to where
//! it was as can be.

use yadzvego::geop_error::GeopResult;
use yadzvego::minimize;
use yadzvego::scalars::Scalar;
use yadzvego::solvers::least_squares::{Evaluation, Options, Stop};

fn whole(v: i64) -> Scalar {
    Scalar::from_i64(v)
}

/// The constraint x x + y y - 100 with its slopes, then the sum rows x - 3 and y - 4 with theirs.
fn rows(at: &[Scalar]) -> Evaluation {
    let (x, y) = (at[0], at[1]);
    let mut e = Evaluation::default();
    let value = x.mul(x).add(y.mul(y)).sub(whole(100));
    let slopes = vec![Scalar::TWO.mul(x), Scalar::TWO.mul(y)];
    e.constraints.push(value, slopes);
    e.sum.push(x.sub(whole(3)), vec![Scalar::ONE, Scalar::ZERO]);
    e.sum.push(y.sub(whole(4)), vec![Scalar::ZERO, Scalar::ONE]);
    e
}

fn name(stop: Stop) -> &'static str {
    match stop {
        Stop::Infeasible => "infeasible",
        Stop::NoChange { .. } => "nochange",
        Stop::Undecided => "undecided",
        Stop::Flat { .. } => "flat",
        Stop::Damped { .. } => "damped",
        Stop::Budget => "budget",
    }
}

fn main() -> GeopResult<()> {
    let options = Options {
        max_iterations: 50,
        max_step: whole(5),
    };
    let settled = minimize(|at| Some(rows(at)), vec![whole(3), whole(4)], options)?;
    println!("stop={}", name(settled.stop));
    println!("iterations={}", settled.iterations);
    println!("turned={}", settled.turned_down);
    let (x, y) = (settled.x[0].to_f64(), settled.x[1].to_f64());
    println!("at={x:.16},{y:.16}");
    Ok(())
}
