//! What the archive librun_c.a holds: the pieces of a run.

use crate::archive::{Scalar, ScalarResult};

/// `number` 0 and whether it holds, or a refusal's number.
#[repr(C)]
#[derive(Clone, Copy)]
pub struct Decision {
    pub number: u64,
    pub holds: bool,
}

/// `number` 0 and whether a step was found, with its number of independent rows, or a refusal's number.
#[repr(C)]
#[derive(Clone, Copy)]
pub struct Stepped {
    pub number: u64,
    pub found: bool,
    pub independent: usize,
}

/// `number` 0 and how a step fares, or a refusal's number.
#[repr(C)]
#[derive(Clone, Copy)]
pub struct JudgedStep {
    pub number: u64,
    pub length: Scalar,
    pub lower: bool,
    pub undecided: bool,
    pub contracting: bool,
}

// Each is total, given that a pointer and its count are those of a slice.
unsafe extern "C" {
    pub fn run_squared(
        n: usize,
        m: usize,
        s: usize,
        rows: *const f64,
        rows_len: usize,
        delta: *const f64,
        delta_len: usize,
        d: usize,
    ) -> ScalarResult;
    pub fn run_predicted(
        n: usize,
        m: usize,
        s: usize,
        rows: *const f64,
        rows_len: usize,
        delta: *const f64,
        delta_len: usize,
    ) -> ScalarResult;
    pub fn run_transposed(
        n: usize,
        m: usize,
        s: usize,
        rows: *const f64,
        rows_len: usize,
        w: *const f64,
        w_len: usize,
        out: *mut f64,
        out_len: usize,
    ) -> u64;
    pub fn run_moving(
        n: usize,
        m: usize,
        s: usize,
        rows: *const f64,
        rows_len: usize,
        marks: *mut bool,
        marks_len: usize,
    ) -> u64;
    pub fn run_judge(
        n: usize,
        m: usize,
        s: usize,
        rows: *const f64,
        rows_len: usize,
        next_m: usize,
        next: *const f64,
        next_len: usize,
        theta: Scalar,
        filter: *const f64,
        filter_len: usize,
        count: usize,
        taken: bool,
        last: Scalar,
        step: *const f64,
        step_len: usize,
    ) -> JudgedStep;
    pub fn run_expects(
        n: usize,
        m: usize,
        s: usize,
        rows: *const f64,
        rows_len: usize,
        b: *const f64,
        b_len: usize,
        f: Scalar,
        theta: Scalar,
        delta: *const f64,
        delta_len: usize,
    ) -> Decision;
    pub fn run_along(
        n: usize,
        m: usize,
        s: usize,
        rows: *const f64,
        rows_len: usize,
        v: *const f64,
        v_len: usize,
        out: *mut f64,
        out_len: usize,
    ) -> u64;
    pub fn run_shift(
        n: usize,
        m: usize,
        s: usize,
        rows: *const f64,
        rows_len: usize,
        moving: *const bool,
        moving_len: usize,
        d: *mut f64,
        d_len: usize,
    ) -> u64;
    pub fn run_cut(n: usize, radius: Scalar, delta: *mut f64, delta_len: usize) -> u64;
    pub fn run_update_curvature(
        n: usize,
        m: usize,
        s: usize,
        b: *mut f64,
        b_len: usize,
        step: *const f64,
        step_len: usize,
        rows: *const f64,
        rows_len: usize,
        next_m: usize,
        next: *const f64,
        next_len: usize,
        lambda: *const f64,
        lambda_len: usize,
    ) -> u64;
    pub fn run_step(
        n: usize,
        m: usize,
        s: usize,
        rows: *const f64,
        rows_len: usize,
        b: *const f64,
        b_len: usize,
        moving: *const bool,
        moving_len: usize,
        mu: Scalar,
        delta: *mut f64,
        delta_len: usize,
        lambda: *mut f64,
        lambda_len: usize,
    ) -> Stepped;
    pub fn run_learned(n: usize, b: *const f64, b_len: usize) -> Decision;
}
