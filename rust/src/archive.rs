//! What include/yadzvego.h declares. The comparison with geop (compare/) reads this file too.

/// An interval `[lo, hi]` of `f64`.
#[repr(C)]
#[derive(Copy, Clone, Debug, Default, PartialEq)]
pub struct Scalar {
    /// The lower end.
    pub lo: f64,
    /// The upper end.
    pub hi: f64,
}

/// `number` 0 and a value, or a refusal's number.
#[repr(C)]
#[derive(Clone, Copy)]
pub struct ScalarResult {
    /// 0, or the number of the refusal.
    pub number: u64,
    /// The value, zero where it is refused.
    pub value: Scalar,
}

/// A run between two calls. A caller hands it on as it is; one that no call leaves is refused.
#[repr(C)]
#[derive(Clone, Copy, Debug, PartialEq)]
pub struct Run {
    /// Variables.
    pub n: usize,
    /// Sum rows.
    pub s: usize,
    /// The most iterations.
    pub limit: usize,
    /// Changes of standing so far.
    pub iterations: usize,
    /// The number of the last question.
    pub question: usize,
    /// The number of the question whose point stands.
    pub standing: usize,
    /// The number of the question whose point landed.
    pub landed: usize,
    /// Corrections of the open trial so far.
    pub corrections: usize,
    /// The m of the answer for the standing point while a trial or a correction is open, else 0.
    pub standing_m: usize,
    /// The m of the answer for the landed point while a correction is open, else 0.
    pub landed_m: usize,
    /// Turn-downs so far.
    pub turned_down: usize,
    /// The damping.
    pub mu: Scalar,
    /// The longest step that is tried now.
    pub radius: Scalar,
    /// Of an open trial, the violation predicted.
    pub predicted: Scalar,
    /// Of an open trial, its length as tried.
    pub tried: Scalar,
    /// The longest step, as the begin gave it.
    pub max_step: Scalar,
    /// The length of the last step taken.
    pub last_length: Scalar,
    /// 0, 1, 2: a start, trial or correction is open; 3: over.
    pub phase: u8,
    /// Why the last proposal was rejected, 0 for none yet.
    pub rejected: u8,
    /// 1 where a step was taken, else 0.
    pub last: u8,
    /// Whether the proposal is the first of its iteration.
    pub first: bool,
    /// Whether it is made without the curvature learned.
    pub plain: bool,
    /// Which variables move.
    pub moving: [bool; 12],
}

/// The event that a call returns: `which` is 0 for a question, 1 for the finish and 2 for a refusal.
#[repr(C)]
#[derive(Clone, Copy, Debug)]
pub struct EventNumbers {
    pub which: u8,
    pub kind: u8,
    pub stop: u8,
    pub rejected: u8,
    pub number: usize,
    pub standing: usize,
    pub independent: usize,
    pub constraints: usize,
    pub iterations: usize,
    pub turned_down: usize,
}

/// What a call returns.
#[repr(C)]
#[derive(Clone, Copy, Debug)]
pub struct ReturnedNumbers {
    pub run: Run,
    pub event: EventNumbers,
}

/// `number` 0 and how many bytes were written, or a refusal's number and 0.
#[repr(C)]
#[derive(Clone, Copy, Debug)]
pub struct SpellResult {
    pub number: usize,
    pub length: usize,
}

// No function asks anything of its caller but that a pointer and its count are those of a slice: a `safe` one takes
// none.
unsafe extern "C" {
    pub safe fn yadzvego_interval_zero() -> Scalar;
    pub safe fn yadzvego_interval_one() -> Scalar;
    pub safe fn yadzvego_interval_two() -> Scalar;
    pub safe fn yadzvego_interval_next_up(x: f64) -> f64;
    pub safe fn yadzvego_interval_next_down(x: f64) -> f64;
    pub safe fn yadzvego_interval_degenerate(v: f64) -> Scalar;
    pub safe fn yadzvego_interval_from_i64(v: i64) -> Scalar;
    pub safe fn yadzvego_interval_from_ratio(num: i64, den: i64) -> ScalarResult;
    pub safe fn yadzvego_interval_add(x: Scalar, y: Scalar) -> Scalar;
    pub safe fn yadzvego_interval_sub(x: Scalar, y: Scalar) -> Scalar;
    pub safe fn yadzvego_interval_mul(x: Scalar, y: Scalar) -> Scalar;
    pub safe fn yadzvego_interval_neg(x: Scalar) -> Scalar;
    pub safe fn yadzvego_interval_div(x: Scalar, y: Scalar) -> ScalarResult;
    pub safe fn yadzvego_interval_abs(x: Scalar) -> Scalar;
    pub safe fn yadzvego_interval_sqrt(x: Scalar) -> ScalarResult;
    pub safe fn yadzvego_interval_could_be_equal(x: Scalar, y: Scalar) -> bool;
    pub safe fn yadzvego_interval_definitely_not_equal(x: Scalar, y: Scalar) -> bool;
    pub safe fn yadzvego_interval_could_be_greater(x: Scalar, y: Scalar) -> bool;
    pub safe fn yadzvego_interval_definitely_greater(x: Scalar, y: Scalar) -> bool;
    pub safe fn yadzvego_interval_could_be_less(x: Scalar, y: Scalar) -> bool;
    pub safe fn yadzvego_interval_definitely_less(x: Scalar, y: Scalar) -> bool;
    pub safe fn yadzvego_interval_is_zero(x: Scalar) -> bool;
    pub safe fn yadzvego_interval_is_finite(x: Scalar) -> bool;
    pub safe fn yadzvego_interval_midpoint(x: Scalar) -> Scalar;
    pub safe fn yadzvego_interval_is_sharp(x: Scalar) -> bool;
    pub safe fn yadzvego_interval_lower(x: Scalar) -> Scalar;
    pub safe fn yadzvego_interval_upper(x: Scalar) -> Scalar;
    pub safe fn yadzvego_interval_sharpen(x: Scalar) -> Scalar;
    pub safe fn yadzvego_interval_max(x: Scalar, y: Scalar) -> Scalar;

    pub fn yadzvego_linear_dot(
        n: usize,
        a: *const f64,
        a_len: usize,
        b: *const f64,
        b_len: usize,
    ) -> ScalarResult;
    pub fn yadzvego_linear_norm(n: usize, v: *const f64, v_len: usize) -> ScalarResult;
    pub safe fn yadzvego_linear_choose(v: Scalar) -> Scalar;
    pub fn yadzvego_linear_sharp(
        n: usize,
        v: *const f64,
        v_len: usize,
        out: *mut f64,
        out_len: usize,
    ) -> u64;
    pub fn yadzvego_linear_cholesky(
        n: usize,
        a: *const f64,
        a_len: usize,
        l: *mut f64,
        l_len: usize,
        left_out: *mut bool,
        left_out_len: usize,
    ) -> u64;
    pub fn yadzvego_linear_solve_cholesky(
        n: usize,
        l: *const f64,
        l_len: usize,
        left_out: *const bool,
        left_out_len: usize,
        b: *const f64,
        b_len: usize,
        x: *mut f64,
        x_len: usize,
    ) -> u64;
    pub fn yadzvego_linear_least_squares(
        m: usize,
        r: usize,
        rows: *const f64,
        rows_len: usize,
        rhs: *const f64,
        rhs_len: usize,
        y: *mut f64,
        y_len: usize,
    ) -> u64;
    pub fn yadzvego_linear_minus_solved(
        m: usize,
        n: usize,
        jc: *const f64,
        jc_len: usize,
        rhs: *const f64,
        rhs_len: usize,
        from: *const f64,
        from_len: usize,
        out: *mut f64,
        out_len: usize,
    ) -> u64;

    pub fn yadzvego_begin(
        n: usize,
        s: usize,
        limit: usize,
        start: *const f64,
        start_len: usize,
        max_step: Scalar,
        area: *mut f64,
        area_len: usize,
    ) -> ReturnedNumbers;
    pub fn yadzvego_reply(
        run: Run,
        area: *mut f64,
        area_len: usize,
        m: usize,
        rows: *const f64,
        rows_len: usize,
    ) -> ReturnedNumbers;
    pub fn yadzvego_reply_none(run: Run, area: *mut f64, area_len: usize) -> ReturnedNumbers;
    pub safe fn yadzvego_point_place(run: Run, area_len: usize) -> usize;
    pub safe fn yadzvego_point_length(run: Run, area_len: usize) -> usize;

    pub fn yadzvego_settle_text(
        text: *const u8,
        text_len: usize,
        area: *mut f64,
        area_len: usize,
        slot: *mut u8,
        slot_len: usize,
    ) -> usize;
    pub fn yadzvego_spell_text(
        text: *const u8,
        text_len: usize,
        out: *mut u8,
        out_len: usize,
    ) -> SpellResult;
}
