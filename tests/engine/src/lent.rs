//! The C interface with the caller's own buffers. Returned is 0 or the refusal's number. An empty
//! slice is passed with its (dangling, never null) pointer and length 0.

use crate::Table;

extern "C" {
    fn codhungu_check(
        plan: *const u8,
        plan_len: usize,
        days: *const i64,
        days_len: usize,
        h: i64,
        f: i64,
        factors: *const i64,
        factors_len: usize,
        bounds: *const i64,
        bounds_len: usize,
        values: *const i64,
        values_len: usize,
        today: i64,
        answer: *mut i64,
        answer_len: usize,
    ) -> i32;

    fn codhungu_payment(
        plan: *const u8,
        plan_len: usize,
        days: *const i64,
        days_len: usize,
        h: i64,
        f: i64,
        factors: *const i64,
        factors_len: usize,
        bounds: *const i64,
        bounds_len: usize,
        values: *const i64,
        values_len: usize,
        today: i64,
        p: i64,
        q: i64,
        month: i64,
        answer: *mut i64,
        answer_len: usize,
    ) -> i32;

    fn codhungu_step(
        plan: *const u8,
        plan_len: usize,
        days: *const i64,
        days_len: usize,
        h: i64,
        f: i64,
        factors: *const i64,
        factors_len: usize,
        bounds: *const i64,
        bounds_len: usize,
        values: *const i64,
        values_len: usize,
        today: i64,
        p: i64,
        q: i64,
        out: *mut u8,
        out_len: usize,
        answer: *mut i64,
        answer_len: usize,
    ) -> i32;

    fn codhungu_compile(
        plan: *const u8,
        plan_len: usize,
        out: *mut u8,
        out_len: usize,
        answer: *mut i64,
        answer_len: usize,
    ) -> i32;

    fn codhungu_cut(
        payoff: *const u8,
        payoff_len: usize,
        out: *mut u8,
        out_len: usize,
        answer: *mut i64,
        answer_len: usize,
    ) -> i32;

    fn codhungu_evaluate(
        payoff: *const u8,
        payoff_len: usize,
        days: *const i64,
        days_len: usize,
        h: i64,
        f: i64,
        factors: *const i64,
        factors_len: usize,
        bounds: *const i64,
        bounds_len: usize,
        values: *const i64,
        values_len: usize,
        now: i64,
        p: i64,
        q: i64,
        answer: *mut i64,
        answer_len: usize,
    ) -> i32;

    fn codhungu_sheet(
        input: *const u8,
        input_len: usize,
        out: *mut u8,
        out_len: usize,
        answer: *mut i64,
        answer_len: usize,
    ) -> i32;
}

// SAFETY, for every call below: each pointer comes from a slice that lives through the call and is
// passed with that slice's length; `out` and `answer` are lent exclusively.

/// Answer: length, magnitude.
pub fn check(plan: &[u8], days: &[i64], table: &Table, today: i64, answer: &mut [i64]) -> i32 {
    unsafe {
        codhungu_check(
            plan.as_ptr(),
            plan.len(),
            days.as_ptr(),
            days.len(),
            table.h,
            table.f,
            table.factors.as_ptr(),
            table.factors.len(),
            table.bounds.as_ptr(),
            table.bounds.len(),
            table.values.as_ptr(),
            table.values.len(),
            today,
            answer.as_mut_ptr(),
            answer.len(),
        )
    }
}

/// Answer: pence.
#[allow(clippy::too_many_arguments)]
pub fn payment(
    plan: &[u8],
    days: &[i64],
    table: &Table,
    today: i64,
    p: i64,
    q: i64,
    month: i64,
    answer: &mut [i64],
) -> i32 {
    unsafe {
        codhungu_payment(
            plan.as_ptr(),
            plan.len(),
            days.as_ptr(),
            days.len(),
            table.h,
            table.f,
            table.factors.as_ptr(),
            table.factors.len(),
            table.bounds.as_ptr(),
            table.bounds.len(),
            table.values.as_ptr(),
            table.values.len(),
            today,
            p,
            q,
            month,
            answer.as_mut_ptr(),
            answer.len(),
        )
    }
}

/// Answer: pence, bytes.
#[allow(clippy::too_many_arguments)]
pub fn step(
    plan: &[u8],
    days: &[i64],
    table: &Table,
    today: i64,
    p: i64,
    q: i64,
    out: &mut [u8],
    answer: &mut [i64],
) -> i32 {
    unsafe {
        codhungu_step(
            plan.as_ptr(),
            plan.len(),
            days.as_ptr(),
            days.len(),
            table.h,
            table.f,
            table.factors.as_ptr(),
            table.factors.len(),
            table.bounds.as_ptr(),
            table.bounds.len(),
            table.values.as_ptr(),
            table.values.len(),
            today,
            p,
            q,
            out.as_mut_ptr(),
            out.len(),
            answer.as_mut_ptr(),
            answer.len(),
        )
    }
}

/// Answer: bytes.
pub fn compile(plan: &[u8], out: &mut [u8], answer: &mut [i64]) -> i32 {
    unsafe {
        codhungu_compile(
            plan.as_ptr(),
            plan.len(),
            out.as_mut_ptr(),
            out.len(),
            answer.as_mut_ptr(),
            answer.len(),
        )
    }
}

/// Answer: bytes.
pub fn cut(payoff: &[u8], out: &mut [u8], answer: &mut [i64]) -> i32 {
    unsafe {
        codhungu_cut(
            payoff.as_ptr(),
            payoff.len(),
            out.as_mut_ptr(),
            out.len(),
            answer.as_mut_ptr(),
            answer.len(),
        )
    }
}

/// Answer: millionths of a penny.
pub fn evaluate(
    payoff: &[u8],
    days: &[i64],
    table: &Table,
    now: i64,
    p: i64,
    q: i64,
    answer: &mut [i64],
) -> i32 {
    unsafe {
        codhungu_evaluate(
            payoff.as_ptr(),
            payoff.len(),
            days.as_ptr(),
            days.len(),
            table.h,
            table.f,
            table.factors.as_ptr(),
            table.factors.len(),
            table.bounds.as_ptr(),
            table.bounds.len(),
            table.values.as_ptr(),
            table.values.len(),
            now,
            p,
            q,
            answer.as_mut_ptr(),
            answer.len(),
        )
    }
}

/// Answer: bytes.
pub fn sheet(input: &[u8], out: &mut [u8], answer: &mut [i64]) -> i32 {
    unsafe {
        codhungu_sheet(
            input.as_ptr(),
            input.len(),
            out.as_mut_ptr(),
            out.len(),
            answer.as_mut_ptr(),
            answer.len(),
        )
    }
}
