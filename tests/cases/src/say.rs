//! Short ways to say what a call has to answer.

use std::fmt::Debug;

pub const SHEET: &str = "plan,B,L,1,S,N,5000,T,1,2,W,P0,G,N,100,O,0,0,S,U,O,0,0,N,100,T,2,1,Z
days,2
span,0,2
factors,1000000,990000,980000
pair,1,2
index,0,200,90,100,130
";

pub const SHEET_PLAN: &str = "B,L,1,S,N,5000,T,1,2,W,P0,G,N,100,O,0,0,S,U,O,0,0,N,100,T,2,1,Z";

/// A table that owns its numbers.
#[derive(Clone, Debug)]
pub struct Numbers {
    pub h: i64,
    pub f: i64,
    pub factors: Vec<i64>,
    pub bounds: Vec<i64>,
    pub values: Vec<i64>,
}

impl Numbers {
    pub fn table(&self) -> engine::Table<'_> {
        engine::Table {
            h: self.h,
            f: self.f,
            factors: &self.factors,
            bounds: &self.bounds,
            values: &self.values,
        }
    }
}

/// Months -h to f, factor 1 everywhere, no label.
pub fn bare(h: i64, f: i64) -> Numbers {
    Numbers {
        h,
        f,
        factors: vec![1_000_000; f as usize + 1],
        bounds: vec![],
        values: vec![],
    }
}

/// The same with label 0, bound 1000, and these values (7 everywhere where none are given).
pub fn indexed(h: i64, f: i64, values: &[i64]) -> Numbers {
    let mut numbers = bare(h, f);
    numbers.bounds = vec![1000];
    numbers.values = match values {
        [] => vec![7; (h + f + 1) as usize],
        values => values.to_vec(),
    };
    numbers
}

/// The table of document 01's sheet.
pub fn sheet_table() -> Numbers {
    Numbers {
        h: 0,
        f: 2,
        factors: vec![1_000_000, 990_000, 980_000],
        bounds: vec![200],
        values: vec![90, 100, 130],
    }
}

pub fn same<T: PartialEq + Debug>(found: T, wanted: T) -> Result<(), String> {
    if found == wanted {
        Ok(())
    } else {
        Err(format!("{found:?} instead of {wanted:?}"))
    }
}

/// The same about the input named.
pub fn same_for<T: PartialEq + Debug>(input: &str, found: T, wanted: T) -> Result<(), String> {
    same(found, wanted).map_err(|words| format!("{words} for {input}"))
}

pub fn check(plan: &str, days: &[i64], numbers: &Numbers, today: i64) -> Result<(i64, i64), i32> {
    engine::check(plan.as_bytes(), days, &numbers.table(), today)
}

/// What the plan pays (1, 2) in a month.
pub fn payment(
    plan: &str,
    days: &[i64],
    numbers: &Numbers,
    today: i64,
    month: i64,
) -> Result<i64, i32> {
    engine::payment(plan.as_bytes(), days, &numbers.table(), today, 1, 2, month)
}

/// What the plan pays (1, 2) today, and the plan for tomorrow.
pub fn step(plan: &str, days: &[i64], numbers: &Numbers, today: i64) -> Result<(i64, String), i32> {
    let (pence, bytes) = engine::step(plan.as_bytes(), days, &numbers.table(), today, 1, 2)?;
    Ok((pence, text(bytes)))
}

pub fn compile(plan: &str) -> Result<String, i32> {
    engine::compile(plan.as_bytes()).map(text)
}

pub fn cut(payoff: &str) -> Result<String, i32> {
    engine::cut(payoff.as_bytes()).map(text)
}

/// The value for (1, 2).
pub fn evaluate(payoff: &str, days: &[i64], numbers: &Numbers, now: i64) -> Result<i64, i32> {
    engine::evaluate(payoff.as_bytes(), days, &numbers.table(), now, 1, 2)
}

pub fn sheet(input: &str) -> Result<String, i32> {
    engine::sheet(input.as_bytes()).map(text)
}

fn text(bytes: Vec<u8>) -> String {
    String::from_utf8_lossy(&bytes).into_owned()
}
