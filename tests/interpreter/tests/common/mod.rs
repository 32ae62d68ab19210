//! Short ways to make calls with room enough.
#![allow(dead_code)]

use interpreter::calls::{self, Answer, Given, Room};
use interpreter::{Refusal, Table};

pub const ROOM: Room = Room {
    out: 60_000,
    answer: 4,
};

pub const SHEET: &str = "plan,B,L,1,S,N,5000,T,1,2,W,P0,G,N,100,O,0,0,S,U,O,0,0,N,100,T,2,1,Z
days,2
span,0,2
factors,1000000,990000,980000
pair,1,2
index,0,200,90,100,130
";

pub const SHEET_PLAN: &str = "B,L,1,S,N,5000,T,1,2,W,P0,G,N,100,O,0,0,S,U,O,0,0,N,100,T,2,1,Z";

/// A table of months -h to f with factor 1 everywhere and no label.
pub fn bare(h: i64, f: i64) -> Table {
    Table {
        h,
        f,
        factors: vec![1_000_000; f as usize + 1],
        bounds: vec![],
        values: vec![],
    }
}

/// The same with label 0, bound 1000 and these values (or 7 everywhere).
pub fn indexed(h: i64, f: i64, values: &[i64]) -> Table {
    let mut table = bare(h, f);
    table.bounds = vec![1000];
    table.values = match values {
        [] => vec![7; table.months()],
        values => values.to_vec(),
    };
    assert_eq!(table.values.len(), table.months());
    table
}

pub fn sheet_table() -> Table {
    Table {
        h: 0,
        f: 2,
        factors: vec![1_000_000, 990_000, 980_000],
        bounds: vec![200],
        values: vec![90, 100, 130],
    }
}

fn given<'a>(text: &'a str, days: &'a [i64], table: &'a Table, today: i64) -> Given<'a> {
    Given {
        text: text.as_bytes(),
        days,
        table,
        today,
    }
}

fn number(result: Result<Answer, Refusal>) -> Result<i64, u8> {
    result
        .map(|answer| answer.numbers[0])
        .map_err(Refusal::number)
}

fn text(result: Result<Answer, Refusal>) -> Result<String, u8> {
    result
        .map(|answer| String::from_utf8(answer.bytes).unwrap())
        .map_err(Refusal::number)
}

/// Length and magnitude.
pub fn check(plan: &str, days: &[i64], table: &Table, today: i64) -> Result<(i64, i64), u8> {
    calls::check(given(plan, days, table, today), ROOM)
        .map(|answer| (answer.numbers[0], answer.numbers[1]))
        .map_err(Refusal::number)
}

pub fn payment(
    plan: &str,
    days: &[i64],
    table: &Table,
    today: i64,
    pair: (i64, i64),
    month: i64,
) -> Result<i64, u8> {
    number(calls::payment(
        given(plan, days, table, today),
        pair,
        month,
        ROOM,
    ))
}

/// Pence for (1, 2) and the plan for tomorrow.
pub fn step(plan: &str, days: &[i64], table: &Table, today: i64) -> Result<(i64, String), u8> {
    calls::step(given(plan, days, table, today), (1, 2), ROOM)
        .map(|answer| (answer.numbers[0], String::from_utf8(answer.bytes).unwrap()))
        .map_err(Refusal::number)
}

pub fn compile(plan: &str) -> Result<String, u8> {
    text(calls::compile(plan.as_bytes(), ROOM))
}

pub fn cut(payoff: &str) -> Result<String, u8> {
    text(calls::cut(payoff.as_bytes(), ROOM))
}

/// The value for (1, 2).
pub fn evaluate(payoff: &str, days: &[i64], table: &Table, now: i64) -> Result<i64, u8> {
    number(calls::evaluate(
        given(payoff, days, table, now),
        (1, 2),
        ROOM,
    ))
}

pub fn sheet(input: &str) -> String {
    text(calls::sheet(input.as_bytes(), ROOM)).unwrap()
}
