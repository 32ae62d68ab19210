//! The seven calls written by hand, to be fast. It shares nothing with the engine.
//!
//! A text is read once into rows of 16 bytes, and acceptance is gathered on the way. An accepted plan
//! is then worked out without a check, month by month.

mod amounts;
mod compiles;
mod number;
mod payments;
mod payoffs;
mod pieces;
mod reader;
mod sheets;
mod steps;
mod table;

#[cfg(test)]
mod cases;

use reader::{read, Reader, Shape, MEASURE, ROWS};
use table::Sight;
pub use table::Table;

const LIMIT: i64 = 9_000_000_000_000;
const PLAN_BYTES: usize = 8_704;
const PAYOFF_BYTES: usize = 53_760;
const SHEET_BYTES: usize = 60_000;

const REFUSED_LONG: u8 = 1;
const REFUSED_FORM: u8 = 2;
const REFUSED_NODES: u8 = 3;
const REFUSED_DEPTH: u8 = 4;
const REFUSED_KIND: u8 = 5;
const REFUSED_MAGNITUDE: u8 = 6;
const REFUSED_TIME: u8 = 7;
const REFUSED_SETTINGS: u8 = 8;
const REFUSED_TABLE: u8 = 9;
const REFUSED_LENGTH: u8 = 10;
const REFUSED_READS: u8 = 11;
const REFUSED_CALLER: u8 = 12;
const REFUSED_ROOM: u8 = 13;
const REFUSED_RANGE: u8 = 14;

pub fn check(plan: &[u8], days: &[i64], table: &Table, today: i64, answer: &mut [i64]) -> i32 {
    told(|| {
        short(plan, PLAN_BYTES)?;
        let sight = Sight::of(days, table, None, || 0 <= today && today <= table.f);
        let (reader, shape) = read::<false, MEASURE>(plan, &sight, today);
        accepted(&reader, &sight, &shape, today)?;
        numbers([shape.length as i64, shape.magnitude], answer)
    })
}

#[allow(clippy::too_many_arguments)]
pub fn payment(
    plan: &[u8],
    days: &[i64],
    table: &Table,
    today: i64,
    p: i64,
    q: i64,
    month: i64,
    answer: &mut [i64],
) -> i32 {
    told(|| {
        short(plan, PLAN_BYTES)?;
        let asked = || 0 <= today && today <= month && month <= table.f;
        let sight = Sight::of(days, table, Some((p, q)), asked);
        let (reader, shape) = read::<false, ROWS>(plan, &sight, today);
        accepted(&reader, &sight, &shape, today)?;
        if answer.is_empty() {
            return Err(REFUSED_ROOM);
        }
        let (today, month) = (today as usize, month as usize);
        answer[0] = payments::paid(&reader.rows, table.values, 0, today, month);
        Ok(())
    })
}

#[allow(clippy::too_many_arguments)]
pub fn step(
    plan: &[u8],
    days: &[i64],
    table: &Table,
    today: i64,
    p: i64,
    q: i64,
    out: &mut [u8],
    answer: &mut [i64],
) -> i32 {
    told(|| {
        short(plan, PLAN_BYTES)?;
        let sight = Sight::of(days, table, Some((p, q)), || 0 <= today && today <= table.f);
        let (reader, shape) = read::<false, ROWS>(plan, &sight, today);
        accepted(&reader, &sight, &shape, today)?;
        let mut step = steps::Step {
            text: plan,
            rows: &reader.rows,
            values: table.values,
            opens: &reader.opens,
            days: &sight.days,
            months: table.h + table.f + 1,
            before: table.h,
            today: today as usize,
            out: Vec::with_capacity(plan.len() + plan.len() / 2),
        };
        let pence = step.step(0, plan.len());
        let text = step.out;
        room(&text, out)?;
        numbers([pence, text.len() as i64], answer)?;
        out[..text.len()].copy_from_slice(&text);
        Ok(())
    })
}

pub fn compile(plan: &[u8], out: &mut [u8], answer: &mut [i64]) -> i32 {
    told(|| {
        short(plan, PLAN_BYTES)?;
        written(&compiles::compiled(plan)?, out, answer)
    })
}

pub fn cut(payoff: &[u8], out: &mut [u8], answer: &mut [i64]) -> i32 {
    told(|| {
        short(payoff, PAYOFF_BYTES)?;
        let (reader, _) = read::<true, MEASURE>(payoff, &Sight::NONE, 0);
        if reader.refusal != 0 {
            return Err(reader.refusal);
        }
        room(payoff, out)?;
        numbers([payoff.len() as i64], answer)?;
        // An `F` stands nowhere but as a letter.
        for (new, &old) in out.iter_mut().zip(payoff) {
            *new = if old == b'F' { b'H' } else { old };
        }
        Ok(())
    })
}

pub fn evaluate(
    payoff: &[u8],
    days: &[i64],
    table: &Table,
    now: i64,
    p: i64,
    q: i64,
    answer: &mut [i64],
) -> i32 {
    told(|| {
        short(payoff, PAYOFF_BYTES)?;
        let sight = Sight::of(days, table, Some((p, q)), || 0 <= now && now <= table.f);
        let (reader, _) = read::<true, ROWS>(payoff, &sight, 0);
        ranges(&reader, &sight)?;
        let payoff = payoffs::Payoff {
            rows: &reader.rows,
            factors: table.factors,
            values: table.values,
            labels: table.bounds.len(),
            h: table.h,
            f: table.f,
            now,
        };
        let value = match reader.unread || reader.beyond {
            true => payoff.value(0, 0)?,
            false => payoff.fine(0, 0),
        };
        numbers([value], answer)
    })
}

pub fn sheet(input: &[u8], out: &mut [u8], answer: &mut [i64]) -> i32 {
    told(|| match sheets::answered(input) {
        Ok(lines) => written(&lines, out, answer),
        Err(refusal) => written(format!("refused,{refusal}\n").as_bytes(), out, answer),
    })
}

fn told(call: impl FnOnce() -> Result<(), u8>) -> i32 {
    match call() {
        Ok(()) => 0,
        Err(refusal) => refusal as i32,
    }
}

fn short(text: &[u8], limit: usize) -> Result<(), u8> {
    match text.len() <= limit {
        true => Ok(()),
        false => Err(REFUSED_LONG),
    }
}

/// What was read, then 9, 12 and 8.
fn ranges<const PAYOFF: bool, const MODE: u8>(
    reader: &Reader<PAYOFF, MODE>,
    sight: &Sight,
) -> Result<(), u8> {
    if reader.refusal != 0 {
        return Err(reader.refusal);
    }
    if sight.refusal != 0 {
        return Err(sight.refusal);
    }
    match reader.unset {
        true => Err(REFUSED_SETTINGS),
        false => Ok(()),
    }
}

/// The rules of acceptance, in their order.
fn accepted<const MODE: u8>(
    reader: &Reader<false, MODE>,
    sight: &Sight,
    shape: &Shape,
    today: i64,
) -> Result<(), u8> {
    ranges(reader, sight)?;
    if today + shape.length as i64 > sight.f as i64 {
        return Err(REFUSED_LENGTH);
    }
    if reader.unread {
        return Err(REFUSED_READS);
    }
    if reader.untimely {
        return Err(REFUSED_TIME);
    }
    match reader.beyond {
        true => Err(REFUSED_MAGNITUDE),
        false => Ok(()),
    }
}

fn room(text: &[u8], out: &[u8]) -> Result<(), u8> {
    match text.len() <= out.len() {
        true => Ok(()),
        false => Err(REFUSED_ROOM),
    }
}

fn numbers<const N: usize>(numbers: [i64; N], answer: &mut [i64]) -> Result<(), u8> {
    match answer.get_mut(..N) {
        Some(places) => {
            places.copy_from_slice(&numbers);
            Ok(())
        }
        None => Err(REFUSED_ROOM),
    }
}

fn written(text: &[u8], out: &mut [u8], answer: &mut [i64]) -> Result<(), u8> {
    room(text, out)?;
    numbers([text.len() as i64], answer)?;
    out[..text.len()].copy_from_slice(text);
    Ok(())
}
