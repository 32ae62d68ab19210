//! A sheet: its lines read, one walk over the plan, a backward sum, and the lines of the answer.

use super::number;
use super::payments::column;
use super::pieces::append;
use super::reader::{read, ROWS};
use super::table::{Sight, Table};
use super::{LIMIT, PLAN_BYTES, REFUSED_FORM, REFUSED_LONG, SHEET_BYTES};

struct Sheet<'a> {
    plan: &'a [u8],
    /// The settings, and behind them the span and the pair.
    few: Vec<i64>,
    days: usize,
    h: i64,
    f: i64,
    p: i64,
    q: i64,
    /// The factors, then the values of all labels.
    numbers: Vec<i64>,
    factors: usize,
    bounds: Vec<i64>,
}

/// The answer's lines, or the refusal.
pub fn answered(input: &[u8]) -> Result<Vec<u8>, u8> {
    if input.len() > SHEET_BYTES {
        return Err(REFUSED_LONG);
    }
    let sheet = lines(input).ok_or(REFUSED_FORM)?;
    if sheet.plan.len() > PLAN_BYTES {
        return Err(REFUSED_LONG);
    }
    let (factors, values) = sheet.numbers.split_at(sheet.factors);
    let table = Table {
        h: sheet.h,
        f: sheet.f,
        factors,
        bounds: &sheet.bounds,
        values,
    };
    let sight = Sight::of(
        &sheet.few[..sheet.days],
        &table,
        Some((sheet.p, sheet.q)),
        || true,
    );
    let (reader, shape) = read::<false, ROWS>(sheet.plan, &sight, 0);
    super::accepted(&reader, &sight, &shape, 0)?;
    let mut months = vec![0; factors.len()];
    column(&reader.rows, values, 0, 0, 1, &mut months);
    Ok(printed(&shape, &months, factors))
}

/// The lines of an accepted sheet.
fn printed(shape: &super::reader::Shape, paid: &[i64], factors: &[i64]) -> Vec<u8> {
    let mut left = vec![0; paid.len()];
    let mut rest = 0;
    for month in (0..paid.len()).rev() {
        rest += paid[month] * factors[month];
        left[month] = rest;
    }
    let mut out = Vec::with_capacity(128 + 40 * paid.len());
    out.extend_from_slice(b"accepted,");
    number::write(&mut out, shape.length as i64);
    out.push(b',');
    number::write(&mut out, shape.magnitude);
    out.push(b'\n');
    // Where pence and value stay, so does all behind the month.
    let mut tail = [0; 48];
    let mut size = 0;
    let mut made = Vec::with_capacity(48);
    let mut before = None;
    for ((month, &pence), &left) in number::SMALL.iter().zip(paid).zip(&left) {
        if before != Some((pence, left)) {
            before = Some((pence, left));
            made.clear();
            made.push(b',');
            number::write(&mut made, pence);
            made.push(b',');
            number::write(&mut made, left);
            made.push(b'\n');
            size = made.len();
            tail[..size].copy_from_slice(&made);
        }
        append(&mut out, month, month[3] as usize);
        match size <= 16 {
            true => append(&mut out, &tail[..16], size),
            false => append(&mut out, &tail, size),
        }
    }
    out
}

/// Reads the lines; `None` is a fault of the sheet itself.
fn lines(input: &[u8]) -> Option<Sheet<'_>> {
    let mut at = word(input, 0, b"plan,")?;
    let end = at + input[at..].iter().position(|&byte| byte == b'\n')?;
    let plan = &input[at..end];
    at = word(input, end + 1, b"days")?;
    let mut few = Vec::with_capacity(16);
    at = numbers(input, at, &mut few)?;
    let days = few.len();
    at = numbers(input, word(input, at, b"span")?, &mut few)?;
    let [h, f] = few[days..] else {
        return None;
    };
    let mut kept = Vec::with_capacity((input.len() - at) / 2);
    at = numbers(input, word(input, at, b"factors")?, &mut kept)?;
    let factors = kept.len();
    if factors == 0 || factors as i64 != f + 1 {
        return None;
    }
    at = numbers(input, word(input, at, b"pair")?, &mut few)?;
    let [p, q] = few[days + 2..] else {
        return None;
    };
    let mut bounds = Vec::with_capacity(8);
    while at < input.len() {
        let mark = word(input, at, b"index,")?;
        let (label, next) = field(input, mark)?;
        if label != bounds.len() as i64 || input.get(next) != Some(&b',') {
            return None;
        }
        let (bound, next) = field(input, next + 1)?;
        bounds.push(bound);
        let before = kept.len();
        at = numbers(input, next, &mut kept)?;
        let count = kept.len() - before;
        if count == 0 || count as i64 != h + f + 1 {
            return None;
        }
    }
    Some(Sheet {
        plan,
        few,
        days,
        h,
        f,
        p,
        q,
        numbers: kept,
        factors,
        bounds,
    })
}

fn word(input: &[u8], at: usize, word: &[u8]) -> Option<usize> {
    input
        .get(at..)?
        .starts_with(word)
        .then_some(at + word.len())
}

/// A number in the range of a sheet, and where it ends.
fn field(input: &[u8], at: usize) -> Option<(i64, usize)> {
    let (number, end) = number::read(input, at);
    (end != 0 && (-LIMIT..=LIMIT).contains(&number)).then_some((number, end))
}

/// The rest of a line: numbers with a comma in front of each. Answers where the next line begins.
fn numbers(input: &[u8], at: usize, kept: &mut Vec<i64>) -> Option<usize> {
    match input.get(at)? {
        b',' => {}
        b'\n' => return Some(at + 1),
        _ => return None,
    }
    let mut start = at + 1;
    let mut from = start;
    while from < input.len() {
        // A block of 64 bytes and the eight before it, for a number that ends in it. Two words of the
        // sheet stand before every number, so there are eight.
        let before = from.checked_sub(8)?;
        let mut last = [0; 72];
        let window: &[u8; 72] = match input[before..].first_chunk() {
            Some(window) => window,
            None => {
                last[..input.len() - before].copy_from_slice(&input[before..]);
                &last
            }
        };
        let mut ends = number::ends(&window[8..]);
        while ends != 0 {
            let place = ends.trailing_zeros() as usize & 63;
            let end = from + place;
            ends &= ends - 1;
            let length = end - start;
            let number = match length.wrapping_sub(1) < 8 {
                true => number::read_short(*window[place..].first_chunk()?, length)?,
                false => {
                    let number = number::read_long(input, start, end)?;
                    (-LIMIT..=LIMIT).contains(&number).then_some(number)?
                }
            };
            kept.push(number);
            start = end + 1;
            match window[place + 8] {
                b',' => {}
                b'\n' => return Some(start),
                _ => return None,
            }
        }
        from += 64;
    }
    None
}
