//! The tool's own reading of a sheet's lines, for what is asked of the engine beyond the sheet.

use crate::number;

pub struct Sheet {
    pub plan: Vec<u8>,
    pub days: Vec<i64>,
    pub h: i64,
    pub f: i64,
    pub factors: Vec<i64>,
    pub p: i64,
    pub q: i64,
    pub bounds: Vec<i64>,
    /// Label after label.
    pub values: Vec<i64>,
}

/// A fault of the sheet itself: its line, counted from 1, and what is wrong there.
pub struct Fault {
    pub line: usize,
    pub words: String,
}

fn fault<A>(line: usize, words: impl Into<String>) -> Result<A, Fault> {
    Err(Fault {
        line,
        words: words.into(),
    })
}

const WORDS: [&str; 5] = ["plan", "days", "span", "factors", "pair"];

pub fn read(bytes: &[u8]) -> Result<Sheet, Fault> {
    let mut lines: Vec<&[u8]> = bytes.split(|byte| *byte == b'\n').collect();
    let behind = lines.pop().unwrap_or(b"");
    let ended = behind.is_empty();
    if !ended {
        lines.push(behind);
    }
    let unended = lines.len();
    let line = |at: usize| -> Result<&[u8], Fault> {
        let word = WORDS.get(at).copied().unwrap_or("index");
        let Some(line) = lines.get(at) else {
            return fault(at + 1, format!("the line `{word}` is missing"));
        };
        if !ended && at + 1 == unended {
            return fault(at + 1, "this line is not ended by a line feed");
        }
        let (first, rest) = match line.iter().position(|byte| *byte == b',') {
            Some(comma) => (&line[..comma], &line[comma..]),
            None => (*line, &line[line.len()..]),
        };
        if first != word.as_bytes() {
            return fault(
                at + 1,
                format!("this line has to begin with the word `{word}`"),
            );
        }
        Ok(rest)
    };
    let numbers = |at: usize| -> Result<Vec<i64>, Fault> {
        let rest = line(at)?;
        let Some(fields) = rest.strip_prefix(b",") else {
            return Ok(Vec::new());
        };
        let mut numbers = Vec::new();
        for (k, field) in fields.split(|byte| *byte == b',').enumerate() {
            let Some(n) = number(field) else {
                let field = String::from_utf8_lossy(field);
                return fault(
                    at + 1,
                    format!(
                        "number {} of this line, `{field}`, is malformed or beyond 9000000000000",
                        k + 1
                    ),
                );
            };
            numbers.push(n);
        }
        Ok(numbers)
    };
    let plan = match line(0)?.strip_prefix(b",") {
        Some(plan) => plan.to_vec(),
        None => return fault(1, "no plan stands behind the word `plan`"),
    };
    let days = numbers(1)?;
    let span = numbers(2)?;
    let [h, f] = span[..] else {
        return fault(3, "a span is two numbers: h and f");
    };
    let factors = numbers(3)?;
    if factors.is_empty() || i64::try_from(factors.len()) != Ok(f + 1) {
        return fault(
            4,
            "the factors do not fit the span: one for each month from 0 to f",
        );
    }
    let pair = numbers(4)?;
    let [p, q] = pair[..] else {
        return fault(5, "a pair is two parties");
    };
    let mut bounds = Vec::new();
    let mut values = Vec::new();
    for at in 5..lines.len() {
        let all = numbers(at)?;
        let [label, bound, rest @ ..] = &all[..] else {
            return fault(at + 1, "an index line has a label, a bound and values");
        };
        if i64::try_from(bounds.len()) != Ok(*label) {
            return fault(
                at + 1,
                format!("the label has to be the next, {}", bounds.len()),
            );
        }
        if rest.is_empty() || i64::try_from(rest.len()) != Ok(h + f + 1) {
            return fault(
                at + 1,
                "the values do not fit the span: one for each month from -h to f",
            );
        }
        bounds.push(*bound);
        values.extend(rest);
    }
    Ok(Sheet {
        plan,
        days,
        h,
        f,
        factors,
        p,
        q,
        bounds,
        values,
    })
}

impl Sheet {
    pub fn table(&self) -> engine::Table<'_> {
        engine::Table {
            h: self.h,
            f: self.f,
            factors: &self.factors,
            bounds: &self.bounds,
            values: &self.values,
        }
    }
}
