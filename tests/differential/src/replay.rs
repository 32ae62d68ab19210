//! A call as text that a reader can follow and that the program can read back.

use crate::calls::{Call, Kind};
use crate::compare::Difference;

/// Bytes as text: printable ones as they are, others as `\xNN`.
pub fn escaped(bytes: &[u8]) -> String {
    bytes
        .iter()
        .map(|byte| match byte {
            b'\\' => "\\x5c".to_string(),
            b' '..=b'~' => char::from(*byte).to_string(),
            other => format!("\\x{other:02x}"),
        })
        .collect()
}

fn unescaped(text: &str) -> Option<Vec<u8>> {
    let mut parts = text.split("\\x");
    let mut bytes = parts.next()?.as_bytes().to_vec();
    for part in parts {
        bytes.push(u8::from_str_radix(part.get(..2)?, 16).ok()?);
        bytes.extend_from_slice(part.get(2..)?.as_bytes());
    }
    Some(bytes)
}

fn list(numbers: &[i64]) -> String {
    let numbers: Vec<String> = numbers.iter().map(i64::to_string).collect();
    numbers.join(" ")
}

/// The call, a line for each thing it takes.
pub fn written(call: &Call) -> String {
    let mut lines = vec![
        format!("call: {}", call.kind.name()),
        format!("text: {}", escaped(&call.text)),
    ];
    if call.kind.takes_table() {
        let table = &call.table;
        lines.push(format!("days: {}", list(&call.days)));
        lines.push(format!("span: {} {}", table.h, table.f));
        lines.push(format!("factors: {}", list(&table.factors)));
        lines.push(format!("bounds: {}", list(&table.bounds)));
        lines.push(format!("values: {}", list(&table.values)));
        lines.push(format!("today: {}", call.today));
    }
    if call.kind.takes_pair() {
        lines.push(format!("pair: {} {}", call.p, call.q));
    }
    if call.kind == Kind::Payment {
        lines.push(format!("month: {}", call.month));
    }
    lines.push(format!("room: {} {}", call.out, call.answer));
    lines.join("\n") + "\n"
}

/// The call that [`written`] wrote; lines of other words are passed over.
pub fn read(text: &str) -> Result<Call, String> {
    let mut call = Call::of_text(Kind::Check, vec![]);
    for line in text.lines() {
        let Some((word, rest)) = line.split_once(':') else {
            continue;
        };
        let rest = rest.strip_prefix(' ').unwrap_or(rest);
        let numbers = || {
            rest.split_whitespace()
                .map(|field| field.parse::<i64>().map_err(|_| line.to_string()))
                .collect::<Result<Vec<i64>, String>>()
        };
        let two = || match numbers()?.as_slice() {
            [one, other] => Ok((*one, *other)),
            _ => Err(line.to_string()),
        };
        match word {
            "call" => call.kind = Kind::named(rest).ok_or(line)?,
            "text" => call.text = unescaped(rest).ok_or(line)?,
            "days" => call.days = numbers()?,
            "span" => (call.table.h, call.table.f) = two()?,
            "factors" => call.table.factors = numbers()?,
            "bounds" => call.table.bounds = numbers()?,
            "values" => call.table.values = numbers()?,
            "today" => call.today = *numbers()?.first().ok_or(line)?,
            "pair" => (call.p, call.q) = two()?,
            "month" => call.month = *numbers()?.first().ok_or(line)?,
            "room" => {
                let (out, answer) = two()?;
                call.out = usize::try_from(out).map_err(|_| line)?;
                call.answer = usize::try_from(answer).map_err(|_| line)?;
            }
            _ => {}
        }
    }
    Ok(call)
}

/// The whole report of a difference.
pub fn report(difference: &Difference) -> String {
    let call = &difference.call;
    let cause = match difference.refusal {
        Some(refusal) => format!(" ({refusal:?})"),
        None => String::new(),
    };
    format!(
        "{}interpreter: {}{cause}\nengine: {}\n",
        written(call),
        difference.expected.told(call),
        difference.found.told(call),
    )
}

#[cfg(test)]
mod tests {
    use super::*;

    #[test]
    fn a_written_call_is_read_back() {
        for kind in Kind::ALL {
            let mut call = Call::of_text(kind, b"S,N,\\\n\xff\x00,Z".to_vec());
            if kind.takes_table() {
                call.days = vec![1, -2];
                call.table.f = 1;
                call.table.factors = vec![3, i64::MIN];
                call.today = -7;
            }
            if kind.takes_pair() {
                (call.p, call.q) = (0, 11);
            }
            call.answer = 5;
            assert_eq!(read(&written(&call)), Ok(call));
        }
    }
}
