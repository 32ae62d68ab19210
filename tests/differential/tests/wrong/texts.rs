//! Wrong with the texts: what is read or written that should not be, and the other way round.

use super::{answers, right, Wrong};
use differential::calls::{Call, Kind};
use interpreter::calls::Answer;
use interpreter::Refusal;

pub fn all() -> Vec<Wrong> {
    vec![
        answers("reads leading zeros", |call| {
            retold(call, |field| {
                let digits = field.trim_start_matches('0');
                match field.bytes().all(|byte| byte.is_ascii_digit()) && !field.is_empty() {
                    true if digits.is_empty() => "0".into(),
                    true => digits.into(),
                    false => field.into(),
                }
            })
        }),
        answers("reads plus signs", |call| {
            retold(call, |field| match field.strip_prefix('+') {
                Some(number) if number.parse::<u64>().is_ok() => number.into(),
                _ => field.into(),
            })
        }),
        answers("reads -0", |call| {
            retold(call, |field| match field {
                "-0" => "0".into(),
                _ => field.into(),
            })
        }),
        answers("reads a trailing comma", |call| {
            let mut call = call.clone();
            if call.text.last() == Some(&b',') && call.text.len() < 8_000 {
                call.text.pop();
            }
            right(&call)
        }),
        answers("reads settings in any order", |call| {
            retold(call, |field| {
                let mut parts: Vec<&str> = field.split('+').collect();
                parts[1..].sort_unstable();
                parts.join("+")
            })
        }),
        answers("reads lower case letters", |call| {
            retold(call, |field| match field.len() {
                1 => field.to_uppercase(),
                _ => field.into(),
            })
        }),
        answers("reads a delay of 601", |call| {
            retold(call, |field| match field {
                "601" => "600".into(),
                _ => field.into(),
            })
        }),
        answers("reads P8", |call| {
            retold(call, |field| match field {
                "P8" => "P7".into(),
                _ => field.into(),
            })
        }),
        answers("reads a number one beyond its range", |call| {
            retold(call, |field| match field {
                "9000000000001" => "9000000000000".into(),
                "-9000000000001" => "-9000000000000".into(),
                "19201" => "19200".into(),
                "-61" => "-60".into(),
                _ => field.into(),
            })
        }),
        answers("reads parties 0 and 10", |call| {
            let mut call = call.clone();
            let text = String::from_utf8_lossy(&call.text).into_owned();
            if text.starts_with("T,0,") {
                call.text = text.replacen("T,0,", "T,1,", 1).into_bytes();
            }
            call.p = match call.p {
                0 => 1,
                10 => 9,
                p => p,
            };
            right(&call)
        }),
        answers("reads plans 33 deep", |call| match right(call) {
            Err(Refusal::TooDeep) if call.text.starts_with(b"L,0,") => {
                let text = call.text[4..].to_vec();
                right(&Call {
                    text,
                    ..call.clone()
                })
            }
            told => told,
        }),
        answers("drops the settings of an index in compiling", |call| {
            let mut told = right(call)?;
            if call.kind == Kind::Compile {
                let text = String::from_utf8(told.bytes).expect("letters and digits");
                told = super::of_bytes(text.replace("O,0,0+P0,", "O,0,0,").into_bytes());
            }
            Ok(told)
        }),
        answers("adds no offset to an index in compiling", |call| {
            let mut told = right(call)?;
            if call.kind == Kind::Compile {
                let text = String::from_utf8(told.bytes).expect("letters and digits");
                told = super::of_bytes(text.replace("O,0,-1,", "O,0,0,").into_bytes());
            }
            Ok(told)
        }),
        answers("gives Z for every payoff", |call| match call.kind {
            Kind::Compile | Kind::Cut => right(call).map(|_| super::of_bytes(b"Z".to_vec())),
            _ => right(call),
        }),
        answers("turns only the first F into H", |call| {
            let mut told = right(call)?;
            if call.kind == Kind::Cut {
                let read = interpreter::read::payoff(&call.text)?;
                let before = interpreter::print::payoff(&read);
                let first = (0..before.len()).find(|at| before[*at] != told.bytes[*at]);
                let mut bytes = before;
                if let Some(at) = first {
                    bytes[at] = b'H';
                }
                told.bytes = bytes;
            }
            Ok(told)
        }),
        answers(
            "compiles settings in the order in which they stand",
            |call| {
                let mut told = right(call)?;
                if call.kind == Kind::Compile {
                    // The right order turned round where there are two.
                    let text = String::from_utf8(told.bytes).expect("letters and digits");
                    told.bytes = text.replace("+P0+P1", "+P1+P0").into_bytes();
                }
                Ok(told)
            },
        ),
    ]
}

/// The answer to the same call with every field of its text changed.
fn retold(call: &Call, field: fn(&str) -> String) -> Result<Answer, Refusal> {
    let Ok(text) = std::str::from_utf8(&call.text) else {
        return right(call);
    };
    let fields: Vec<String> = text.split(',').map(field).collect();
    let text = fields.join(",").into_bytes();
    right(&Call {
        text,
        ..call.clone()
    })
}
