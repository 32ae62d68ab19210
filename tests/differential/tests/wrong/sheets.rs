//! Wrong with sheets.

use super::{answers, right, Wrong};
use differential::calls::{Call, Kind};
use interpreter::calls::Answer;
use interpreter::Refusal;

pub fn all() -> Vec<Wrong> {
    vec![
        answers("takes a sheet beyond its limit for malformed", |call| {
            on_sheet(call, |lines| match lines.as_slice() {
                b"refused,1\n" => b"refused,2\n".to_vec(),
                _ => lines,
            })
        }),
        answers("prints a month too few", |call| {
            on_sheet(call, |mut lines| {
                if lines.starts_with(b"accepted") {
                    lines.pop();
                    while lines.last() != Some(&b'\n') {
                        lines.pop();
                    }
                }
                lines
            })
        }),
        answers(
            "takes a ninth index line for a fault of the sheet",
            |call| {
                let index = |line: &[u8]| line.starts_with(b"index,8,");
                match call.text.split(|byte| *byte == b'\n').any(index) {
                    true => on_sheet(call, |_| b"refused,2\n".to_vec()),
                    false => right(call),
                }
            },
        ),
        answers("looks at a sheet's pair before its table", |call| {
            let told = right(call)?;
            let sheet = interpreter::sheet::read_sheet(&call.text);
            match (call.kind, sheet) {
                (Kind::Sheet, Ok(sheet))
                    if told.bytes == b"refused,9\n" && !(1..=9).contains(&sheet.pair.0) =>
                {
                    Ok(super::of_bytes(b"refused,12\n".to_vec()))
                }
                _ => Ok(told),
            }
        }),
        answers("prints no line feed behind the last line", |call| {
            on_sheet(call, |mut lines| {
                lines.pop();
                lines
            })
        }),
        answers("prints the cause behind a refused sheet's number", |call| {
            on_sheet(call, |lines| match lines.starts_with(b"refused") {
                true => [&lines[..lines.len() - 1], b",0\n"].concat(),
                false => lines,
            })
        }),
        answers(
            "prints refusals of a sheet's plan as faults of the sheet",
            |call| {
                on_sheet(call, |lines| match lines.as_slice() {
                    b"refused,5\n" => b"refused,2\n".to_vec(),
                    _ => lines,
                })
            },
        ),
        answers("reads a sheet without its last line feed", |call| {
            let mut call = call.clone();
            let ended = call.text.last() == Some(&b'\n');
            if call.kind == Kind::Sheet && !ended && call.text.len() < 8_000 {
                call.text.push(b'\n');
            }
            right(&call)
        }),
    ]
}

fn on_sheet(call: &Call, change: fn(Vec<u8>) -> Vec<u8>) -> Result<Answer, Refusal> {
    let told = right(call)?;
    if call.kind != Kind::Sheet {
        return Ok(told);
    }
    Ok(super::of_bytes(change(told.bytes)))
}
