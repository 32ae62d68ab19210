//! Wrong with the buffers, or with the place of 13 in the order.

use super::{answers, right, writes, Wrong};
use differential::calls::{write, Call};
use interpreter::Refusal;

pub fn all() -> Vec<Wrong> {
    vec![
        writes(
            "writes what fits before it refuses with 13",
            |call, out, answer| {
                if let Ok(told) = right(call) {
                    let fits = told.bytes.len().min(out.len());
                    out[..fits].copy_from_slice(&told.bytes[..fits]);
                }
                write(call.foretold(), out, answer)
            },
        ),
        writes(
            "writes the numbers before it refuses with 13",
            |call, out, answer| {
                if let Ok(told) = right(call) {
                    let fits = told.numbers.len().min(answer.len());
                    answer[..fits].copy_from_slice(&told.numbers[..fits]);
                }
                write(call.foretold(), out, answer)
            },
        ),
        writes("writes a zero behind the text", |call, out, answer| {
            let told = call.foretold();
            if let Ok(told) = &told {
                if call.kind.writes() && told.bytes.len() < out.len() {
                    out[told.bytes.len()] = 0;
                }
            }
            write(told, out, answer)
        }),
        writes("clears the answer first", |call, out, answer| {
            answer.fill(0);
            write(call.foretold(), out, answer)
        }),
        writes("writes behind the lent text", |call, out, answer| {
            let told = call.foretold();
            if told.is_ok() && call.kind.writes() {
                // SAFETY: the harness keeps guard bytes behind what it lends.
                unsafe { *out.as_mut_ptr().add(out.len()) ^= 1 };
            }
            write(told, out, answer)
        }),
        writes("writes before the lent answer", |call, out, answer| {
            // SAFETY: the harness keeps guard numbers before what it lends.
            unsafe { *answer.as_mut_ptr().sub(1) ^= 1 };
            write(call.foretold(), out, answer)
        }),
        writes(
            "takes 13 before all else",
            |call, out, answer| match short(call) {
                true => 13,
                false => write(call.foretold(), out, answer),
            },
        ),
        writes(
            "wants one byte more than it writes",
            |call, out, answer| match call.foretold() {
                Ok(told) if call.kind.writes() && told.bytes.len() == call.out => 13,
                told => write(told, out, answer),
            },
        ),
        answers("never looks at the room for numbers", |call| {
            let told = right(call);
            match told {
                Ok(mut told) => {
                    told.numbers.truncate(call.answer);
                    Ok(told)
                }
                refused => refused,
            }
        }),
        answers(
            "refuses with 14 what is refused with 13",
            |call| match call.foretold() {
                Err(refusal) if refusal.number() == 13 => Err(Refusal::ScaleRange),
                told => told,
            },
        ),
    ]
}

/// Whether `answer` is too short, as can be told without any work.
fn short(call: &Call) -> bool {
    call.answer < call.kind.numbers()
}
