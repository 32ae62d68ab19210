//! Versions of the interpreter that are wrong on purpose.

#![allow(dead_code)]

pub mod buffers;
pub mod months;
pub mod order;
pub mod rules;
pub mod sheets;
pub mod texts;
pub mod values;

use differential::calls::{write, Call, Calls, Kind};
use interpreter::calls::{Answer, Room};
use interpreter::{read, Plan, Refusal};

/// One wrong version.
pub struct Wrong {
    /// What is wrong with it.
    pub name: &'static str,
    pub how: How,
}

/// Where it goes wrong.
#[derive(Clone, Copy)]
pub enum How {
    /// In what it answers.
    Answers(fn(&Call) -> Result<Answer, Refusal>),
    /// In what it does with the buffers.
    Writes(fn(&Call, &mut [u8], &mut [i64]) -> i32),
}

impl Wrong {
    /// Its answer, 13 where there is not enough room; the right one where only buffers are wrong.
    pub fn told(&self, call: &Call) -> Result<Answer, Refusal> {
        match self.how {
            How::Answers(answers) => answers(call).and_then(|told| fitting(call, told)),
            How::Writes(_) => call.foretold(),
        }
    }
}

impl Calls for Wrong {
    fn call(&self, call: &Call, out: &mut [u8], answer: &mut [i64]) -> i32 {
        match self.how {
            How::Answers(_) => write(self.told(call), out, answer),
            How::Writes(writes) => writes(call, out, answer),
        }
    }
}

pub fn answers(name: &'static str, how: fn(&Call) -> Result<Answer, Refusal>) -> Wrong {
    Wrong {
        name,
        how: How::Answers(how),
    }
}

pub fn writes(name: &'static str, how: fn(&Call, &mut [u8], &mut [i64]) -> i32) -> Wrong {
    Wrong {
        name,
        how: How::Writes(how),
    }
}

/// The right answer, as if there were room enough.
pub fn right(call: &Call) -> Result<Answer, Refusal> {
    call.foretold_with(Room {
        out: usize::MAX,
        answer: usize::MAX,
    })
}

/// 13, where there is not.
fn fitting(call: &Call, told: Answer) -> Result<Answer, Refusal> {
    if told.bytes.len() > call.out {
        Err(Refusal::OutTooShort)
    } else if told.numbers.len() > call.answer {
        Err(Refusal::AnswerTooShort)
    } else {
        Ok(told)
    }
}

/// The plan of a call of this kind that is accepted.
pub fn accepted_plan(call: &Call, kind: Kind) -> Option<(Plan, Answer)> {
    if call.kind != kind {
        return None;
    }
    let answer = right(call).ok()?;
    Some((read::plan(&call.text).ok()?, answer))
}

/// An answer of bytes.
pub fn of_bytes(bytes: Vec<u8>) -> Answer {
    Answer {
        numbers: vec![bytes.len() as i64],
        bytes,
    }
}

/// An answer of one number; `None` where it fits no i64.
pub fn of_number(number: i128) -> Option<Answer> {
    Some(Answer {
        numbers: vec![i64::try_from(number).ok()?],
        bytes: vec![],
    })
}
