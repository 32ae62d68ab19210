//! One call made, with guarded buffers, and compared with what the interpreter says.

use crate::calls::{write, Call, Calls};
use interpreter::calls::Answer;
use interpreter::Refusal;

/// Bytes and numbers before and behind each lent buffer, which no call may touch.
const GUARD: usize = 16;

/// All that a call leaves behind: its status and every byte of its buffers, guards included.
#[derive(Clone, Debug, PartialEq, Eq)]
pub struct Outcome {
    pub status: i32,
    pub out: Vec<u8>,
    pub answer: Vec<i64>,
    /// Whether everything lent for reading holds what it held.
    pub inputs_kept: bool,
}

impl Outcome {
    /// The buffers before the call.
    fn before(call: &Call) -> Outcome {
        let byte = |at: usize| (at as u8).wrapping_mul(37) ^ 0xA5;
        let number = |at: usize| 0x5EED_0000_0000_0000 + at as i64;
        Outcome {
            status: 0,
            out: (0..call.out + 2 * GUARD).map(byte).collect(),
            answer: (0..call.answer + 2 * GUARD).map(number).collect(),
            inputs_kept: true,
        }
    }

    fn lent(&mut self) -> (&mut [u8], &mut [i64]) {
        let (out, answer) = (self.out.len() - GUARD, self.answer.len() - GUARD);
        (&mut self.out[GUARD..out], &mut self.answer[GUARD..answer])
    }

    /// What the call must leave behind, by the interpreter.
    pub fn foretold(call: &Call) -> (Outcome, Result<Answer, Refusal>) {
        let told = call.foretold();
        let mut outcome = Outcome::before(call);
        let (out, answer) = outcome.lent();
        outcome.status = write(told.clone(), out, answer);
        (outcome, told)
    }

    /// What the call does leave behind.
    pub fn observed(calls: &impl Calls, call: &Call) -> Outcome {
        let mut outcome = Outcome::before(call);
        let given = call.clone();
        let (out, answer) = outcome.lent();
        outcome.status = calls.call(&given, out, answer);
        outcome.inputs_kept = given == *call;
        outcome
    }

    /// In words, for a report.
    pub fn told(&self, call: &Call) -> String {
        let before = Outcome::before(call);
        let mut words = match self.status {
            0 => "accepted".to_string(),
            refusal => format!("refused {refusal}"),
        };
        // Numbers that were not written stand as `_`.
        let answer: Vec<String> = (GUARD..self.answer.len() - GUARD)
            .map(|at| match self.answer[at] == before.answer[at] {
                true => "_".to_string(),
                false => self.answer[at].to_string(),
            })
            .collect();
        let answer = answer.join(" ");
        if self.status == 0 {
            words += &format!(", answer {answer}");
        } else if self.answer != before.answer {
            words += &format!(", but wrote answer {answer}");
        }
        let written = self.out.len() - GUARD;
        if let Some(last) = (GUARD..written).rfind(|at| self.out[*at] != before.out[*at]) {
            let text = crate::replay::escaped(&self.out[GUARD..=last]);
            words += &format!(", out {text}");
        }
        let guards = |outcome: &Outcome| {
            let (out, answer) = (outcome.out.len(), outcome.answer.len());
            let bytes = [&outcome.out[..GUARD], &outcome.out[out - GUARD..]].concat();
            let numbers = [&outcome.answer[..GUARD], &outcome.answer[answer - GUARD..]].concat();
            (bytes, numbers)
        };
        if guards(self) != guards(&before) {
            words += ", and wrote outside the lent buffers";
        }
        if !self.inputs_kept {
            words += ", and changed what was lent for reading";
        }
        words
    }
}

/// A call that the other side answers differently.
#[derive(Clone, Debug)]
pub struct Difference {
    pub call: Call,
    pub expected: Outcome,
    pub refusal: Option<Refusal>,
    pub found: Outcome,
}

/// Makes the call; what the interpreter says, or the difference.
pub fn compare(
    calls: &impl Calls,
    call: &Call,
) -> Result<Result<Answer, Refusal>, Box<Difference>> {
    let (expected, told) = Outcome::foretold(call);
    let found = Outcome::observed(calls, call);
    if expected == found {
        return Ok(told);
    }
    Err(Box::new(Difference {
        call: call.clone(),
        expected,
        refusal: told.err(),
        found,
    }))
}
