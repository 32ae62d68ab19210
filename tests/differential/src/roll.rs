//! Demand 3: "one statement about a whole list of month-step calls".
//!
//! "The held plan is at first the plan text accepted with today 0. Each call gets the held plan, and
//! as today the number of calls accepted before it; its pair and output buffer are any. .. The bytes
//! an accepted call writes are the held plan from then on; a refused call leaves it as it was".

use crate::calls::{Call, Calls, Kind};
use crate::harness::{Fault, Harness};
use crate::replay;
use interpreter::calls::Room;

/// What is lent to a month step.
#[derive(Clone, Copy, Debug, PartialEq, Eq)]
pub enum Lend {
    Exact,
    Long,
    OneShort,
    Empty,
    /// An `answer` for one number only.
    ShortAnswer,
    /// An `answer` for none.
    NoAnswer,
}

/// One call of the list.
#[derive(Clone, Copy, Debug, PartialEq, Eq)]
pub struct Event {
    pub p: i64,
    pub q: i64,
    pub lend: Lend,
}

/// The first plan with settings and table (a `step` call with a sound pair), and the list of calls.
#[derive(Clone, Debug, PartialEq, Eq)]
pub struct Roll {
    pub first: Call,
    pub events: Vec<Event>,
}

/// A list of calls in which answers do not fit each other.
#[derive(Clone, Debug)]
pub struct Broken {
    pub roll: Roll,
    pub words: String,
}

impl Broken {
    pub fn report(&self) -> String {
        format!(
            "roll:\n{}calls: {:?}\nbroken: {}\n",
            replay::written(&self.roll.first),
            self.roll.events,
            self.words
        )
    }
}

impl Roll {
    /// Runs the list, each call compared, and the answers among each other.
    pub fn run<C: Calls>(&self, harness: &mut Harness<C>) -> Result<(), Fault> {
        let Some(book) = Book::open(self, harness)? else {
            return Ok(());
        };
        let f = self.first.table.f;
        let mut held = self.first.text.clone();
        let mut today = 0;
        book.look(harness, &held, today)?;
        for event in &self.events {
            if today > f {
                break;
            }
            let call = self.step(&held, today, event);
            match harness.compare(&call)? {
                Ok(answer) => {
                    let pence = i128::from(answer.numbers[0]);
                    let due = book.pays_between(harness, (event.p, event.q), today)?;
                    self.demand(pence == due, || {
                        format!("step in month {today} pays {pence}, not {due}")
                    })?;
                    held = answer.bytes;
                    today += 1;
                    harness.count("roll: a month");
                    // "no more than f are accepted": the plan written in month f is not looked at.
                    if today <= f {
                        book.look(harness, &held, today)?;
                    } else {
                        harness.count("roll: up to month f");
                    }
                }
                Err(refusal) => {
                    // "a call is refused exactly where its pair breaks 12 or else its buffer is too
                    // short, 13"
                    let sound = |party: i64| (1..=9).contains(&party);
                    let expected = if sound(event.p) && sound(event.q) {
                        13
                    } else {
                        12
                    };
                    let number = refusal.number();
                    self.demand(number == expected, || {
                        format!("step in month {today} refused with {number}")
                    })?;
                    harness.count(&format!("roll: refused {number}"));
                }
            }
        }
        Ok(())
    }

    fn step(&self, held: &[u8], today: i64, event: &Event) -> Call {
        let mut call = Call {
            text: held.to_vec(),
            today,
            p: event.p,
            q: event.q,
            ..self.first.clone()
        };
        let enough = Room {
            out: usize::MAX,
            answer: 2,
        };
        let bytes = match call.foretold_with(enough) {
            Ok(answer) => answer.bytes.len(),
            Err(_) => 8,
        };
        (call.out, call.answer) = match event.lend {
            Lend::Exact => (bytes, 2),
            Lend::Long => (bytes + 9, 3),
            Lend::OneShort => (bytes - 1, 2),
            Lend::Empty => (0, 2),
            Lend::ShortAnswer => (bytes, 1),
            Lend::NoAnswer => (bytes, 0),
        };
        call
    }

    fn demand(&self, holds: bool, words: impl Fn() -> String) -> Result<(), Fault> {
        if holds {
            return Ok(());
        }
        Err(Fault::Roll(Box::new(Broken {
            roll: self.clone(),
            words: words(),
        })))
    }
}

/// What is known of the first plan.
struct Book<'a> {
    roll: &'a Roll,
    /// What it pays the roll's pair in months 0 to f.
    pays: Vec<i128>,
    payoff: Vec<u8>,
    cut: Vec<u8>,
}

impl<'a> Book<'a> {
    /// Nothing where the first plan is not accepted with today 0.
    fn open<C: Calls>(roll: &'a Roll, harness: &mut Harness<C>) -> Result<Option<Book<'a>>, Fault> {
        let first = &roll.first;
        let check = Call {
            kind: Kind::Check,
            out: 0,
            answer: 2,
            ..first.clone()
        };
        if harness.compare(&check)?.is_err() {
            return Ok(None);
        }
        let mut pays = vec![];
        let close = months_looked_at(0, first.table.f);
        for month in 0..=first.table.f {
            let call = payment(first, &first.text, 0, month);
            // Far too many months are only foretold.
            let told = if close.contains(&month) {
                harness.compare(&call)?
            } else {
                call.foretold()
            };
            pays.push(i128::from(number(told, roll, "payment of the first plan")?));
        }
        let compile = Call::of_text(Kind::Compile, first.text.clone());
        let payoff = bytes(harness.compare(&compile)?, roll, "compiling")?;
        let cut = Call::of_text(Kind::Cut, payoff.clone());
        let cut = bytes(harness.compare(&cut)?, roll, "cutting")?;
        Ok(Some(Book {
            roll,
            pays,
            payoff,
            cut,
        }))
    }

    /// What the first plan pays another pair in a month.
    fn pays_between<C: Calls>(
        &self,
        harness: &mut Harness<C>,
        (p, q): (i64, i64),
        month: i64,
    ) -> Result<i128, Fault> {
        let first = &self.roll.first;
        let call = Call {
            p,
            q,
            ..payment(first, &first.text, 0, month)
        };
        let told = harness.compare(&call)?;
        Ok(i128::from(number(
            told,
            self.roll,
            "payment of the first plan",
        )?))
    }

    /// The held plan is accepted, and pays what the first plan pays; the cut value is that of the
    /// payments to come, and with those past it is the uncut value.
    fn look<C: Calls>(
        &self,
        harness: &mut Harness<C>,
        held: &[u8],
        today: i64,
    ) -> Result<(), Fault> {
        let first = &self.roll.first;
        let f = first.table.f;
        let check = Call {
            kind: Kind::Check,
            text: held.to_vec(),
            today,
            out: 0,
            answer: 2,
            ..first.clone()
        };
        let accepted = harness.compare(&check)?;
        self.roll.demand(accepted.is_ok(), || {
            format!("the held plan is not accepted in month {today}: {accepted:?}")
        })?;
        for month in months_looked_at(today, f) {
            let told = harness.compare(&payment(first, held, today, month))?;
            let pence = i128::from(number(told, self.roll, "payment of the held plan")?);
            let due = self.pays[month as usize];
            self.roll.demand(pence == due, || {
                format!("held in month {today}, it pays {pence} in month {month}, not {due}")
            })?;
        }
        let worth = |from: i64, to: i64| -> i128 {
            (from..=to)
                .map(|m| self.pays[m as usize] * i128::from(first.table.factors[m as usize]))
                .sum()
        };
        let (past, to_come) = (worth(0, today - 1), worth(today, f));
        let cut = self.value(harness, &self.cut, today)?;
        self.roll.demand(cut == to_come, || {
            format!("cut in month {today} it is worth {cut}, not {to_come}")
        })?;
        let uncut = self.value(harness, &self.payoff, today)?;
        self.roll.demand(uncut == past + to_come, || {
            format!("uncut in month {today} it is worth {uncut}, not {past} + {to_come}")
        })
    }

    fn value<C: Calls>(
        &self,
        harness: &mut Harness<C>,
        payoff: &[u8],
        now: i64,
    ) -> Result<i128, Fault> {
        let call = Call {
            kind: Kind::Evaluate,
            text: payoff.to_vec(),
            today: now,
            out: 0,
            answer: 1,
            ..self.roll.first.clone()
        };
        let told = harness.compare(&call)?;
        Ok(i128::from(number(told, self.roll, "evaluating")?))
    }
}

fn payment(first: &Call, text: &[u8], today: i64, month: i64) -> Call {
    Call {
        kind: Kind::Payment,
        text: text.to_vec(),
        today,
        month,
        out: 0,
        answer: 1,
        ..first.clone()
    }
}

/// All months from today to f, or some of them where there are many.
fn months_looked_at(today: i64, f: i64) -> Vec<i64> {
    if f - today <= 8 {
        return (today..=f).collect();
    }
    vec![today, today + 1, today + 2, (today + f) / 2, f - 1, f]
}

type Told = Result<interpreter::calls::Answer, interpreter::Refusal>;

fn number(told: Told, roll: &Roll, what: &str) -> Result<i64, Fault> {
    roll.demand(told.is_ok(), || format!("{what} is refused: {told:?}"))?;
    Ok(told.expect("checked just now").numbers[0])
}

fn bytes(told: Told, roll: &Roll, what: &str) -> Result<Vec<u8>, Fault> {
    roll.demand(told.is_ok(), || format!("{what} is refused: {told:?}"))?;
    Ok(told.expect("checked just now").bytes)
}
