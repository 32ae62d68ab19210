//! The seven calls, each a function from what the caller lends to the refusal or the answer. What
//! the caller lends for the answer counts only by its length: "13 output buffer too short for the
//! whole answer" is always last.

use crate::accept::{accept, Accepted};
use crate::amounts::World;
use crate::language::Plan;
use crate::payoffs::{compiled, cut as cut_payoff, Valuation};
use crate::refusal::Refusal;
use crate::step::{filled, stepped};
use crate::table::{
    check_pair, check_settings, check_today, demand, settings_of_payoff, settings_of_plan, Table,
};
use crate::traces::contract;
use crate::{print, read, sheet as sheets};

/// What an accepted call writes: numbers into `answer`, bytes into `out`, both from the first place.
#[derive(Clone, Debug, Default, PartialEq, Eq)]
pub struct Answer {
    pub numbers: Vec<i64>,
    pub bytes: Vec<u8>,
}

/// Room that the caller lends for the answer.
#[derive(Clone, Copy, Debug, PartialEq, Eq)]
pub struct Room {
    pub out: usize,
    pub answer: usize,
}

/// The inputs that calls on a plan share.
#[derive(Clone, Copy, Debug)]
pub struct Given<'a> {
    pub text: &'a [u8],
    pub days: &'a [i64],
    pub table: &'a Table,
    /// Today, or now for a payoff.
    pub today: i64,
}

impl<'a> Given<'a> {
    /// The plan's text and "then 9, 12, 8, 10, 11, 7, 6"; `asked` are the call's own rules of 12.
    fn accepted(
        self,
        asked: impl Fn() -> Result<(), Refusal>,
    ) -> Result<(Plan, Accepted), Refusal> {
        let plan = read::plan(self.text)?;
        self.table.check()?;
        check_today(self.today, self.table)?;
        asked()?;
        check_settings(self.days, &settings_of_plan(&plan))?;
        let accepted = accept(&plan, self.days, self.table, self.today)?;
        Ok((plan, accepted))
    }

    fn world(self) -> World<'a> {
        World {
            table: self.table,
            days: self.days,
            month: self.today,
        }
    }
}

/// `check`: length and magnitude.
pub fn check(given: Given, room: Room) -> Result<Answer, Refusal> {
    let (_, accepted) = given.accepted(|| Ok(()))?;
    numbers_only(vec![accepted.length, accepted.magnitude], room)
}

/// `payment`: the pence that p pays q in the month asked; "a month outside today to f is 12".
pub fn payment(
    given: Given,
    (p, q): (i64, i64),
    month: i64,
    room: Room,
) -> Result<Answer, Refusal> {
    let (plan, _) = given.accepted(|| {
        check_pair(p, q)?;
        let askable = given.today..=given.table.f;
        demand(askable.contains(&month), Refusal::MonthAsked)
    })?;
    let trace = contract(&plan, given.world(), (p, q));
    numbers_only(vec![narrow(trace.at(month - given.today))], room)
}

/// `step`: the pence paid today and the plan for tomorrow.
pub fn step(given: Given, (p, q): (i64, i64), room: Room) -> Result<Answer, Refusal> {
    let (plan, _) = given.accepted(|| check_pair(p, q))?;
    let plan = filled(&plan, given.days);
    let pence = narrow(contract(&plan, given.world(), (p, q)).at(0));
    let bytes = print::plan(&stepped(&plan, given.world()));
    fitting(
        Answer {
            numbers: vec![pence, bytes.len() as i64],
            bytes,
        },
        room,
    )
}

/// `compile`: the payoff's text. "Compiling needs no settings and no table."
pub fn compile(plan: &[u8], room: Room) -> Result<Answer, Refusal> {
    let payoff = compiled(&read::plan(plan)?);
    bytes_only(print::payoff(&payoff), room)
}

/// `cut`: the cut payoff's text.
pub fn cut(payoff: &[u8], room: Room) -> Result<Answer, Refusal> {
    let payoff = cut_payoff(&read::payoff(payoff)?);
    bytes_only(print::payoff(&payoff), room)
}

/// `evaluate`: the payoff's value in millionths of a penny.
pub fn evaluate(given: Given, (p, q): (i64, i64), room: Room) -> Result<Answer, Refusal> {
    let payoff = read::payoff(given.text)?;
    given.table.check()?;
    check_today(given.today, given.table)?;
    check_pair(p, q)?;
    check_settings(given.days, &settings_of_payoff(&payoff))?;
    let valuation = Valuation {
        table: given.table,
        days: given.days,
        now: given.today,
        pair: (p, q),
        waited: 0,
    };
    numbers_only(vec![narrow(valuation.value(&payoff)?)], room)
}

/// `sheet`: the sheet's lines, or its `refused,` line, which is no refusal of the call.
pub fn sheet(input: &[u8], room: Room) -> Result<Answer, Refusal> {
    bytes_only(sheets::printed(input), room)
}

fn numbers_only(numbers: Vec<i64>, room: Room) -> Result<Answer, Refusal> {
    let bytes = vec![];
    fitting(Answer { numbers, bytes }, room)
}

fn bytes_only(bytes: Vec<u8>, room: Room) -> Result<Answer, Refusal> {
    let numbers = vec![bytes.len() as i64];
    fitting(Answer { numbers, bytes }, room)
}

fn fitting(answer: Answer, room: Room) -> Result<Answer, Refusal> {
    demand(answer.bytes.len() <= room.out, Refusal::OutTooShort)?;
    demand(answer.numbers.len() <= room.answer, Refusal::AnswerTooShort)?;
    Ok(answer)
}

/// Pence of an accepted plan and values up to 9×10^18 fit the caller's numbers.
fn narrow(number: i128) -> i64 {
    i64::try_from(number).expect("in range by the rules of magnitude and value")
}
