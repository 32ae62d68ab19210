//! The sheet program: from its input to the lines it prints.

use crate::accept::{accept, Accepted};
use crate::amounts::World;
use crate::language::{Payoff, Plan};
use crate::payoffs::{compiled, cut, Valuation};
use crate::read::{self, whole_number};
use crate::refusal::Refusal;
use crate::table::{check_pair, check_settings, check_today, demand, settings_of_plan, Table};
use crate::traces::contract;
use crate::AMOUNT_LIMIT;
use std::fmt::Write;

/// "`sheet` reads standard input, at most 60,000 bytes".
pub const SHEET_BYTES: usize = 60_000;

/// A sheet without a fault of its own; its numbers may still lie outside their ranges.
#[derive(Clone, Debug, PartialEq, Eq)]
pub struct Sheet {
    pub plan: Vec<u8>,
    pub days: Vec<i64>,
    pub table: Table,
    pub pair: (i64, i64),
}

/// All that the program prints. "A refused sheet prints only the line `refused,` and the number."
pub fn printed(input: &[u8]) -> Vec<u8> {
    match lines(input) {
        Ok(text) => text.into_bytes(),
        Err(refusal) => format!("refused,{}\n", refusal.number()).into_bytes(),
    }
}

/// "accepted, length, magnitude; then a line a month from 0 to f: month, pence paid from first to
/// second, value cut at that month."
pub fn lines(input: &[u8]) -> Result<String, Refusal> {
    let sheet = read_sheet(input)?;
    let (plan, accepted) = accept_sheet(&sheet)?;
    let payoff: Payoff = cut(&compiled(&plan));
    let world = World {
        table: &sheet.table,
        days: &sheet.days,
        month: 0,
    };
    let trace = contract(&plan, world, sheet.pair);
    let mut text = format!("accepted,{},{}\n", accepted.length, accepted.magnitude);
    for month in 0..=sheet.table.f {
        let valuation = Valuation {
            table: &sheet.table,
            days: &sheet.days,
            now: month,
            pair: sheet.pair,
            waited: 0,
        };
        let value = valuation
            .value(&payoff)
            .expect("the payoff of an accepted plan has a value");
        writeln!(text, "{month},{},{value}", trace.at(month)).expect("a String takes all");
    }
    Ok(text)
}

/// "Ranges come in the order above. Today is 0."
pub fn accept_sheet(sheet: &Sheet) -> Result<(Plan, Accepted), Refusal> {
    let plan = read::plan(&sheet.plan)?;
    sheet.table.check()?;
    check_today(0, &sheet.table)?;
    check_pair(sheet.pair.0, sheet.pair.1)?;
    check_settings(&sheet.days, &settings_of_plan(&plan))?;
    let accepted = accept(&plan, &sheet.days, &sheet.table, 0)?;
    Ok((plan, accepted))
}

/// "A sheet too long is 1. A fault of the sheet itself is 2 and is looked for before the plan is
/// read". Lines in order: "plan; days ..; span (h, f); factors; pair; one index line a label".
pub fn read_sheet(input: &[u8]) -> Result<Sheet, Refusal> {
    demand(input.len() <= SHEET_BYTES, Refusal::SheetTooLong)?;
    let mut lines: Vec<&[u8]> = input.split(|byte| *byte == b'\n').collect();
    // "each ended by a line feed": behind the last one stands nothing.
    demand(lines.pop() == Some(b""), Refusal::LineUnended)?;
    let mut lines = lines.into_iter();
    let mut next = |word: &str| {
        let line = lines.next().ok_or(Refusal::LineMissing)?;
        after_word(line, word.as_bytes()).ok_or(Refusal::WrongFirstWord)
    };

    let plan = next("plan")?.ok_or(Refusal::FieldCount)?.to_vec();
    // "days (settings, may have none, then the word alone)"
    let days = numbers(next("days")?)?;
    // "a field too few or too many in a span or pair line"
    let [h, f] = exactly_two(numbers(next("span")?)?)?;
    let factors = numbers(next("factors")?)?;
    // "a count of factors (f+1) or of a label's values (h+f+1) that is 0 or doesn't fit the span"
    demand(
        !factors.is_empty() && factors.len() as i64 == f + 1,
        Refusal::FactorsUnfit,
    )?;
    let [p, q] = exactly_two(numbers(next("pair")?)?)?;

    let (mut bounds, mut values) = (vec![], vec![]);
    for line in lines {
        let fields = after_word(line, b"index").ok_or(Refusal::LineLeftover)?;
        let fields = numbers(fields)?;
        // "an index line without label or bound"
        let [label, bound, own @ ..] = fields.as_slice() else {
            return Err(Refusal::IndexWithoutBound);
        };
        // "a label that isn't the next"
        demand(*label == bounds.len() as i64, Refusal::LabelNotNext)?;
        demand(
            !own.is_empty() && own.len() as i64 == h + f + 1,
            Refusal::ValuesUnfit,
        )?;
        bounds.push(*bound);
        values.extend_from_slice(own);
    }
    Ok(Sheet {
        plan,
        days,
        table: Table {
            h,
            f,
            factors,
            bounds,
            values,
        },
        pair: (p, q),
    })
}

/// What stands behind the first word and its comma (`Some(None)` where the word stands alone);
/// `None` where the first word is another.
fn after_word<'a>(line: &'a [u8], word: &[u8]) -> Option<Option<&'a [u8]>> {
    match line.strip_prefix(word)? {
        [] => Some(None),
        [b',', rest @ ..] => Some(Some(rest)),
        _ => None,
    }
}

/// The numbers behind a first word: "a malformed number or one beyond 9×10^12 either side of zero"
/// is a fault.
fn numbers(fields: Option<&[u8]>) -> Result<Vec<i64>, Refusal> {
    let Some(fields) = fields else {
        return Ok(vec![]);
    };
    fields
        .split(|byte| *byte == b',')
        .map(|field| whole_number(field, -AMOUNT_LIMIT, AMOUNT_LIMIT))
        .collect::<Option<Vec<i64>>>()
        .ok_or(Refusal::NumberMalformed)
}

fn exactly_two(numbers: Vec<i64>) -> Result<[i64; 2], Refusal> {
    numbers.try_into().map_err(|_| Refusal::FieldCount)
}
