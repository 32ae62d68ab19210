//! "When a plan is accepted": length (10), reads (11), known in time (7), magnitude (6).

use crate::language::{Amount, Offset, Plan, Test};
use crate::refusal::Refusal;
use crate::table::{demand, months_of, Table};
use crate::AMOUNT_LIMIT;

/// What an accepted plan is told by.
#[derive(Clone, Copy, Debug, PartialEq, Eq)]
pub struct Accepted {
    pub length: i64,
    pub magnitude: i64,
}

/// The four rules in the order "10, 11, 7, 6". Table, today and settings have been checked.
pub fn accept(plan: &Plan, days: &[i64], table: &Table, today: i64) -> Result<Accepted, Refusal> {
    let length = length(plan, days);
    demand(today + length <= table.f, Refusal::Length)?;
    plan_reads(plan, days, table, Roots::only(today))?;
    known_in_time(plan, days)?;
    let magnitude = plan_magnitude(plan, table)?;
    Ok(Accepted {
        length,
        magnitude: magnitude as i64,
    })
}

/// "`Z` and `T` 0; `L` adds d; `B` the greater; `S` its plan's; `W` d plus the greater of its two."
pub fn length(plan: &Plan, days: &[i64]) -> i64 {
    match plan {
        Plan::Nothing | Plan::Transfer { .. } => 0,
        Plan::Later(delay, plan) => months_of(*delay, days) + length(plan, days),
        Plan::Both(one, other) => length(one, days).max(length(other, days)),
        Plan::Scale(_, plan) => length(plan, days),
        Plan::Wait(delay, _, first, second) => {
            months_of(*delay, days) + length(first, days).max(length(second, days))
        }
    }
}

/// The months in which a node may stand; they never have a gap.
#[derive(Clone, Copy, Debug)]
struct Roots {
    earliest: i64,
    latest: i64,
}

impl Roots {
    fn only(month: i64) -> Roots {
        Roots {
            earliest: month,
            latest: month,
        }
    }

    /// Exactly d months later.
    fn later(self, d: i64) -> Roots {
        Roots {
            earliest: self.earliest + d,
            latest: self.latest + d,
        }
    }

    /// Any number of months later up to d.
    fn within(self, d: i64) -> Roots {
        Roots {
            earliest: self.earliest,
            latest: self.latest + d,
        }
    }
}

/// "every month in which an `O` could be read, in each branch and each month that a `W` could start
/// it, lies in -h to f, also where nothing depends on it. Its label is in the table." The first plan
/// of a `W` can start in each month tried, the second only in the last (A3).
fn plan_reads(plan: &Plan, days: &[i64], table: &Table, roots: Roots) -> Result<(), Refusal> {
    match plan {
        Plan::Nothing | Plan::Transfer { .. } => Ok(()),
        Plan::Scale(amount, plan) => {
            amount_reads(amount, table, roots)?;
            plan_reads(plan, days, table, roots)
        }
        Plan::Later(delay, plan) => {
            plan_reads(plan, days, table, roots.later(months_of(*delay, days)))
        }
        Plan::Both(one, other) => {
            plan_reads(one, days, table, roots)?;
            plan_reads(other, days, table, roots)
        }
        Plan::Wait(delay, test, first, second) => {
            let d = months_of(*delay, days);
            test_reads(test, table, roots.within(d))?;
            plan_reads(first, days, table, roots.within(d))?;
            plan_reads(second, days, table, roots.later(d))
        }
    }
}

fn amount_reads(amount: &Amount<Offset>, table: &Table, roots: Roots) -> Result<(), Refusal> {
    match amount {
        Amount::Number(_) => Ok(()),
        Amount::Index { label, at } => {
            table.readable(*label, roots.earliest + at.0, roots.latest + at.0)
        }
        Amount::Sum(one, other) | Amount::Difference(one, other) | Amount::Product(one, other) => {
            amount_reads(one, table, roots)?;
            amount_reads(other, table, roots)
        }
        Amount::Quotient(_, amount) => amount_reads(amount, table, roots),
        Amount::Choice(test, one, other) => {
            test_reads(test, table, roots)?;
            amount_reads(one, table, roots)?;
            amount_reads(other, table, roots)
        }
    }
}

fn test_reads(test: &Test<Offset>, table: &Table, roots: Roots) -> Result<(), Refusal> {
    match test {
        Test::Less(one, other) | Test::Equal(one, other) => {
            amount_reads(one, table, roots)?;
            amount_reads(other, table, roots)
        }
        Test::And(one, other) | Test::Or(one, other) => {
            test_reads(one, table, roots)?;
            test_reads(other, table, roots)
        }
        Test::Not(test) => test_reads(test, table, roots),
    }
}

/// "An `S` needs latest at most first; a `W` needs latest of its test at most 0. Having no latest
/// always passes, and never is later than any month."
fn known_in_time(plan: &Plan, days: &[i64]) -> Result<(), Refusal> {
    match plan {
        Plan::Nothing | Plan::Transfer { .. } => Ok(()),
        Plan::Scale(amount, plan) => {
            let in_time = match (latest_of_amount(amount), first(plan, days)) {
                (None, _) | (_, None) => true,
                (Some(latest), Some(first)) => latest <= first,
            };
            demand(in_time, Refusal::AmountTooLate)?;
            known_in_time(plan, days)
        }
        Plan::Later(_, plan) => known_in_time(plan, days),
        Plan::Both(one, other) => {
            known_in_time(one, days)?;
            known_in_time(other, days)
        }
        Plan::Wait(_, test, one, other) => {
            let in_time = latest_of_test(test).is_none_or(|latest| latest <= 0);
            demand(in_time, Refusal::TestTooLate)?;
            known_in_time(one, days)?;
            known_in_time(other, days)
        }
    }
}

/// "`first` of a plan is the earliest month, counted from the node, in which it may pay: `T` 0; `Z`
/// never; `L` adds d; `B` and `W` the lesser of the two; `S` its plan's." `None` is never.
pub fn first(plan: &Plan, days: &[i64]) -> Option<i64> {
    match plan {
        Plan::Nothing => None,
        Plan::Transfer { .. } => Some(0),
        Plan::Later(delay, plan) => first(plan, days).map(|n| n + months_of(*delay, days)),
        Plan::Both(one, other) | Plan::Wait(_, _, one, other) => {
            let firsts = [first(one, days), first(other, days)];
            firsts.into_iter().flatten().min()
        }
        Plan::Scale(_, plan) => first(plan, days),
    }
}

/// "`latest` of an amount or test is its greatest offset, over all its parts; without an `O` it has
/// none."
pub fn latest_of_amount(amount: &Amount<Offset>) -> Option<i64> {
    match amount {
        Amount::Number(_) => None,
        Amount::Index { at, .. } => Some(at.0),
        Amount::Sum(one, other) | Amount::Difference(one, other) | Amount::Product(one, other) => {
            latest_of_amount(one).max(latest_of_amount(other))
        }
        Amount::Quotient(_, amount) => latest_of_amount(amount),
        Amount::Choice(test, one, other) => latest_of_test(test)
            .max(latest_of_amount(one))
            .max(latest_of_amount(other)),
    }
}

/// See [`latest_of_amount`].
pub fn latest_of_test(test: &Test<Offset>) -> Option<i64> {
    match test {
        Test::Less(one, other) | Test::Equal(one, other) => {
            latest_of_amount(one).max(latest_of_amount(other))
        }
        Test::And(one, other) | Test::Or(one, other) => {
            latest_of_test(one).max(latest_of_test(other))
        }
        Test::Not(test) => latest_of_test(test),
    }
}

/// "`N` its distance from zero; `O` its bound; `A`, `U` sum; `K` product; `Q` its amount's; `I` the
/// greater; `Z` 0; `T` 1; `S` product; `B` sum; `L` its plan's; `W` the greater. At every node, those
/// in tests too, it is at most 9,000,000,000,000."
fn plan_magnitude(plan: &Plan, table: &Table) -> Result<i128, Refusal> {
    limited(match plan {
        Plan::Nothing => 0,
        Plan::Transfer { .. } => 1,
        Plan::Scale(amount, plan) => {
            amount_magnitude(amount, table)? * plan_magnitude(plan, table)?
        }
        Plan::Later(_, plan) => plan_magnitude(plan, table)?,
        Plan::Both(one, other) => plan_magnitude(one, table)? + plan_magnitude(other, table)?,
        Plan::Wait(_, test, one, other) => {
            test_magnitudes(test, table)?;
            plan_magnitude(one, table)?.max(plan_magnitude(other, table)?)
        }
    })
}

fn amount_magnitude(amount: &Amount<Offset>, table: &Table) -> Result<i128, Refusal> {
    let of = |amount| amount_magnitude(amount, table);
    limited(match amount {
        Amount::Number(n) => i128::from(*n).abs(),
        Amount::Index { label, .. } => i128::from(table.bounds[*label]),
        Amount::Sum(one, other) | Amount::Difference(one, other) => of(one)? + of(other)?,
        Amount::Product(one, other) => of(one)? * of(other)?,
        Amount::Quotient(_, amount) => of(amount)?,
        Amount::Choice(test, one, other) => {
            test_magnitudes(test, table)?;
            of(one)?.max(of(other)?)
        }
    })
}

/// A test has no magnitude of its own, but its amounts are held to the limit (A13).
fn test_magnitudes(test: &Test<Offset>, table: &Table) -> Result<(), Refusal> {
    match test {
        Test::Less(one, other) | Test::Equal(one, other) => {
            amount_magnitude(one, table)?;
            amount_magnitude(other, table)?;
            Ok(())
        }
        Test::And(one, other) | Test::Or(one, other) => {
            test_magnitudes(one, table)?;
            test_magnitudes(other, table)
        }
        Test::Not(test) => test_magnitudes(test, table),
    }
}

fn limited(magnitude: i128) -> Result<i128, Refusal> {
    demand(magnitude <= i128::from(AMOUNT_LIMIT), Refusal::Magnitude)?;
    Ok(magnitude)
}
