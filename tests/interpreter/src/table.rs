//! Tables, settings and pairs: refusals 9, 8 and 12.

use crate::language::{Amount, Delay, Month, Payoff, Plan, Test};
use crate::refusal::Refusal;
use crate::{AMOUNT_LIMIT, EIGHT, HISTORY_LIMIT, MONTH_LIMIT};

/// A table as a call lends it: months -h to f, factors for months 0 to f, as many labels as bounds,
/// and the values label after label, months -h to f.
#[derive(Clone, Debug, Default, PartialEq, Eq)]
pub struct Table {
    pub h: i64,
    pub f: i64,
    pub factors: Vec<i64>,
    pub bounds: Vec<i64>,
    pub values: Vec<i64>,
}

impl Table {
    /// Refusal 9: "a table that breaks a rule above".
    pub fn check(&self) -> Result<(), Refusal> {
        demand((0..=HISTORY_LIMIT).contains(&self.h), Refusal::SpanHistory)?;
        demand((0..=MONTH_LIMIT).contains(&self.f), Refusal::SpanFuture)?;
        // "It has f+1 discount factors for months 0 to f, in millionths, each 0 to 1,000,000."
        demand(
            self.factors.len() as i64 == self.f + 1,
            Refusal::FactorCount,
        )?;
        demand(
            self.factors.iter().all(|n| (0..=1_000_000).contains(n)),
            Refusal::FactorRange,
        )?;
        // "It has up to eight labels, from 0 upward, each with a bound from 0 to 9,000,000,000,000
        // and a value for every month, no value further from zero than the bound."
        demand(self.bounds.len() <= EIGHT, Refusal::TooManyLabels)?;
        demand(
            self.bounds.iter().all(|n| (0..=AMOUNT_LIMIT).contains(n)),
            Refusal::BoundRange,
        )?;
        let months = self.months();
        demand(
            self.values.len() == self.bounds.len() * months,
            Refusal::ValueCount,
        )?;
        let within = |label: usize| {
            let own = &self.values[label * months..][..months];
            own.iter()
                .all(|value| i128::from(*value).abs() <= i128::from(self.bounds[label]))
        };
        demand(
            (0..self.bounds.len()).all(within),
            Refusal::ValueBeyondBound,
        )
    }

    /// How many months -h to f are.
    pub fn months(&self) -> usize {
        (self.h + self.f + 1) as usize
    }

    /// The value of a label in a month; 11 for "a read month outside -h to f .. or an absent label".
    pub fn value(&self, label: usize, month: i64) -> Result<i64, Refusal> {
        self.readable(label, month, month)?;
        Ok(self.values[label * self.months() + (month + self.h) as usize])
    }

    /// Whether the table has the label, and months `from` to `to` lie in -h to f.
    pub fn readable(&self, label: usize, from: i64, to: i64) -> Result<(), Refusal> {
        demand(label < self.bounds.len(), Refusal::LabelAbsent)?;
        demand(from >= -self.h, Refusal::ReadTooEarly)?;
        demand(to <= self.f, Refusal::ReadTooLate)
    }

    /// The discount factor of a month; 11 for "a payoff's leaf month outside 0 to f".
    pub fn factor(&self, month: i64) -> Result<i64, Refusal> {
        demand(month >= 0, Refusal::LeafTooEarly)?;
        demand(month <= self.f, Refusal::LeafTooLate)?;
        Ok(self.factors[month as usize])
    }
}

/// Refusal 12: "today or now outside 0 to f".
pub fn check_today(today: i64, table: &Table) -> Result<(), Refusal> {
    demand((0..=table.f).contains(&today), Refusal::Today)
}

/// Refusal 12: "a party outside 1 to 9".
pub fn check_pair(p: i64, q: i64) -> Result<(), Refusal> {
    demand((1..=9).contains(&p) && (1..=9).contains(&q), Refusal::Party)
}

/// Refusal 8: "more than eight settings, one outside 0 to 600, or an open one used and unset".
/// `used` are the settings that stand anywhere in the text (A2, A10).
pub fn check_settings(days: &[i64], used: &[usize]) -> Result<(), Refusal> {
    demand(days.len() <= EIGHT, Refusal::TooManySettings)?;
    demand(
        days.iter().all(|d| (0..=MONTH_LIMIT).contains(d)),
        Refusal::SettingRange,
    )?;
    demand(
        used.iter().all(|open| *open < days.len()),
        Refusal::SettingUnset,
    )
}

/// "An open d is its setting".
pub fn months_of(delay: Delay, days: &[i64]) -> i64 {
    match delay {
        Delay::Months(d) => d,
        Delay::Setting(open) => days[open],
    }
}

/// The open settings of a plan, as often as they stand in it.
pub fn settings_of_plan(plan: &Plan) -> Vec<usize> {
    match plan {
        Plan::Nothing | Plan::Transfer { .. } => vec![],
        Plan::Scale(_, plan) => settings_of_plan(plan),
        Plan::Later(delay, plan) => joined([settings_of_delay(*delay), settings_of_plan(plan)]),
        Plan::Both(one, other) => joined([settings_of_plan(one), settings_of_plan(other)]),
        Plan::Wait(delay, _, first, second) => joined([
            settings_of_delay(*delay),
            settings_of_plan(first),
            settings_of_plan(second),
        ]),
    }
}

/// The open settings of a payoff: in the delays of its `W`, and in the months of leaves and indices.
pub fn settings_of_payoff(payoff: &Payoff) -> Vec<usize> {
    match payoff {
        Payoff::Nothing => vec![],
        Payoff::Leaf { month, .. } => month.settings.clone(),
        Payoff::Scale(amount, payoff) => {
            joined([settings_of_amount(amount), settings_of_payoff(payoff)])
        }
        Payoff::Both(one, other) => joined([settings_of_payoff(one), settings_of_payoff(other)]),
        Payoff::Wait(delay, test, first, second) => joined([
            settings_of_delay(*delay),
            settings_of_test(test),
            settings_of_payoff(first),
            settings_of_payoff(second),
        ]),
    }
}

fn settings_of_amount(amount: &Amount<Month>) -> Vec<usize> {
    match amount {
        Amount::Number(_) => vec![],
        Amount::Index { at, .. } => at.settings.clone(),
        Amount::Sum(one, other) | Amount::Difference(one, other) | Amount::Product(one, other) => {
            joined([settings_of_amount(one), settings_of_amount(other)])
        }
        Amount::Quotient(_, amount) => settings_of_amount(amount),
        Amount::Choice(test, one, other) => joined([
            settings_of_test(test),
            settings_of_amount(one),
            settings_of_amount(other),
        ]),
    }
}

fn settings_of_test(test: &Test<Month>) -> Vec<usize> {
    match test {
        Test::Less(one, other) | Test::Equal(one, other) => {
            joined([settings_of_amount(one), settings_of_amount(other)])
        }
        Test::And(one, other) | Test::Or(one, other) => {
            joined([settings_of_test(one), settings_of_test(other)])
        }
        Test::Not(test) => settings_of_test(test),
    }
}

fn settings_of_delay(delay: Delay) -> Vec<usize> {
    match delay {
        Delay::Months(_) => vec![],
        Delay::Setting(open) => vec![open],
    }
}

fn joined<const N: usize>(parts: [Vec<usize>; N]) -> Vec<usize> {
    parts.concat()
}

/// The refusal, unless the condition holds.
pub fn demand(condition: bool, refusal: Refusal) -> Result<(), Refusal> {
    if condition {
        Ok(())
    } else {
        Err(refusal)
    }
}
