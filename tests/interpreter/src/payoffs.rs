//! Compiling, cutting and evaluating (document 000, sections 2.3 and 2.4).

use crate::amounts::quotient;
use crate::language::{Amount, Delay, Month, Offset, Payoff, Plan, Test};
use crate::refusal::Refusal;
use crate::table::{demand, months_of, Table};
use crate::traces::direction;
use crate::{AMOUNT_LIMIT, VALUE_LIMIT};

/// τ⟦plan⟧: its payoff, compiled from month 0.
pub fn compiled(plan: &Plan) -> Payoff {
    compiled_plan(plan, &Month::of(0))
}

/// tplus: the month with one more delay in it, settings "lowest first".
fn plus(month: &Month, delay: Delay) -> Month {
    let mut sum = month.clone();
    match delay {
        Delay::Months(d) => sum.number += d,
        Delay::Setting(open) => {
            sum.settings.push(open);
            sum.settings.sort_unstable();
        }
    }
    sum
}

/// A month is "the sum of all delays above, and for an `O` its offset too".
fn compiled_plan(plan: &Plan, month: &Month) -> Payoff {
    let child = |plan: &Plan| Box::new(compiled_plan(plan, month));
    match plan {
        Plan::Nothing => Payoff::Nothing,
        Plan::Transfer { from, to } => Payoff::Leaf {
            cut: false,
            month: month.clone(),
            from: *from,
            to: *to,
        },
        Plan::Scale(amount, plan) => Payoff::Scale(compiled_amount(amount, month), child(plan)),
        Plan::Later(delay, plan) => compiled_plan(plan, &plus(month, *delay)),
        Plan::Both(one, other) => Payoff::Both(child(one), child(other)),
        Plan::Wait(delay, test, first, second) => Payoff::Wait(
            *delay,
            compiled_test(test, month),
            child(first),
            child(second),
        ),
    }
}

fn compiled_amount(amount: &Amount<Offset>, month: &Month) -> Amount<Month> {
    let child = |amount: &Amount<Offset>| Box::new(compiled_amount(amount, month));
    match amount {
        Amount::Number(n) => Amount::Number(*n),
        Amount::Index { label, at } => Amount::Index {
            label: *label,
            at: plus(month, Delay::Months(at.0)),
        },
        Amount::Sum(one, other) => Amount::Sum(child(one), child(other)),
        Amount::Difference(one, other) => Amount::Difference(child(one), child(other)),
        Amount::Product(one, other) => Amount::Product(child(one), child(other)),
        Amount::Quotient(n, amount) => Amount::Quotient(*n, child(amount)),
        Amount::Choice(test, one, other) => Amount::Choice(
            Box::new(compiled_test(test, month)),
            child(one),
            child(other),
        ),
    }
}

fn compiled_test(test: &Test<Offset>, month: &Month) -> Test<Month> {
    let amount = |amount: &Amount<Offset>| compiled_amount(amount, month);
    let child = |test: &Test<Offset>| Box::new(compiled_test(test, month));
    match test {
        Test::Less(one, other) => Test::Less(amount(one), amount(other)),
        Test::Equal(one, other) => Test::Equal(amount(one), amount(other)),
        Test::And(one, other) => Test::And(child(one), child(other)),
        Test::Or(one, other) => Test::Or(child(one), child(other)),
        Test::Not(test) => Test::Not(child(test)),
    }
}

/// cutPayoff: "Cutting turns every `F` into `H`."
pub fn cut(payoff: &Payoff) -> Payoff {
    let child = |payoff: &Payoff| Box::new(cut(payoff));
    match payoff {
        Payoff::Nothing => Payoff::Nothing,
        Payoff::Leaf {
            month, from, to, ..
        } => Payoff::Leaf {
            cut: true,
            month: month.clone(),
            from: *from,
            to: *to,
        },
        Payoff::Scale(amount, payoff) => Payoff::Scale(amount.clone(), child(payoff)),
        Payoff::Both(one, other) => Payoff::Both(child(one), child(other)),
        Payoff::Wait(delay, test, first, second) => {
            Payoff::Wait(*delay, test.clone(), child(first), child(second))
        }
    }
}

/// What a payoff is evaluated with. `waited` is t₀ of figure 2.8: "a `W` adds the months it has
/// waited to every month beneath".
#[derive(Clone, Copy, Debug)]
pub struct Valuation<'a> {
    pub table: &'a Table,
    pub days: &'a [i64],
    pub now: i64,
    pub pair: (i64, i64),
    pub waited: i64,
}

impl Valuation<'_> {
    fn waiting(self, months: i64) -> Self {
        Valuation {
            waited: self.waited + months,
            ..self
        }
    }

    fn month(&self, month: &Month) -> i64 {
        let open: i64 = month.settings.iter().map(|p| self.days[*p]).sum();
        month.number + open + self.waited
    }

    /// ℐℒ⟦payoff⟧: its value in millionths of a penny. "11 and 14 come as evaluation meets them ..:
    /// children left to right, only the chosen branch".
    pub fn value(self, payoff: &Payoff) -> Result<i128, Refusal> {
        match payoff {
            Payoff::Nothing => Ok(0),
            Payoff::Leaf {
                cut,
                month,
                from,
                to,
            } => {
                let month = self.month(month);
                // "A leaf's month is checked also where the leaf is worth 0."
                let factor = i128::from(self.table.factor(month)?);
                // "An `H` leaf before now is worth 0."
                if *cut && month < self.now {
                    return Ok(0);
                }
                Ok(direction((*from, *to), self.pair) * factor)
            }
            // "`S` multiplies, `B` adds."
            Payoff::Scale(amount, payoff) => {
                let amount = self.amount(amount)?;
                let value = self.value(payoff)?;
                limited(amount * value, VALUE_LIMIT, Refusal::ScaleRange)
            }
            Payoff::Both(one, other) => {
                let one = self.value(one)?;
                let other = self.value(other)?;
                limited(one + other, VALUE_LIMIT, Refusal::BothRange)
            }
            Payoff::Wait(delay, condition, first, second) => {
                let d = months_of(*delay, self.days);
                for k in 0..=d {
                    if self.waiting(k).test(condition)? {
                        return self.waiting(k).value(first);
                    }
                }
                self.waiting(d).value(second)
            }
        }
    }

    /// An amount, 14 where it lies "beyond 9×10^12 .. either side of zero".
    pub fn amount(self, amount: &Amount<Month>) -> Result<i128, Refusal> {
        let limit = i128::from(AMOUNT_LIMIT);
        match amount {
            Amount::Number(n) => Ok(i128::from(*n)),
            Amount::Index { label, at } => {
                Ok(i128::from(self.table.value(*label, self.month(at))?))
            }
            Amount::Sum(one, other) => {
                let (one, other) = (self.amount(one)?, self.amount(other)?);
                limited(one + other, limit, Refusal::SumRange)
            }
            Amount::Difference(one, other) => {
                let (one, other) = (self.amount(one)?, self.amount(other)?);
                limited(one - other, limit, Refusal::DifferenceRange)
            }
            Amount::Product(one, other) => {
                let (one, other) = (self.amount(one)?, self.amount(other)?);
                limited(one * other, limit, Refusal::ProductRange)
            }
            Amount::Quotient(n, amount) => Ok(quotient(self.amount(amount)?, *n)),
            Amount::Choice(test, one, other) => {
                if self.test(test)? {
                    self.amount(one)
                } else {
                    self.amount(other)
                }
            }
        }
    }

    /// A test; "`Y` and `V` try both sides".
    pub fn test(self, test: &Test<Month>) -> Result<bool, Refusal> {
        Ok(match test {
            Test::Less(one, other) => {
                let (one, other) = (self.amount(one)?, self.amount(other)?);
                one < other
            }
            Test::Equal(one, other) => {
                let (one, other) = (self.amount(one)?, self.amount(other)?);
                one == other
            }
            Test::And(one, other) => {
                let (one, other) = (self.test(one)?, self.test(other)?);
                one && other
            }
            Test::Or(one, other) => {
                let (one, other) = (self.test(one)?, self.test(other)?);
                one || other
            }
            Test::Not(test) => !self.test(test)?,
        })
    }
}

fn limited(number: i128, limit: i128, refusal: Refusal) -> Result<i128, Refusal> {
    demand(number.abs() <= limit, refusal)?;
    Ok(number)
}
