//! Wrong with the rules of acceptance.

use super::{accepted_plan, answers, right, Wrong};
use differential::calls::{Call, Kind};
use interpreter::table::months_of;
use interpreter::{print, read, Amount, Offset, Plan, Refusal, Test};

pub fn all() -> Vec<Wrong> {
    vec![
        answers("refuses all plans", |call| match call.kind {
            Kind::Check => right(call).and(Err(Refusal::Magnitude)),
            _ => right(call),
        }),
        answers("accepts all plans that can be read", |call| {
            let told = right(call);
            match (&told, call.kind) {
                (Err(refusal), Kind::Check) if (6..=7).contains(&refusal.number()) => {
                    Ok(interpreter::calls::Answer {
                        numbers: vec![0, 0],
                        bytes: vec![],
                    })
                }
                _ => told,
            }
        }),
        answers("takes the length of a wait from its first plan", |call| {
            fn length(plan: &Plan, days: &[i64]) -> i64 {
                match plan {
                    Plan::Nothing | Plan::Transfer { .. } => 0,
                    Plan::Scale(_, plan) => length(plan, days),
                    Plan::Later(d, plan) => months_of(*d, days) + length(plan, days),
                    Plan::Both(one, other) => length(one, days).max(length(other, days)),
                    Plan::Wait(d, _, first, _) => months_of(*d, days) + length(first, days),
                }
            }
            match accepted_plan(call, Kind::Check) {
                Some((plan, mut answer)) => {
                    answer.numbers[0] = length(&plan, &call.days);
                    Ok(answer)
                }
                None => right(call),
            }
        }),
        answers(
            "lets the amounts of tests into the magnitude",
            |call| match accepted_plan(call, Kind::Check) {
                Some((Plan::Wait(_, Test::Less(Amount::Number(n), _), _, _), mut answer)) => {
                    answer.numbers[1] = answer.numbers[1].max(n.abs());
                    Ok(answer)
                }
                _ => right(call),
            },
        ),
        answers("does not add today to the length", |call| {
            match right(call) {
                Err(Refusal::Length) => right(&Call {
                    today: 0,
                    month: call.month.max(0),
                    ..call.clone()
                }),
                told => told,
            }
        }),
        // A3's other reading, nearly: the second plan may start in each month tried.
        answers("starts the second plan in each month tried", |call| {
            let told = right(call);
            if told.is_ok() && matches!(call.kind, Kind::Check | Kind::Step) {
                let swapped = |plan| match plan {
                    Plan::Wait(d, test, one, other) => Plan::Wait(d, test, other, one),
                    other => other,
                };
                if let Err(Refusal::ReadTooEarly) = changed(call, swapped) {
                    return Err(Refusal::ReadTooEarly);
                }
            }
            told
        }),
        answers("reads no amount over a plan that pays nothing", |call| {
            let told = right(call);
            let idle = |plan| match plan {
                Plan::Scale(_, plan) if *plan == Plan::Nothing => Plan::Nothing,
                other => other,
            };
            match (&told, call.kind) {
                (Err(refusal), Kind::Check) if refusal.number() == 11 => changed(call, idle),
                _ => told,
            }
        }),
        answers("lets a wait pay its second plan d months later", |call| {
            // For `first` alone: the wait as both its plans, the second delayed.
            let told = right(call);
            let opened = |plan| match plan {
                Plan::Wait(d, test, one, other) => {
                    let never = Box::new(Plan::Nothing);
                    let later = Box::new(Plan::Later(d, other));
                    Plan::Both(Box::new(Plan::Wait(d, test, one, never)), later)
                }
                other => other,
            };
            match (&told, call.kind) {
                (Err(Refusal::AmountTooLate), Kind::Check) => changed(call, opened),
                _ => told,
            }
        }),
        answers(
            "lets a wait's test read the next month",
            |call| match right(call) {
                Err(Refusal::TestTooLate) if call.kind == Kind::Check => {
                    let read_now = |plan| match plan {
                        Plan::Wait(d, test, one, other) => {
                            Plan::Wait(d, a_month_less(test), one, other)
                        }
                        other => other,
                    };
                    changed(call, read_now)
                }
                told => told,
            },
        ),
        answers("holds only whole plans to the magnitude", |call| {
            // An amount beyond the limit over `Z` passes, as the product is 0.
            let idle = |plan| match plan {
                Plan::Scale(_, plan) if *plan == Plan::Nothing => Plan::Nothing,
                other => other,
            };
            match right(call) {
                Err(Refusal::Magnitude) if call.kind == Kind::Check => changed(call, idle),
                told => told,
            }
        }),
        answers("reads the test of a wait only in its first month", |call| {
            let told = right(call);
            let without = |plan| match plan {
                Plan::Wait(d, _, one, other) => {
                    let zero = || Amount::Number(0);
                    Plan::Wait(d, Test::Equal(zero(), zero()), one, other)
                }
                other => other,
            };
            match (&told, call.kind) {
                (Err(Refusal::ReadTooLate), Kind::Check) => changed(call, without),
                _ => told,
            }
        }),
        answers(
            "starts the first plan only in the first month tried",
            |call| {
                let told = right(call);
                let swapped = |plan| match plan {
                    Plan::Wait(d, test, one, other) => {
                        let never = Box::new(Plan::Nothing);
                        Plan::Both(Box::new(Plan::Wait(d, test, never, other)), one)
                    }
                    other => other,
                };
                match (&told, call.kind) {
                    (Err(Refusal::ReadTooLate), Kind::Check) => changed(call, swapped),
                    _ => told,
                }
            },
        ),
        answers("takes the greater magnitude of both", |call| {
            fn magnitude(plan: &Plan) -> i64 {
                match plan {
                    Plan::Transfer { .. } => 1,
                    Plan::Both(one, other) => magnitude(one).max(magnitude(other)),
                    _ => 0,
                }
            }
            match accepted_plan(call, Kind::Check) {
                Some((plan @ Plan::Both(..), mut answer)) if magnitude(&plan) > 0 => {
                    answer.numbers[1] = answer.numbers[1].min(magnitude(&plan));
                    Ok(answer)
                }
                _ => right(call),
            }
        }),
        answers("accepts today beyond f", |call| match right(call) {
            Err(Refusal::Today) if call.today == call.table.f + 1 => right(&Call {
                today: call.table.f,
                ..call.clone()
            }),
            told => told,
        }),
        answers(
            "answers payments of months before today",
            |call| match right(call) {
                Err(Refusal::MonthAsked) if call.month < call.today => {
                    super::of_number(0).ok_or(Refusal::MonthAsked)
                }
                told => told,
            },
        ),
        answers("does not miss an unset setting", |call| match right(call) {
            Err(Refusal::SettingUnset) => {
                let mut days = call.days.clone();
                days.resize(8, 0);
                right(&Call {
                    days,
                    ..call.clone()
                })
            }
            told => told,
        }),
        answers("takes 7 before 11", |call| match right(call) {
            Err(refusal) if refusal.number() == 11 && call.kind == Kind::Check => {
                let mut wide = call.clone();
                wide.table.bounds.resize(8, 0);
                let months = 661;
                (wide.table.h, wide.table.f) = (60, 600);
                wide.table.factors = vec![0; 601];
                wide.table.values = vec![0; 8 * months];
                match right(&wide) {
                    Err(late) if late.number() == 7 => Err(late),
                    _ => Err(refusal),
                }
            }
            told => told,
        }),
    ]
}

/// The answer to the same call on a plan changed at every node, innermost first.
fn changed(call: &Call, change: fn(Plan) -> Plan) -> Result<interpreter::calls::Answer, Refusal> {
    let plan = everywhere(read::plan(&call.text)?, change);
    right(&Call {
        text: print::plan(&plan),
        ..call.clone()
    })
}

/// A plan with every node changed, innermost first.
pub fn everywhere(plan: Plan, change: fn(Plan) -> Plan) -> Plan {
    let child = |plan: Box<Plan>| Box::new(everywhere(*plan, change));
    change(match plan {
        Plan::Nothing | Plan::Transfer { .. } => plan,
        Plan::Scale(amount, plan) => Plan::Scale(amount, child(plan)),
        Plan::Later(d, plan) => Plan::Later(d, child(plan)),
        Plan::Both(one, other) => Plan::Both(child(one), child(other)),
        Plan::Wait(d, test, one, other) => Plan::Wait(d, test, child(one), child(other)),
    })
}

fn a_month_less(test: Test<Offset>) -> Test<Offset> {
    let amount = |amount: Amount<Offset>| match amount {
        Amount::Index { label, at } if at.0 == 1 => Amount::Index {
            label,
            at: Offset(0),
        },
        other => other,
    };
    match test {
        Test::Less(one, other) => Test::Less(amount(one), amount(other)),
        Test::Equal(one, other) => Test::Equal(amount(one), amount(other)),
        other => other,
    }
}
