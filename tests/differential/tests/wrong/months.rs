//! Wrong with the month step and with payments, "Mistakes near at hand" among them.

use super::{accepted_plan, answers, of_number, right, Wrong};
use differential::calls::{Call, Kind};
use interpreter::amounts::{amount, test, World};
use interpreter::calls::Answer;
use interpreter::step::{filled, stepped};
use interpreter::table::months_of;
use interpreter::traces::direction;
use interpreter::{print, Amount, Delay, Offset, Plan, Refusal};

pub fn all() -> Vec<Wrong> {
    vec![
        answers("copies the plan instead of stepping", |call| {
            on_step(call, |plan, world| filled(plan, world.days))
        }),
        answers("steps every plan to Z", |call| {
            on_step(call, |_, _| Plan::Nothing)
        }),
        answers("steps in month 0 and copies afterwards", |call| {
            on_step(call, |plan, world| match world.month {
                0 => stepped(&filled(plan, world.days), world),
                _ => filled(plan, world.days),
            })
        }),
        answers("moves the offsets in a waiting W", |call| {
            on_step(call, |plan, world| {
                stepping(&filled(plan, world.days), world, Mistake::MovedOffsets)
            })
        }),
        answers("steps past a hit in the last month", |call| {
            on_step(call, |plan, world| {
                stepping(&filled(plan, world.days), world, Mistake::LastHitMissed)
            })
        }),
        answers("waits one more month with d = 0", |call| {
            on_step(call, |plan, world| {
                stepping(&filled(plan, world.days), world, Mistake::OneMoreMonth)
            })
        }),
        answers("replaces an index at offset 1 a month early", |call| {
            on_step(call, |plan, world| {
                stepping(&filled(plan, world.days), world, Mistake::EarlyIndex)
            })
        }),
        // A1's other reading.
        answers("fills only the settings that it comes past", |call| {
            on_step(call, stepped)
        }),
        answers("drops an S whose plan is over", |call| {
            on_step(call, |plan, world| {
                let next = stepped(&filled(plan, world.days), world);
                super::rules::everywhere(next, |plan| match plan {
                    Plan::Scale(_, plan) if *plan == Plan::Nothing => Plan::Nothing,
                    other => other,
                })
            })
        }),
        answers("keeps an L with 0 for another month", |call| {
            on_step(call, |plan, world| match filled(plan, world.days) {
                Plan::Later(Delay::Months(0), plan) => {
                    Plan::Later(Delay::Months(0), Box::new(stepped(&plan, world)))
                }
                plan => stepped(&plan, world),
            })
        }),
        answers("steps only the first of both", |call| {
            on_step(call, |plan, world| {
                stepping(&filled(plan, world.days), world, Mistake::OneOfBoth)
            })
        }),
        answers("writes the first plan of a hit unstepped", |call| {
            on_step(call, |plan, world| {
                stepping(&filled(plan, world.days), world, Mistake::Unstepped)
            })
        }),
        answers("moves no index in the test of a choice", |call| {
            on_step(call, |plan, world| {
                stepping(&filled(plan, world.days), world, Mistake::StillTests)
            })
        }),
        answers("takes today's value for an index of the past", |call| {
            on_step(call, |plan, world| {
                stepping(&filled(plan, world.days), world, Mistake::TodaysValue)
            })
        }),
        answers("pays in the step what is due tomorrow", |call| {
            let mut told = right(call)?;
            if call.kind == Kind::Step && call.today < call.table.f {
                let tomorrow = Call {
                    kind: Kind::Payment,
                    month: call.today + 1,
                    ..call.clone()
                };
                told.numbers[0] = right(&tomorrow)?.numbers[0];
            }
            Ok(told)
        }),
        answers("pays nothing ever", |call| {
            let mut told = right(call)?;
            if call.kind == Kind::Payment {
                told.numbers[0] = 0;
            }
            Ok(told)
        }),
        answers("pays a pair of one party twice", |call| {
            on_payment(call, Mistake::SameParty)
        }),
        answers("pays past a hit in the last month", |call| {
            on_payment(call, Mistake::LastHitMissed)
        }),
        answers("starts the second plan in the first month tried", |call| {
            on_payment(call, Mistake::SecondAtOnce)
        }),
        answers("starts the first plan in the last month tried", |call| {
            on_payment(call, Mistake::FirstAtLast)
        }),
        answers("works amounts out in the month of the payment", |call| {
            on_payment(call, Mistake::LateAmount)
        }),
        answers("rounds quotients towards zero", |call| {
            on_payment(call, Mistake::TowardsZero)
        }),
        answers("takes equal for less", |call| {
            on_payment(call, Mistake::LessOrEqual)
        }),
    ]
}

#[derive(Clone, Copy, PartialEq, Eq)]
enum Mistake {
    MovedOffsets,
    LastHitMissed,
    OneMoreMonth,
    EarlyIndex,
    SecondAtOnce,
    FirstAtLast,
    LateAmount,
    TowardsZero,
    LessOrEqual,
    SameParty,
    OneOfBoth,
    Unstepped,
    StillTests,
    TodaysValue,
}

/// A step that writes another plan.
fn on_step(call: &Call, next: fn(&Plan, World) -> Plan) -> Result<Answer, Refusal> {
    let Some((plan, mut answer)) = accepted_plan(call, Kind::Step) else {
        return right(call);
    };
    answer.bytes = print::plan(&next(&plan, world(call)));
    answer.numbers[1] = answer.bytes.len() as i64;
    Ok(answer)
}

fn world(call: &Call) -> World<'_> {
    World {
        table: &call.table,
        days: &call.days,
        month: call.today,
    }
}

/// The month step of a filled plan, with one mistake.
fn stepping(plan: &Plan, world: World, mistake: Mistake) -> Plan {
    let child = |plan: &Plan| Box::new(stepping(plan, world, mistake));
    match plan {
        Plan::Nothing | Plan::Transfer { .. } => Plan::Nothing,
        Plan::Scale(factor, plan) => Plan::Scale(moved(factor, world, mistake), child(plan)),
        Plan::Later(delay, plan) => match months_of(*delay, world.days) {
            0 => stepping(plan, world, mistake),
            d => Plan::Later(Delay::Months(d - 1), plan.clone()),
        },
        Plan::Both(one, other) if mistake == Mistake::OneOfBoth => {
            Plan::Both(child(one), other.clone())
        }
        Plan::Both(one, other) => Plan::Both(child(one), child(other)),
        Plan::Wait(delay, condition, first, second) => {
            let d = months_of(*delay, world.days);
            let missed = mistake == Mistake::LastHitMissed && d == 0;
            let more = i64::from(mistake == Mistake::OneMoreMonth);
            if test(condition, world) && !missed {
                return match mistake {
                    Mistake::Unstepped => (**first).clone(),
                    _ => stepping(first, world, mistake),
                };
            }
            if d + more == 0 {
                return stepping(second, world, mistake);
            }
            let condition = match (mistake, condition) {
                (Mistake::MovedOffsets, interpreter::Test::Less(one, other)) => {
                    let (one, other) = (moved(one, world, mistake), moved(other, world, mistake));
                    interpreter::Test::Less(one, other)
                }
                _ => condition.clone(),
            };
            let d = Delay::Months((d - 1).max(0));
            Plan::Wait(d, condition, first.clone(), second.clone())
        }
    }
}

fn moved(tree: &Amount<Offset>, world: World, mistake: Mistake) -> Amount<Offset> {
    let early = i64::from(mistake == Mistake::EarlyIndex);
    let child = |tree: &Amount<Offset>| Box::new(moved(tree, world, mistake));
    match tree {
        Amount::Index { label, at } if at.0 <= early => {
            let past = at.0 < 0 && mistake == Mistake::TodaysValue;
            let at = if past { Offset(0) } else { *at };
            Amount::Number(world.observe(*label, at))
        }
        Amount::Index { label, at } => Amount::Index {
            label: *label,
            at: Offset(at.0 - 1),
        },
        Amount::Sum(one, other) => Amount::Sum(child(one), child(other)),
        Amount::Difference(one, other) => Amount::Difference(child(one), child(other)),
        Amount::Product(one, other) => Amount::Product(child(one), child(other)),
        Amount::Quotient(n, tree) => Amount::Quotient(*n, child(tree)),
        Amount::Choice(condition, one, other) if mistake == Mistake::StillTests => {
            Amount::Choice(condition.clone(), child(one), child(other))
        }
        other => right_amount(other, world),
    }
}

/// The amount as a right step leaves it.
fn right_amount(tree: &Amount<Offset>, world: World) -> Amount<Offset> {
    let plan = Plan::Scale(tree.clone(), Box::new(Plan::Nothing));
    match stepped(&plan, world) {
        Plan::Scale(amount, _) => amount,
        _ => unreachable!("an S steps to an S"),
    }
}

/// A payment with one mistake.
fn on_payment(call: &Call, mistake: Mistake) -> Result<Answer, Refusal> {
    let Some((plan, answer)) = accepted_plan(call, Kind::Payment) else {
        return right(call);
    };
    let pence = paying(&plan, world(call), (call.p, call.q), call.month, mistake);
    Ok(of_number(pence).unwrap_or(answer))
}

fn paying(plan: &Plan, world: World, pair: (i64, i64), month: i64, mistake: Mistake) -> i128 {
    let below = |plan: &Plan, d: i64| paying(plan, world.advanced(d), pair, month, mistake);
    match plan {
        Plan::Nothing => 0,
        Plan::Transfer { from, to }
            if mistake == Mistake::SameParty && (*from, *to) == pair && world.month == month =>
        {
            1
        }
        Plan::Transfer { from, to } if world.month == month => direction((*from, *to), pair),
        Plan::Transfer { .. } => 0,
        Plan::Scale(factor, plan) => {
            // Only an index alone is mistaken, so that every read stays in the table.
            let factor = match factor {
                Amount::Index { label, at } if mistake == Mistake::LateAmount => {
                    let late = world.table.value(*label, month + at.0);
                    late.map_or_else(|_| amount(factor, world), i128::from)
                }
                Amount::Quotient(n, dividend) if mistake == Mistake::TowardsZero => {
                    amount(dividend, world) / i128::from(*n)
                }
                factor => amount(factor, world),
            };
            factor * below(plan, 0)
        }
        Plan::Later(delay, plan) => below(plan, months_of(*delay, world.days)),
        Plan::Both(one, other) => below(one, 0) + below(other, 0),
        Plan::Wait(delay, condition, first, second) => {
            let d = months_of(*delay, world.days);
            let holds = |k: &i64| match condition {
                interpreter::Test::Less(one, other) if mistake == Mistake::LessOrEqual => {
                    amount(one, world.advanced(*k)) <= amount(other, world.advanced(*k))
                }
                condition => test(condition, world.advanced(*k)),
            };
            let tried = d - i64::from(mistake == Mistake::LastHitMissed);
            match (0..=tried).find(holds) {
                Some(_) if mistake == Mistake::FirstAtLast => below(first, d),
                Some(k) => below(first, k),
                None if mistake == Mistake::SecondAtOnce && readable(second, world) => {
                    below(second, 0)
                }
                None => below(second, d),
            }
        }
    }
}

/// Whether the plan may stand in the world's month, so that every read stays in the table.
fn readable(plan: &Plan, world: World) -> bool {
    interpreter::accept::accept(plan, world.days, world.table, world.month).is_ok()
}
