//! Wrong with the values of payoffs.

use super::{answers, of_number, right, Wrong};
use differential::calls::{Call, Kind};
use interpreter::calls::Answer;
use interpreter::payoffs::Valuation;
use interpreter::table::months_of;
use interpreter::{read, Month, Payoff, Refusal, Test};

pub fn all() -> Vec<Wrong> {
    vec![
        answers("cuts the payments of month now", |call| {
            let mut later = call.clone();
            if call.kind == Kind::Evaluate && call.today < call.table.f {
                later.today += 1;
            }
            right(&later)
        }),
        answers("cuts the payments of an F too", |call| match call.kind {
            Kind::Evaluate => {
                let payoff = read::payoff(&call.text)?;
                right(&Call {
                    text: interpreter::print::payoff(&interpreter::payoffs::cut(&payoff)),
                    ..call.clone()
                })
            }
            _ => right(call),
        }),
        answers("values the pair the other way round", |call| {
            match call.kind {
                Kind::Evaluate => right(&Call {
                    p: call.q,
                    q: call.p,
                    ..call.clone()
                }),
                _ => right(call),
            }
        }),
        answers(
            "tries the second side of Y and V only where needed",
            |call| {
                on_value(call, |payoff, valuation| {
                    valuing(payoff, valuation, Mistake::Lazy)
                })
            },
        ),
        answers("evaluates nothing beneath an amount of 0", |call| {
            on_value(call, |payoff, valuation| {
                valuing(payoff, valuation, Mistake::SkipsZero)
            })
        }),
        answers("checks no month of a leaf of other parties", |call| {
            on_value(call, |payoff, valuation| {
                valuing(payoff, valuation, Mistake::OwnLeavesOnly)
            })
        }),
        answers("checks no month of a leaf before now", |call| {
            on_value(call, |payoff, valuation| {
                valuing(payoff, valuation, Mistake::LaterLeavesOnly)
            })
        }),
        answers("adds no waited months to leaves", |call| {
            on_value(call, |payoff, valuation| {
                valuing(payoff, valuation, Mistake::LeavesStay)
            })
        }),
        answers("adds no waited months to indices", |call| {
            on_value(call, |payoff, valuation| {
                valuing(payoff, valuation, Mistake::IndicesStay)
            })
        }),
        answers("starts the second payoff without waiting", |call| {
            on_value(call, |payoff, valuation| {
                valuing(payoff, valuation, Mistake::SecondAtOnce)
            })
        }),
        answers("values both branches of a wait", |call| {
            on_value(call, |payoff, valuation| {
                valuing(payoff, valuation, Mistake::BothBranches)
            })
        }),
        answers("takes a hit in the last month for a miss", |call| {
            on_value(call, |payoff, valuation| {
                valuing(payoff, valuation, Mistake::LastHitMissed)
            })
        }),
        answers("tries the plan before the amount", |call| {
            on_value(call, |payoff, valuation| {
                valuing(payoff, valuation, Mistake::PlanFirst)
            })
        }),
        answers("lets products wrap", |call| {
            on_value(call, |payoff, valuation| {
                valuing(payoff, valuation, Mistake::Wraps)
            })
        }),
        answers("refuses a value at the limit", |call| match right(call) {
            Ok(told)
                if call.kind == Kind::Evaluate
                    && i128::from(told.numbers[0]).abs() == interpreter::VALUE_LIMIT =>
            {
                Err(Refusal::BothRange)
            }
            told => told,
        }),
        answers("never refuses with 14", |call| match right(call) {
            Err(refusal) if refusal.number() == 14 => of_number(0).ok_or(refusal),
            told => told,
        }),
        answers(
            "finds an unset setting only where it is met",
            |call| match right(call) {
                Err(Refusal::SettingUnset) if call.kind == Kind::Evaluate => {
                    let mut days = call.days.clone();
                    days.resize(8, 0);
                    right(&Call {
                        days,
                        ..call.clone()
                    })
                }
                told => told,
            },
        ),
        answers("values a sheet uncut", |call| {
            let told = right(call)?;
            let changed = call.kind == Kind::Sheet && told.bytes.starts_with(b"accepted");
            if !changed {
                return Ok(told);
            }
            let text = String::from_utf8(told.bytes).expect("digits");
            let first = text.lines().nth(1).and_then(|line| line.rsplit(',').next());
            let first = first.expect("a line for month 0").to_string();
            let mut lines: Vec<String> = vec![];
            for (at, line) in text.lines().enumerate() {
                match line.rsplit_once(',') {
                    Some((front, _)) if at > 0 => lines.push(format!("{front},{first}\n")),
                    _ => lines.push(format!("{line}\n")),
                }
            }
            Ok(super::of_bytes(lines.concat().into_bytes()))
        }),
    ]
}

#[derive(Clone, Copy, PartialEq, Eq)]
enum Mistake {
    Lazy,
    SkipsZero,
    OwnLeavesOnly,
    LaterLeavesOnly,
    LeavesStay,
    LastHitMissed,
    PlanFirst,
    Wraps,
    IndicesStay,
    SecondAtOnce,
    BothBranches,
}

/// An evaluation that goes wrong after everything before it was found right.
fn on_value(
    call: &Call,
    value: fn(&Payoff, Valuation) -> Result<i128, Refusal>,
) -> Result<Answer, Refusal> {
    let told = right(call);
    let evaluated = match &told {
        Ok(_) => true,
        Err(refusal) => matches!(refusal.number(), 11 | 14),
    };
    if call.kind != Kind::Evaluate || !evaluated {
        return told;
    }
    let valuation = Valuation {
        table: &call.table,
        days: &call.days,
        now: call.today,
        pair: (call.p, call.q),
        waited: 0,
    };
    let value = value(&read::payoff(&call.text)?, valuation)?;
    of_number(value).ok_or(Refusal::ScaleRange)
}

fn valuing(payoff: &Payoff, at: Valuation, mistake: Mistake) -> Result<i128, Refusal> {
    let after = |k: i64| Valuation {
        waited: at.waited + k,
        ..at
    };
    match payoff {
        Payoff::Nothing => Ok(0),
        Payoff::Leaf {
            cut,
            month,
            from,
            to,
        } => {
            let (p, q) = at.pair;
            let own = (*from, *to) == (p, q) || (*from, *to) == (q, p);
            let open: i64 = month.settings.iter().map(|open| at.days[*open]).sum();
            let before_now = month.number + open + at.waited < at.now;
            match mistake {
                Mistake::OwnLeavesOnly if !own => Ok(0),
                Mistake::LaterLeavesOnly if *cut && before_now => Ok(0),
                Mistake::LeavesStay => Valuation { waited: 0, ..at }.value(payoff),
                _ => at.value(payoff),
            }
        }
        Payoff::Scale(factor, below) if mistake == Mistake::PlanFirst => {
            valuing(below, at, mistake)?;
            at.amount(factor)?;
            at.value(payoff)
        }
        Payoff::Scale(factor, below) => {
            let factor = match mistake {
                Mistake::IndicesStay => Valuation { waited: 0, ..at }.amount(factor)?,
                _ => at.amount(factor)?,
            };
            if factor == 0 && mistake == Mistake::SkipsZero {
                return Ok(0);
            }
            let value = valuing(below, at, mistake)?;
            if mistake == Mistake::Wraps {
                return Ok(i128::from((factor as i64).wrapping_mul(value as i64)));
            }
            in_range(factor * value, Refusal::ScaleRange)
        }
        Payoff::Both(one, other) => {
            let one = valuing(one, at, mistake)?;
            let other = valuing(other, at, mistake)?;
            in_range(one + other, Refusal::BothRange)
        }
        Payoff::Wait(delay, condition, first, second) => {
            let d = months_of(*delay, at.days);
            let tried = d - i64::from(mistake == Mistake::LastHitMissed);
            for k in 0..=tried {
                if trying(condition, after(k), mistake)? {
                    if mistake == Mistake::BothBranches {
                        valuing(second, after(d), mistake)?;
                    }
                    return valuing(first, after(k), mistake);
                }
            }
            match mistake {
                Mistake::SecondAtOnce => valuing(second, at, mistake),
                _ => valuing(second, after(d), mistake),
            }
        }
    }
}

fn trying(condition: &Test<Month>, at: Valuation, mistake: Mistake) -> Result<bool, Refusal> {
    let lazy = mistake == Mistake::Lazy;
    match condition {
        Test::And(one, other) if lazy => {
            Ok(trying(one, at, mistake)? && trying(other, at, mistake)?)
        }
        Test::Or(one, other) if lazy => {
            Ok(trying(one, at, mistake)? || trying(other, at, mistake)?)
        }
        Test::Not(below) => Ok(!trying(below, at, mistake)?),
        condition => at.test(condition),
    }
}

fn in_range(value: i128, refusal: Refusal) -> Result<i128, Refusal> {
    match value.abs() <= interpreter::VALUE_LIMIT {
        true => Ok(value),
        false => Err(refusal),
    }
}
