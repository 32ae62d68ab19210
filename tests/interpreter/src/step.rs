//! The month step (document 000, definition 2.2.1 and figure 2.7, without the smart constructors:
//! "Nothing is simplified").

use crate::amounts::{test, World};
use crate::language::{Amount, Delay, Offset, Plan, Test};
use crate::table::months_of;

/// inst: "The month step fills the open settings", all of them (A1).
pub fn filled(plan: &Plan, days: &[i64]) -> Plan {
    let fill = |delay: &Delay| Delay::Months(months_of(*delay, days));
    let child = |plan: &Plan| Box::new(filled(plan, days));
    match plan {
        Plan::Nothing => Plan::Nothing,
        Plan::Transfer { from, to } => Plan::Transfer {
            from: *from,
            to: *to,
        },
        Plan::Scale(amount, plan) => Plan::Scale(amount.clone(), child(plan)),
        Plan::Later(delay, plan) => Plan::Later(fill(delay), child(plan)),
        Plan::Both(one, other) => Plan::Both(child(one), child(other)),
        Plan::Wait(delay, test, one, other) => {
            Plan::Wait(fill(delay), test.clone(), child(one), child(other))
        }
    }
}

/// The plan for tomorrow, of a filled plan whose root stands in the world's month.
pub fn stepped(plan: &Plan, world: World) -> Plan {
    let child = |plan: &Plan| Box::new(stepped(plan, world));
    match plan {
        // "`Z` stays, `T` becomes `Z`."
        Plan::Nothing | Plan::Transfer { .. } => Plan::Nothing,
        // "`L` with 0 becomes the step of its plan; otherwise d falls by one."
        Plan::Later(delay, plan) => match months_of(*delay, world.days) {
            0 => stepped(plan, world),
            d => Plan::Later(Delay::Months(d - 1), plan.clone()),
        },
        // "`B` steps both."
        Plan::Both(one, other) => Plan::Both(child(one), child(other)),
        // "In `S`, the plan steps, and in its amount each `O` with offset 0 or less becomes the `N`
        // of its value, others lose one from the offset."
        Plan::Scale(amount, plan) => Plan::Scale(moved_amount(amount, world), child(plan)),
        // "`W`: if the test holds, the step of the first plan; if not and d is 0, the step of the
        // second; else d falls by one and all else is unchanged."
        Plan::Wait(delay, condition, first, second) => {
            if test(condition, world) {
                return stepped(first, world);
            }
            match months_of(*delay, world.days) {
                0 => stepped(second, world),
                d => Plan::Wait(
                    Delay::Months(d - 1),
                    condition.clone(),
                    first.clone(),
                    second.clone(),
                ),
            }
        }
    }
}

fn moved_amount(amount: &Amount<Offset>, world: World) -> Amount<Offset> {
    let child = |amount: &Amount<Offset>| Box::new(moved_amount(amount, world));
    match amount {
        Amount::Number(n) => Amount::Number(*n),
        Amount::Index { label, at } if at.0 <= 0 => Amount::Number(world.observe(*label, *at)),
        Amount::Index { label, at } => Amount::Index {
            label: *label,
            at: Offset(at.0 - 1),
        },
        Amount::Sum(one, other) => Amount::Sum(child(one), child(other)),
        Amount::Difference(one, other) => Amount::Difference(child(one), child(other)),
        Amount::Product(one, other) => Amount::Product(child(one), child(other)),
        Amount::Quotient(n, amount) => Amount::Quotient(*n, child(amount)),
        Amount::Choice(test, one, other) => {
            Amount::Choice(Box::new(moved_test(test, world)), child(one), child(other))
        }
    }
}

fn moved_test(test: &Test<Offset>, world: World) -> Test<Offset> {
    let amount = |amount: &Amount<Offset>| moved_amount(amount, world);
    let child = |test: &Test<Offset>| Box::new(moved_test(test, world));
    match test {
        Test::Less(one, other) => Test::Less(amount(one), amount(other)),
        Test::Equal(one, other) => Test::Equal(amount(one), amount(other)),
        Test::And(one, other) => Test::And(child(one), child(other)),
        Test::Or(one, other) => Test::Or(child(one), child(other)),
        Test::Not(test) => Test::Not(child(test)),
    }
}
