//! What a call meets on its way through a plan or payoff that it accepts.

use crate::calls::Kind;
use interpreter::amounts::{self, World};
use interpreter::payoffs::Valuation;
use interpreter::table::months_of;
use interpreter::traces::{wait, Waited};
use interpreter::{Amount, Month, Offset, Payoff, Plan, Test};

/// Told of each thing met.
type Met<'a> = &'a mut dyn FnMut(&str);

/// Amounts and tests behave alike in plans and payoffs; this is what the walk needs of either.
trait Setting<At>: Copy {
    fn amount(self, amount: &Amount<At>) -> i128;
    fn test(self, test: &Test<At>) -> bool;
}

impl Setting<Offset> for World<'_> {
    fn amount(self, amount: &Amount<Offset>) -> i128 {
        amounts::amount(amount, self)
    }

    fn test(self, test: &Test<Offset>) -> bool {
        amounts::test(test, self)
    }
}

impl Setting<Month> for Valuation<'_> {
    fn amount(self, amount: &Amount<Month>) -> i128 {
        Valuation::amount(self, amount).expect("the call was accepted")
    }

    fn test(self, test: &Test<Month>) -> bool {
        Valuation::test(self, test).expect("the call was accepted")
    }
}

/// What the walks of such a call have to meet.
pub fn required(kind: Kind) -> Vec<&'static str> {
    let common = [
        "quotient below 0, rounded",
        "quotient below 0, exact",
        "quotient above 0, rounded",
        "choice of the first",
        "choice of the second",
        "G holds",
        "G fails",
        "E holds",
        "E fails",
        "Y holds",
        "Y fails",
        "V holds",
        "V fails",
        "R holds",
        "R fails",
    ];
    let waits = [
        "wait of 0 hits",
        "wait of 0 misses",
        "wait hits in the first month",
        "wait hits in between",
        "wait hits in the last month",
        "wait misses",
    ];
    let steps = [
        "step: wait hits",
        "step: wait of 0 misses",
        "step: wait goes on",
        "step: delay of 0",
        "step: delay falls",
        "step: index at offset 0 or less",
        "step: index at offset 1",
        "step: index at offset 2 or more",
    ];
    match kind {
        Kind::Payment | Kind::Evaluate | Kind::Sheet => [&common[..], &waits].concat(),
        Kind::Step => [&common[..], &waits, &steps].concat(),
        Kind::Check | Kind::Compile | Kind::Cut => vec![],
    }
}

/// The way of what a plan pays.
pub fn plan(tree: &Plan, world: World, met: Met) {
    match tree {
        Plan::Nothing | Plan::Transfer { .. } => {}
        Plan::Scale(factor, below) => {
            amount(factor, world, met);
            plan(below, world, met);
        }
        Plan::Later(delay, below) => {
            plan(below, world.advanced(months_of(*delay, world.days)), met);
        }
        Plan::Both(one, other) => {
            plan(one, world, met);
            plan(other, world, met);
        }
        Plan::Wait(delay, condition, first, second) => {
            let d = months_of(*delay, world.days);
            let ended = wait(condition, d, world);
            met(waited(ended, d));
            match ended {
                Waited::Hit(k) => {
                    test(condition, world.advanced(k), met);
                    plan(first, world.advanced(k), met);
                }
                Waited::Miss => {
                    test(condition, world.advanced(d), met);
                    plan(second, world.advanced(d), met);
                }
            }
        }
    }
}

/// The way of a month step, beside that of what the plan pays.
pub fn step(tree: &Plan, world: World, met: Met) {
    plan(tree, world, met);
    stepped(tree, world, met);
}

fn stepped(tree: &Plan, world: World, met: Met) {
    match tree {
        Plan::Nothing | Plan::Transfer { .. } => {}
        Plan::Scale(factor, below) => {
            offsets(factor, met);
            stepped(below, world, met);
        }
        Plan::Later(delay, below) => match months_of(*delay, world.days) {
            0 => {
                met("step: delay of 0");
                stepped(below, world, met);
            }
            _ => met("step: delay falls"),
        },
        Plan::Both(one, other) => {
            stepped(one, world, met);
            stepped(other, world, met);
        }
        Plan::Wait(delay, condition, first, second) => {
            if amounts::test(condition, world) {
                met("step: wait hits");
                stepped(first, world, met);
            } else if months_of(*delay, world.days) == 0 {
                met("step: wait of 0 misses");
                stepped(second, world, met);
            } else {
                met("step: wait goes on");
            }
        }
    }
}

fn offsets(tree: &Amount<Offset>, met: Met) {
    match tree {
        Amount::Number(_) => {}
        Amount::Index { at, .. } => met(match at.0 {
            ..=0 => "step: index at offset 0 or less",
            1 => "step: index at offset 1",
            _ => "step: index at offset 2 or more",
        }),
        Amount::Sum(one, other) | Amount::Difference(one, other) | Amount::Product(one, other) => {
            offsets(one, met);
            offsets(other, met);
        }
        Amount::Quotient(_, below) => offsets(below, met),
        Amount::Choice(_, one, other) => {
            offsets(one, met);
            offsets(other, met);
        }
    }
}

/// The way of a payoff's value.
pub fn payoff(tree: &Payoff, valuation: Valuation, met: Met) {
    match tree {
        Payoff::Nothing | Payoff::Leaf { .. } => {}
        Payoff::Scale(factor, below) => {
            amount(factor, valuation, met);
            payoff(below, valuation, met);
        }
        Payoff::Both(one, other) => {
            payoff(one, valuation, met);
            payoff(other, valuation, met);
        }
        Payoff::Wait(delay, condition, first, second) => {
            let d = months_of(*delay, valuation.days);
            let after = |k: i64| Valuation {
                waited: valuation.waited + k,
                ..valuation
            };
            let hit = (0..=d).find(|k| Setting::test(after(*k), condition));
            let ended = hit.map_or(Waited::Miss, Waited::Hit);
            met(waited(ended, d));
            test(condition, after(hit.unwrap_or(d)), met);
            match hit {
                Some(k) => payoff(first, after(k), met),
                None => payoff(second, after(d), met),
            }
        }
    }
}

fn waited(ended: Waited, d: i64) -> &'static str {
    match ended {
        Waited::Hit(_) if d == 0 => "wait of 0 hits",
        Waited::Miss if d == 0 => "wait of 0 misses",
        Waited::Hit(0) => "wait hits in the first month",
        Waited::Hit(k) if k == d => "wait hits in the last month",
        Waited::Hit(_) => "wait hits in between",
        Waited::Miss => "wait misses",
    }
}

fn amount<At>(tree: &Amount<At>, setting: impl Setting<At>, met: Met) {
    match tree {
        Amount::Number(_) | Amount::Index { .. } => {}
        Amount::Sum(one, other) | Amount::Difference(one, other) | Amount::Product(one, other) => {
            amount(one, setting, met);
            amount(other, setting, met);
        }
        Amount::Quotient(n, below) => {
            let dividend = setting.amount(below);
            let exact = dividend % i128::from(*n) == 0;
            match (dividend.signum(), exact) {
                (-1, true) => met("quotient below 0, exact"),
                (-1, false) => met("quotient below 0, rounded"),
                (1, false) => met("quotient above 0, rounded"),
                _ => {}
            }
            amount(below, setting, met);
        }
        Amount::Choice(condition, one, other) => {
            test(condition, setting, met);
            if setting.test(condition) {
                met("choice of the first");
                amount(one, setting, met);
            } else {
                met("choice of the second");
                amount(other, setting, met);
            }
        }
    }
}

fn test<At>(tree: &Test<At>, setting: impl Setting<At>, met: Met) {
    let (holds, fails) = match tree {
        Test::Less(..) => ("G holds", "G fails"),
        Test::Equal(..) => ("E holds", "E fails"),
        Test::And(..) => ("Y holds", "Y fails"),
        Test::Or(..) => ("V holds", "V fails"),
        Test::Not(..) => ("R holds", "R fails"),
    };
    met(if setting.test(tree) { holds } else { fails });
    match tree {
        Test::Less(one, other) | Test::Equal(one, other) => {
            amount(one, setting, met);
            amount(other, setting, met);
        }
        Test::And(one, other) | Test::Or(one, other) => {
            test(one, setting, met);
            test(other, setting, met);
        }
        Test::Not(below) => test(below, setting, met),
    }
}
