//! What a plan pays, as a trace (document 000, figure 2.5: the semantics of contracts).

use crate::amounts::{amount, test, World};
use crate::language::{Offset, Plan, Test};
use crate::table::months_of;

/// Trace = ℕ → Trans, seen by one pair: what is paid n months after the root, in pence.
pub struct Trace<'a>(Box<dyn Fn(i64) -> i128 + 'a>);

impl<'a> Trace<'a> {
    /// λn. 0
    pub fn zero() -> Trace<'a> {
        Trace(Box::new(|_| 0))
    }

    /// `pence` in the root's month, nothing else.
    pub fn unit(pence: i128) -> Trace<'a> {
        Trace(Box::new(move |n| if n == 0 { pence } else { 0 }))
    }

    /// Trace addition, pointwise.
    pub fn plus(self, other: Trace<'a>) -> Trace<'a> {
        Trace(Box::new(move |n| self.at(n) + other.at(n)))
    }

    /// Trace multiplication, pointwise.
    pub fn times(self, factor: i128) -> Trace<'a> {
        Trace(Box::new(move |n| factor * self.at(n)))
    }

    /// delay(d, f) = λn. f(n - d) if n ≥ d, else 0
    pub fn delayed(self, d: i64) -> Trace<'a> {
        Trace(Box::new(move |n| if n >= d { self.at(n - d) } else { 0 }))
    }

    /// What is paid n months after the root.
    pub fn at(&self, n: i64) -> i128 {
        (self.0)(n)
    }
}

/// 𝒞⟦plan⟧: what the plan pays the pair (p, q), its root in the world's month.
pub fn contract<'a>(plan: &Plan, world: World<'a>, pair: (i64, i64)) -> Trace<'a> {
    match plan {
        Plan::Nothing => Trace::zero(),
        Plan::Transfer { from, to } => Trace::unit(direction((*from, *to), pair)),
        Plan::Scale(factor, plan) => contract(plan, world, pair).times(amount(factor, world)),
        Plan::Later(delay, plan) => {
            let d = months_of(*delay, world.days);
            contract(plan, world.advanced(d), pair).delayed(d)
        }
        Plan::Both(one, other) => contract(one, world, pair).plus(contract(other, world, pair)),
        Plan::Wait(delay, condition, first, second) => {
            let d = months_of(*delay, world.days);
            match wait(condition, d, world) {
                Waited::Hit(k) => contract(first, world.advanced(k), pair).delayed(k),
                Waited::Miss => contract(second, world.advanced(d), pair).delayed(d),
            }
        }
    }
}

/// How a wait ends.
#[derive(Clone, Copy, Debug, PartialEq, Eq)]
pub enum Waited {
    /// The first month, counted from the node's, in which the test holds.
    Hit(i64),
    Miss,
}

/// "in this month and each of the next d, the test is tried."
pub fn wait(condition: &Test<Offset>, d: i64, world: World) -> Waited {
    match (0..=d).find(|k| test(condition, world.advanced(*k))) {
        Some(k) => Waited::Hit(k),
        None => Waited::Miss,
    }
}

/// "1 .. if it goes from p to q, -1 .. if from q to p, else 0, and always 0 for a pair of one party
/// twice."
pub fn direction((from, to): (i64, i64), (p, q): (i64, i64)) -> i128 {
    if p == q {
        0
    } else if (from, to) == (p, q) {
        1
    } else if (from, to) == (q, p) {
        -1
    } else {
        0
    }
}
