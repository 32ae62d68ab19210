//! Amounts and tests of plans (document 000, figure 2.5: the semantics of expressions).

use crate::language::{Amount, Offset, Test};
use crate::table::Table;

/// The external environment ρ as a node sees it: months count from the node's own month.
#[derive(Clone, Copy, Debug)]
pub struct World<'a> {
    pub table: &'a Table,
    pub days: &'a [i64],
    /// The month in which the node stands.
    pub month: i64,
}

impl World<'_> {
    /// ρ/d: the environment advanced by d months.
    pub fn advanced(self, d: i64) -> Self {
        World {
            month: self.month + d,
            ..self
        }
    }

    /// "an `O` worked out for month k is its label's value in month k+i". Only for accepted plans,
    /// whose reads all lie in the table.
    pub fn observe(&self, label: usize, offset: Offset) -> i64 {
        self.table
            .value(label, self.month + offset.0)
            .expect("an accepted plan reads only what the table has")
    }
}

/// ℰ⟦amount⟧ρ.
pub fn amount(tree: &Amount<Offset>, world: World) -> i128 {
    match tree {
        Amount::Number(n) => i128::from(*n),
        Amount::Index { label, at } => i128::from(world.observe(*label, *at)),
        Amount::Sum(one, other) => amount(one, world) + amount(other, world),
        Amount::Difference(one, other) => amount(one, world) - amount(other, world),
        Amount::Product(one, other) => amount(one, world) * amount(other, world),
        Amount::Quotient(n, tree) => quotient(amount(tree, world), *n),
        Amount::Choice(condition, one, other) => {
            if test(condition, world) {
                amount(one, world)
            } else {
                amount(other, world)
            }
        }
    }
}

/// ℰ⟦test⟧ρ.
pub fn test(tree: &Test<Offset>, world: World) -> bool {
    match tree {
        Test::Less(one, other) => amount(one, world) < amount(other, world),
        Test::Equal(one, other) => amount(one, world) == amount(other, world),
        Test::And(one, other) => test(one, world) && test(other, world),
        Test::Or(one, other) => test(one, world) || test(other, world),
        Test::Not(tree) => !test(tree, world),
    }
}

/// "the amount divided by n .., rounded down, so -1 by 3 is -1".
pub fn quotient(amount: i128, n: i64) -> i128 {
    let n = i128::from(n);
    let towards_zero = amount / n;
    let below = amount < 0 && towards_zero * n != amount;
    if below {
        towards_zero - 1
    } else {
        towards_zero
    }
}
