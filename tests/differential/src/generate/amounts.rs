//! Random amounts and tests, for plans and for payoffs.

use super::scenes::Scene;
use super::{Budget, Roots};
use crate::random::Random;
use interpreter::{Amount, Test, AMOUNT_LIMIT};

/// How the time of an index is chosen, in plans and in payoffs.
pub trait When: Sized {
    /// A time that every root may read; not later than `latest` where that is given. `None` where
    /// there is none.
    fn pick(random: &mut Random, scene: &Scene, roots: Roots, latest: Option<i64>) -> Option<Self>;
}

/// Where an amount or test stands.
#[derive(Clone, Copy, Debug)]
pub struct Spot {
    pub roots: Roots,
    /// The greatest offset that is known in time.
    pub latest: Option<i64>,
}

/// An amount whose magnitude keeps to the limit, unless the scene is wild or bold.
pub fn amount<At: When>(
    random: &mut Random,
    scene: &Scene,
    budget: Budget,
    spot: Spot,
    limit: i64,
) -> Amount<At> {
    if budget.is_leaf() {
        return leaf(random, scene, spot, limit);
    }
    let when = |weight: usize, fits: bool| if fits { weight } else { 0 };
    let letter = random.weighted(&[
        (when(2, budget.nodes >= 3), 'A'),
        (when(2, budget.nodes >= 3), 'U'),
        (when(2, budget.nodes >= 3), 'K'),
        (3, 'Q'),
        (when(3, budget.nodes >= 6 && budget.depth >= 3), 'I'),
    ]);
    let child =
        |random: &mut Random, budget, limit| Box::new(amount(random, scene, budget, spot, limit));
    match letter {
        'Q' => {
            let [below] = budget.split(random, [1]);
            let divisor = match random.below(6) {
                0 => 1,
                1 => scene.number(random, AMOUNT_LIMIT).abs().max(1),
                2 => AMOUNT_LIMIT,
                _ => random.range(2, 7),
            };
            Amount::Quotient(divisor, child(random, below, limit))
        }
        'I' => {
            let [condition, one, other] = budget.split(random, [3, 1, 1]);
            Amount::Choice(
                Box::new(test(random, scene, condition, spot)),
                child(random, one, limit),
                child(random, other, limit),
            )
        }
        'K' => {
            let [left, right] = budget.split(random, [1, 1]);
            let (one, other) = parts_of_product(random, scene, limit);
            Amount::Product(child(random, left, one), child(random, right, other))
        }
        letter => {
            let [left, right] = budget.split(random, [1, 1]);
            let (one, other) = parts_of_sum(random, scene, limit);
            let (one, other) = (child(random, left, one), child(random, right, other));
            match letter {
                'A' => Amount::Sum(one, other),
                _ => Amount::Difference(one, other),
            }
        }
    }
}

fn leaf<At: When>(random: &mut Random, scene: &Scene, spot: Spot, limit: i64) -> Amount<At> {
    if random.chance(60) {
        if let Some(index) = index(random, scene, spot, limit) {
            return index;
        }
    }
    Amount::Number(scene.number(random, limit))
}

fn index<At: When>(
    random: &mut Random,
    scene: &Scene,
    spot: Spot,
    limit: i64,
) -> Option<Amount<At>> {
    let fitting: Vec<usize> = (0..scene.table.bounds.len())
        .filter(|label| scene.bold || scene.table.bounds[*label] <= limit)
        .collect();
    let label = if scene.is_wild(random) {
        random.below(8)
    } else if fitting.is_empty() {
        return None;
    } else {
        *random.pick(&fitting)
    };
    let at = At::pick(random, scene, spot.roots, spot.latest)?;
    Some(Amount::Index { label, at })
}

/// A test. It has at least three nodes.
pub fn test<At: When>(random: &mut Random, scene: &Scene, budget: Budget, spot: Spot) -> Test<At> {
    let fits = |nodes: usize| budget.depth >= 3 && budget.nodes >= nodes;
    let when = |weight: usize, fits: bool| if fits { weight } else { 0 };
    let letter = random.weighted(&[
        (4, 'G'),
        (3, 'E'),
        (when(2, fits(4)), 'R'),
        (when(3, fits(7)), 'Y'),
        (when(3, fits(7)), 'V'),
    ]);
    let child = |random: &mut Random, budget| Box::new(test(random, scene, budget, spot));
    match letter {
        'R' => {
            let [below] = budget.split(random, [3]);
            Test::Not(child(random, below))
        }
        'Y' | 'V' => {
            let [left, right] = budget.split(random, [3, 3]);
            let (one, other) = (child(random, left), child(random, right));
            match letter {
                'Y' => Test::And(one, other),
                _ => Test::Or(one, other),
            }
        }
        letter => {
            let budget = Budget {
                depth: budget.depth.max(2),
                ..budget
            };
            let [left, right] = budget.split(random, [1, 1]);
            let one = amount(random, scene, left, spot, AMOUNT_LIMIT);
            let other = amount(random, scene, right, spot, AMOUNT_LIMIT);
            match letter {
                'G' => Test::Less(one, other),
                _ => Test::Equal(one, other),
            }
        }
    }
}

/// Two limits whose sum keeps to the limit.
pub fn parts_of_sum(random: &mut Random, scene: &Scene, limit: i64) -> (i64, i64) {
    if scene.bold {
        return (AMOUNT_LIMIT, AMOUNT_LIMIT);
    }
    match random.below(4) {
        0 => (limit - limit / 8, limit / 8),
        1 => (limit / 8, limit - limit / 8),
        _ => (limit / 2, limit - limit / 2),
    }
}

/// Two limits whose product keeps to the limit.
pub fn parts_of_product(random: &mut Random, scene: &Scene, limit: i64) -> (i64, i64) {
    if scene.bold {
        return (AMOUNT_LIMIT, AMOUNT_LIMIT);
    }
    let root = (limit as f64).sqrt() as i64;
    let one = match random.below(4) {
        0 => 1,
        1 => limit.max(1),
        2 => root.max(1),
        _ => random.range(1, 200).min(limit.max(1)),
    };
    (one, limit / one)
}
