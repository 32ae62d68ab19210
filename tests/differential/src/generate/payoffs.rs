//! Random payoffs, as if written by hand.

use super::amounts::{amount, parts_of_product, parts_of_sum, test, Spot, When};
use super::plans::{delay, parties};
use super::scenes::Scene;
use super::{Budget, Roots};
use crate::random::Random;
use interpreter::{Month, Payoff, AMOUNT_LIMIT};

impl When for Month {
    fn pick(random: &mut Random, scene: &Scene, roots: Roots, _: Option<i64>) -> Option<Month> {
        if scene.is_wild(random) {
            return Some(any_month(random));
        }
        let least = (-scene.table.h - roots.earliest).max(-60);
        let most = scene.table.f - roots.latest;
        if scene.near && random.chance(8) {
            return Some(beyond(random, least, most));
        }
        (least <= most).then(|| month(random, scene, least, most))
    }
}

/// A month anywhere in the range of the text.
fn any_month(random: &mut Random) -> Month {
    let number = match random.below(5) {
        0 => -60,
        1 => 19_200,
        2 => random.range(-60, 19_200),
        _ => random.range(-3, 8),
    };
    let settings = match random.below(4) {
        0 => 31,
        1 => random.range(1, 3),
        _ => 0,
    };
    let mut settings: Vec<usize> = (0..settings).map(|_| random.below(8)).collect();
    settings.sort_unstable();
    Month { number, settings }
}

/// A month just before `least` or just behind `most`.
fn beyond(random: &mut Random, least: i64, most: i64) -> Month {
    let month = *random.pick(&[least - 1, most + 1]);
    Month::of(month.clamp(-60, 19_200))
}

/// A month from `least` to `most`, sometimes in part as settings.
fn month(random: &mut Random, scene: &Scene, least: i64, most: i64) -> Month {
    let aim = match random.below(5) {
        0 => least,
        1 => most,
        _ => random.range(least, most),
    };
    let count = match random.below(40) {
        _ if scene.long_months => random.range(28, 31) as usize,
        0 => 31,
        1..=12 => random.below(4),
        _ => 0,
    };
    if scene.days.is_empty() {
        return Month::of(aim);
    }
    let mut settings: Vec<usize> = (0..count).map(|_| random.below(scene.days.len())).collect();
    settings.sort_unstable();
    let open: i64 = settings.iter().map(|open| scene.days[*open]).sum();
    let number = aim - open;
    if (-60..=19_200).contains(&number) {
        Month { number, settings }
    } else {
        Month::of(aim)
    }
}

/// A payoff that evaluates in the scene, unless the scene is wild or bold.
pub fn payoff(random: &mut Random, scene: &Scene, budget: Budget) -> Payoff {
    let waited = Roots {
        earliest: 0,
        latest: 0,
    };
    node(random, scene, budget, waited, AMOUNT_LIMIT)
}

fn node(random: &mut Random, scene: &Scene, budget: Budget, waited: Roots, limit: i64) -> Payoff {
    if budget.is_leaf() {
        return leaf(random, scene, waited, limit);
    }
    let (nodes, depth) = (budget.nodes, budget.depth);
    let crowded = budget.is_crowded();
    let when = |weight: usize, fits: bool| if fits { weight } else { 0 };
    if nodes < 3 {
        return leaf(random, scene, waited, limit);
    }
    let letter = random.weighted(&[
        (4, 'B'),
        (when(5, !crowded), 'S'),
        (when(6, nodes >= 6 && depth >= 3 && !crowded), 'W'),
    ]);
    let child = |random: &mut Random, budget, waited, limit| {
        Box::new(node(random, scene, budget, waited, limit))
    };
    match letter {
        'B' => {
            let [mut left, mut right] = budget.split(random, [1, 1]);
            no_pair(&mut left, &mut right);
            no_pair(&mut right, &mut left);
            let (one, other) = parts_of_sum(random, scene, limit);
            let one = child(random, left, waited, one);
            Payoff::Both(one, child(random, right, waited, other))
        }
        'S' => {
            let [mut factor, mut below] = budget.split(random, [1, 1]);
            no_pair(&mut below, &mut factor);
            let (for_payoff, for_factor) = parts_of_product(random, scene, limit);
            let spot = Spot {
                roots: waited,
                latest: None,
            };
            let factor = amount(random, scene, factor, spot, for_factor);
            Payoff::Scale(factor, child(random, below, waited, for_payoff))
        }
        _ => {
            let [mut condition, mut one, mut other] = budget.split(random, [3, 1, 1]);
            no_pair(&mut one, &mut condition);
            no_pair(&mut other, &mut condition);
            let (delay, d) = delay(random, scene, scene.table.f - waited.latest);
            let spot = Spot {
                roots: waited.within(d),
                latest: None,
            };
            Payoff::Wait(
                delay,
                test(random, scene, condition, spot),
                child(random, one, waited.within(d), limit),
                child(random, other, waited.later(d), limit),
            )
        }
    }
}

/// No payoff has two nodes: the second goes to another part.
fn no_pair(part: &mut Budget, another: &mut Budget) {
    if part.nodes == 2 {
        part.nodes = 1;
        another.nodes += 1;
    }
}

fn leaf(random: &mut Random, scene: &Scene, waited: Roots, limit: i64) -> Payoff {
    let payable = limit >= 1 || scene.bold;
    let least = (-waited.earliest).max(-60);
    let most = scene.table.f - waited.latest;
    if !payable || least > most || random.chance(10) {
        return Payoff::Nothing;
    }
    let month = if scene.is_wild(random) {
        any_month(random)
    } else if scene.near && random.chance(12) {
        beyond(random, least, most)
    } else {
        month(random, scene, least, most)
    };
    let (from, to) = parties(random);
    Payoff::Leaf {
        cut: random.chance(50),
        month,
        from,
        to,
    }
}
