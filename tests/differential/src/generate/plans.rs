//! Random plans.

use super::amounts::{amount, parts_of_product, parts_of_sum, test, Spot, When};
use super::scenes::Scene;
use super::{Budget, Roots};
use crate::random::Random;
use interpreter::accept::first;
use interpreter::{Delay, Offset, Plan, AMOUNT_LIMIT};

impl When for Offset {
    fn pick(
        random: &mut Random,
        scene: &Scene,
        roots: Roots,
        latest: Option<i64>,
    ) -> Option<Offset> {
        let wild = scene.is_wild(random);
        let known = match latest {
            Some(latest) if scene.late => latest + random.range(0, 2),
            latest => latest.unwrap_or(600),
        };
        let least = (-scene.table.h - roots.earliest).max(-60);
        let most = (scene.table.f - roots.latest).min(600).min(known);
        if wild || (scene.near && random.chance(10)) {
            let beyond = [least - 1, most + 1].map(|offset| offset.clamp(-60, 600));
            return Some(Offset(match random.below(2) {
                _ if !wild => *random.pick(&beyond),
                0 => *random.pick(&beyond),
                _ => *random.pick(&[-60, -1, 0, 1, 17, 600]),
            }));
        }
        if least > most {
            return None;
        }
        Some(Offset(match random.below(6) {
            0 => least,
            1 | 2 => most,
            3 => random.range(least, most),
            _ => random.range(-1, 1).clamp(least, most),
        }))
    }
}

/// A plan that the scene's rules accept, unless the scene is wild or bold.
pub fn plan(random: &mut Random, scene: &Scene, budget: Budget) -> Plan {
    node(random, scene, budget, scene.roots(), AMOUNT_LIMIT)
}

fn node(random: &mut Random, scene: &Scene, budget: Budget, roots: Roots, limit: i64) -> Plan {
    if budget.is_leaf() {
        return leaf(random, scene, limit);
    }
    let (nodes, depth) = (budget.nodes, budget.depth);
    let crowded = budget.is_crowded();
    let when = |weight: usize, fits: bool| if fits { weight } else { 0 };
    let letter = random.weighted(&[
        (when(3, !crowded || nodes < 3), 'L'),
        (when(4, nodes >= 3), 'B'),
        (when(5, nodes >= 3 && !crowded), 'S'),
        (when(7, nodes >= 6 && depth >= 3 && !crowded), 'W'),
    ]);
    let child = |random: &mut Random, budget, roots, limit| {
        Box::new(node(random, scene, budget, roots, limit))
    };
    match letter {
        'L' => {
            let [below] = budget.split(random, [1]);
            let (delay, d) = delay(random, scene, scene.table.f - roots.latest);
            Plan::Later(delay, child(random, below, roots.later(d), limit))
        }
        'B' => {
            let [left, right] = budget.split(random, [1, 1]);
            let (one, other) = parts_of_sum(random, scene, limit);
            let one = child(random, left, roots, one);
            Plan::Both(one, child(random, right, roots, other))
        }
        'S' => {
            let [factor, below] = budget.split(random, [1, 1]);
            let (factor, below) = lighter_first(random, factor, below);
            let (for_plan, for_factor) = parts_of_product(random, scene, limit);
            let plan = child(random, below, roots, for_plan);
            let spot = Spot {
                roots,
                latest: first(&plan, &scene.eight_days()),
            };
            Plan::Scale(amount(random, scene, factor, spot, for_factor), plan)
        }
        _ => {
            let [condition, one, other] = budget.split(random, [3, 1, 1]);
            let (delay, d) = delay(random, scene, scene.table.f - roots.latest);
            let spot = Spot {
                roots: roots.within(d),
                latest: Some(0),
            };
            Plan::Wait(
                delay,
                test(random, scene, condition, spot),
                child(random, one, roots.within(d), limit),
                child(random, other, roots.later(d), limit),
            )
        }
    }
}

/// Mostly the amount is the smaller part of an `S`.
fn lighter_first(random: &mut Random, one: Budget, other: Budget) -> (Budget, Budget) {
    if one.nodes > other.nodes && random.chance(60) {
        (other, one)
    } else {
        (one, other)
    }
}

fn leaf(random: &mut Random, scene: &Scene, limit: i64) -> Plan {
    let payable = limit >= 1 || scene.bold;
    if !payable || random.chance(20) {
        return Plan::Nothing;
    }
    let (from, to) = parties(random);
    Plan::Transfer { from, to }
}

/// Two parties, mostly among the first three.
pub fn parties(random: &mut Random) -> (i64, i64) {
    match random.below(10) {
        0 => (random.range(1, 9), random.range(1, 9)),
        1 => {
            let party = random.range(1, 3);
            (party, party)
        }
        2..=4 => (2, 1),
        5 => (1, 3),
        _ => (1, 2),
    }
}

/// A pair to ask for, mostly one that parties of plans belong to.
pub fn pair(random: &mut Random) -> (i64, i64) {
    match random.below(20) {
        0..=7 => (1, 2),
        8..=15 => (2, 1),
        16 => (1, 1),
        _ => parties(random),
    }
}

/// A delay of at most `room` months (unless wild), and its months.
pub fn delay(random: &mut Random, scene: &Scene, room: i64) -> (Delay, i64) {
    let days = scene.eight_days();
    if scene.is_wild(random) {
        if random.chance(50) {
            let open = random.below(8);
            return (Delay::Setting(open), days[open]);
        }
        let d = *random.pick(&[0, 1, 7, 599, 600]);
        return (Delay::Months(d), d);
    }
    let room = room.clamp(0, 600);
    let fitting: Vec<usize> = (0..scene.days.len())
        .filter(|open| (0..=room).contains(&scene.days[*open]))
        .collect();
    if !fitting.is_empty() && random.chance(40) {
        let open = *random.pick(&fitting);
        return (Delay::Setting(open), days[open]);
    }
    let d = match random.below(8) {
        0 => room,
        1 => random.range(0, room),
        2 | 3 => 0,
        _ => random.range(0, room.min(4)),
    };
    (Delay::Months(d), d)
}
