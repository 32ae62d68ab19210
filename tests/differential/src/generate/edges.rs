//! Plans at one of the limits or one beyond it: of magnitudes, of what is known in time, of nodes and
//! depth, of the months that delays sum up to.

use super::scenes::Scene;
use crate::random::Random;
use interpreter::{Amount, Delay, Offset, Plan, Test, AMOUNT_LIMIT};

type Number = Amount<Offset>;

/// A plan that pays at the limit in its root's month; in some cases one penny more.
pub fn plan(random: &mut Random) -> Plan {
    let limit = AMOUNT_LIMIT * *random.pick(&[-1, 1]);
    let part = random.range(0, AMOUNT_LIMIT) * limit.signum();
    let plan = match random.below(8) {
        0 => times(number(limit), transfer(random)),
        1 => {
            let root = 3_000_000;
            let product = Amount::Product(boxed(root * limit.signum()), boxed(root));
            times(product, transfer(random))
        }
        2 => {
            let one = times(number(part), Plan::Transfer { from: 1, to: 2 });
            let other = times(number(limit - part), Plan::Transfer { from: 1, to: 2 });
            both(one, other)
        }
        3 => {
            let sum = Amount::Sum(boxed(part), boxed(limit - part));
            times(sum, transfer(random))
        }
        4 => {
            let difference = Amount::Difference(boxed(part), boxed(part - limit));
            times(difference, transfer(random))
        }
        // An amount that itself lies one beyond.
        5 => {
            let sum = Amount::Sum(boxed(limit), boxed(limit.signum()));
            times(sum, transfer(random))
        }
        6 => {
            let product = Amount::Product(boxed(-3_000_000), boxed(3_000_001));
            times(product, transfer(random))
        }
        _ => {
            let half = times(number(AMOUNT_LIMIT / 2), transfer(random));
            times(number(2 * limit.signum()), half)
        }
    };
    match random.below(7) {
        // One beyond, on either side.
        0 | 3 => both(plan, transfer(random)),
        1 => times(number(2), plan),
        // Taken back in part.
        2 => times(Amount::Quotient(random.range(1, 9), boxed(7)), plan),
        _ => plan,
    }
}

/// An amount over plans that may pay sooner or later than it is known.
pub fn timing(random: &mut Random, scene: &Scene) -> Plan {
    let offset = Offset(random.range(0, 2));
    let index = Amount::Index {
        label: random.below(scene.table.bounds.len().max(1)),
        at: offset,
    };
    let soon = |random: &mut Random| {
        let plan = transfer(random);
        match random.below(3) {
            0 => plan,
            _ => Plan::Later(Delay::Months(random.range(0, 2)), Box::new(plan)),
        }
    };
    let (one, other) = (soon(random), soon(random));
    let plan = match random.below(4) {
        0 => one,
        1 => both(one, other),
        _ => {
            let at = Offset(random.range(-1, 1).min(scene.table.f));
            let now = Amount::Index { label: 0, at };
            let test = match random.below(2) {
                0 => Test::Less(now, number(*random.pick(&scene.numbers))),
                _ => Test::Equal(number(0), number(random.range(0, 1))),
            };
            let d = Delay::Months(random.range(0, 2));
            Plan::Wait(d, test, Box::new(one), Box::new(other))
        }
    };
    times(index, plan)
}

/// A text, for plans and payoffs alike, that comes to 512 nodes and to depth 32 at once or nearly so,
/// and has something good or bad in the next place.
pub fn corner(random: &mut Random) -> Vec<u8> {
    // Each level is a `B` with a `Z` beside it, so that the next place is one deeper; in the last
    // the `Z` comes behind.
    let levels = *random.pick(&[29, 30, 31, 31, 31, 32]);
    let before = *random.pick(&[509, 510, 511, 512, 512, 512]);
    let beside = before - 2 * levels;
    let tail = random.pick(&[
        "Z",
        "B,Z,Z",
        "S,N,0,Z",
        "N,1",
        "G,N,1,N,1",
        "J",
        "",
        "T,0,1",
        "L,601,Z",
        "L,0,Z",
        "F,0,1,2",
        "F,x,1,2",
        "H,0,1,10",
        "Z,Z",
        "W,0,E,N,0,N,0,Z,Z",
        "S,Z,Z",
        "ZZ",
        "W,x,Z",
    ]);
    let spine = "B,Z,".repeat(levels - 1);
    let mut text = format!("B,{},{spine}B,{tail},Z", full(beside));
    match random.below(8) {
        // The last `Z` is missing, or all that the last `B` should have.
        0 => text.truncate(text.len() - 2),
        1 => text.truncate(text.len() - tail.len() - 3),
        _ => {}
    }
    text.into_bytes()
}

/// A text of so many nodes, as flat as can be.
fn full(nodes: usize) -> String {
    match nodes {
        1 => "Z".into(),
        4 => "S,Q,1,N,0,Z".into(),
        more => {
            let left = match (more - 1) / 2 {
                2 => 1,
                half => half,
            };
            format!("B,{},{}", full(left), full(more - 1 - left))
        }
    }
}

/// A plan under many delays, some of them open.
pub fn delays(random: &mut Random, scene: &Scene) -> Plan {
    let offset = random.range(-3, 3);
    let index = Amount::Index {
        label: 0,
        at: Offset(*random.pick(&[offset, -60, 600])),
    };
    let leaf = transfer(random);
    let mut plan = match random.below(3) {
        0 => leaf,
        1 => times(index, leaf),
        _ => {
            let d = Delay::Setting(random.below(8));
            let test = Test::Less(index, number(1));
            Plan::Wait(d, test, Box::new(leaf), Box::new(Plan::Nothing))
        }
    };
    let open = scene.days.len().max(1);
    let longest = *random.pick(&[0, 0, 1, 600]);
    for _ in 0..random.range(20, 31) {
        let delay = match random.below(3) {
            0 => Delay::Months(random.range(0, longest)),
            1 => Delay::Setting(random.below(8)),
            _ => Delay::Setting(random.below(open)),
        };
        plan = Plan::Later(delay, Box::new(plan));
    }
    plan
}

fn number(n: i64) -> Number {
    Amount::Number(n)
}

fn boxed(n: i64) -> Box<Number> {
    Box::new(number(n))
}

fn times(amount: Number, plan: Plan) -> Plan {
    Plan::Scale(amount, Box::new(plan))
}

fn both(one: Plan, other: Plan) -> Plan {
    Plan::Both(Box::new(one), Box::new(other))
}

fn transfer(random: &mut Random) -> Plan {
    if random.chance(15) {
        return Plan::Nothing;
    }
    let (from, to) = *random.pick(&[(1, 2), (2, 1)]);
    Plan::Transfer { from, to }
}

#[cfg(test)]
mod tests {
    use super::*;
    use crate::tree::Text;

    #[test]
    fn a_full_text_has_so_many_nodes() {
        for nodes in 3..=512 {
            let text = full(nodes);
            assert_eq!(Text::read(text.as_bytes()).tree.nodes(), nodes);
            assert!(interpreter::read::plan(text.as_bytes()).is_ok());
            assert!(interpreter::read::payoff(text.as_bytes()).is_ok());
        }
    }
}
