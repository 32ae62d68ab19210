//! Wrong with limits, tables and settings, or with the order of refusals.

use super::{answers, right, Wrong};
use differential::calls::{Call, Kind};
use differential::tree::{Node, Text};
use interpreter::Refusal;

pub fn all() -> Vec<Wrong> {
    vec![
        answers(
            "takes a number beyond its range for a wrong letter",
            |call| match right(call) {
                Err(Refusal::FieldMalformed) if call.kind == Kind::Evaluate => {
                    Err(Refusal::WrongKind)
                }
                told => told,
            },
        ),
        answers(
            "takes a letter of payoffs in a plan for the wrong kind",
            |call| {
                let foreign = |field: &[u8]| matches!(field, b"F" | b"H");
                let known = !call.kind.reads_payoff() && call.kind != Kind::Sheet;
                match right(call) {
                    Err(Refusal::UnknownLetter)
                        if known && call.text.split(|byte| *byte == b',').any(foreign) =>
                    {
                        Err(Refusal::WrongKind)
                    }
                    told => told,
                }
            },
        ),
        answers("takes 4 before 3", |call| match right(call) {
            Err(Refusal::TooManyNodes) => {
                // Where the 513th node is 33 deep, a shorter text ends in the same node.
                let text = Text::read(&call.text);
                match deep(&text.tree, 1, &mut 0) {
                    true => Err(Refusal::TooDeep),
                    false => Err(Refusal::TooManyNodes),
                }
            }
            told => told,
        }),
        answers("takes 3 before a wrong kind", |call| match right(call) {
            Err(Refusal::WrongKind) => {
                let text = Text::read(&call.text);
                match text.tree.nodes() > 512 && call.text.ends_with(b"N,1,Z") {
                    true => Err(Refusal::TooManyNodes),
                    false => Err(Refusal::WrongKind),
                }
            }
            told => told,
        }),
        answers(
            "takes a missing child for one too deep",
            |call| match right(call) {
                Err(Refusal::NodeMissing) if last_depth(&Text::read(&call.text).tree) == 32 => {
                    Err(Refusal::TooDeep)
                }
                told => told,
            },
        ),
        answers("takes a text as long as its limit for too long", |call| {
            let limit = match call.kind {
                Kind::Sheet => return right(call),
                kind if kind.reads_payoff() => 53_760,
                _ => 8_704,
            };
            match call.text.len() == limit {
                true => Err(Refusal::TextTooLong),
                false => right(call),
            }
        }),
        answers(
            "takes a text beyond its limit for malformed",
            |call| match right(call) {
                Err(Refusal::TextTooLong) => Err(Refusal::LeftoverBytes),
                told => told,
            },
        ),
        answers("takes 9 before the text", |call| {
            let told = right(call);
            match told {
                Err(refusal) if refusal.number() <= 5 && call.kind.takes_table() => {
                    call.table.check()?;
                    Err(refusal)
                }
                told => told,
            }
        }),
        answers("takes 12 before 9", |call| {
            let sound = |party: i64| (1..=9).contains(&party);
            match right(call) {
                Err(refusal)
                    if refusal.number() == 9
                        && call.kind.takes_pair()
                        && !(sound(call.p) && sound(call.q)) =>
                {
                    Err(Refusal::Party)
                }
                told => told,
            }
        }),
        answers("takes 8 before 12", |call| match right(call) {
            Err(refusal) if refusal.number() == 12 && call.days.len() > 8 => {
                Err(Refusal::TooManySettings)
            }
            told => told,
        }),
        answers("has room for nine settings", |call| match call.days.len() {
            9 => right(&Call {
                days: call.days[..8].to_vec(),
                ..call.clone()
            }),
            _ => right(call),
        }),
        answers("has room for nine labels", |call| {
            let mut roomy = call.clone();
            if roomy.table.bounds.len() == 9 {
                let labels = &mut roomy.table;
                labels.values.truncate(labels.values.len() / 9 * 8);
                labels.bounds.truncate(8);
            }
            right(&roomy)
        }),
        answers("accepts a factor above 1,000,000", |call| {
            let mut clipped = call.clone();
            for factor in &mut clipped.table.factors {
                *factor = (*factor).min(1_000_000);
            }
            right(&clipped)
        }),
        answers("accepts a value of the bound's other side", |call| {
            // Compares without the sign: what lies below -bound passes.
            let mut clipped = call.clone();
            let table = &mut clipped.table;
            if !table.bounds.is_empty() && table.values.len() % table.bounds.len() == 0 {
                let months = (table.values.len() / table.bounds.len()).max(1);
                for (at, value) in table.values.iter_mut().enumerate() {
                    *value = (*value).max(table.bounds[at / months].saturating_neg());
                }
            }
            right(&clipped)
        }),
    ]
}

/// How deep the last node is.
fn last_depth(node: &Node) -> usize {
    1 + node.children.last().map_or(0, last_depth)
}

/// Whether the 513th node is 33 deep.
fn deep(node: &Node, depth: usize, nodes: &mut usize) -> bool {
    *nodes += 1;
    if *nodes == 513 {
        return depth == 33;
    }
    let mut children = node.children.iter();
    children.any(|child| *nodes < 513 && deep(child, depth + 1, nodes))
}
