//! Every short text: all rows of fields up to a length, cut off where the reader has refused. And texts of every size.

use crate::calls::{Call, Calls, Kind};
use crate::harness::{Fault, Harness};
use interpreter::{read, Refusal, Table};

/// The fields that texts are made of: all letters, one that is none, and a few fields of each form.
const FIELDS: [&str; 30] = [
    "Z", "T", "S", "L", "B", "W", "N", "O", "A", "U", "K", "Q", "I", "G", "E", "Y", "V", "R", "F",
    "H", "J", "0", "1", "2", "-1", "P0", "P1", "1+P0", "01", "",
];

/// Compares all calls on every text of at most `longest` fields, and on texts of every number of nodes.
pub fn run<C: Calls>(harness: &mut Harness<C>, longest: usize) -> Result<(), Fault> {
    for payoffs in [false, true] {
        let kinds: Vec<Kind> = Kind::ALL
            .into_iter()
            .filter(|kind| *kind != Kind::Sheet && kind.reads_payoff() == payoffs)
            .filter(|kind| harness.compares(*kind))
            .collect();
        if !kinds.is_empty() {
            extend(harness, &kinds, String::new(), longest)?;
            sizes(harness, &kinds)?;
        }
    }
    Ok(())
}

/// Texts of each number of nodes that a text may have, and one more: an engine may keep few nodes and many in different places.
fn sizes<C: Calls>(harness: &mut Harness<C>, kinds: &[Kind]) -> Result<(), Fault> {
    for nodes in 3..=513 {
        // As a sum beneath an `S`, and as dense as can be, two bytes a node. A tree that joins two by two has an odd number
        // of nodes, a `Q` is one more.
        let (sum, dense) = match nodes % 2 {
            1 => (tree("A", "N,1", nodes - 2), tree("B", "Z", nodes)),
            _ => {
                let sum = format!("Q,1,{}", tree("A", "N,1", nodes - 3));
                (sum, format!("S,Q,1,N,1,{}", tree("B", "Z", nodes - 3)))
            }
        };
        compare_all(harness, kinds, &format!("S,{sum},Z"))?;
        compare_all(harness, kinds, &dense)?;
    }
    Ok(())
}

/// A balanced tree of an odd number of nodes.
fn tree(join: &str, leaf: &str, nodes: usize) -> String {
    if nodes == 1 {
        return leaf.into();
    }
    // Both parts have an odd number too.
    let first = (nodes - 1) / 2 / 2 * 2 + 1;
    let second = nodes - 1 - first;
    format!(
        "{join},{},{}",
        tree(join, leaf, first),
        tree(join, leaf, second)
    )
}

/// All texts that begin with this one, which the reader would read on.
fn extend<C: Calls>(
    harness: &mut Harness<C>,
    kinds: &[Kind],
    begun: String,
    left: usize,
) -> Result<(), Fault> {
    if left == 0 {
        return Ok(());
    }
    for field in FIELDS {
        let text = match begun.as_str() {
            "" => field.to_string(),
            begun => format!("{begun},{field}"),
        };
        compare_all(harness, kinds, &text)?;
        let refusal = match kinds[0].reads_payoff() {
            true => read::payoff(text.as_bytes()).err(),
            false => read::plan(text.as_bytes()).err(),
        };
        let unfinished = matches!(refusal, Some(Refusal::NodeMissing | Refusal::FieldMissing));
        if unfinished {
            extend(harness, kinds, text, left - 1)?;
        } else if refusal.is_none() {
            // A whole text, with something left over behind it.
            for leftover in ["", "Z", "0"] {
                compare_all(harness, kinds, &format!("{text},{leftover}"))?;
            }
        }
    }
    Ok(())
}

fn compare_all<C: Calls>(
    harness: &mut Harness<C>,
    kinds: &[Kind],
    text: &str,
) -> Result<(), Fault> {
    for kind in kinds {
        for call in calls_on(*kind, text) {
            harness.compare(&call)?.ok();
        }
    }
    Ok(())
}

/// The calls made on one text: one for each month of a small table.
fn calls_on(kind: Kind, text: &str) -> Vec<Call> {
    let table = Table {
        h: 1,
        f: 2,
        factors: vec![1_000_000, 900_000, 7],
        bounds: vec![3],
        values: vec![2, -1, 1, 3],
    };
    let call = Call {
        days: vec![1],
        table,
        ..Call::of_text(kind, text.as_bytes().to_vec())
    };
    let call = Call {
        out: if kind.writes() { 64.max(text.len()) } else { 0 },
        ..call
    };
    let months = |of: fn(&mut Call) -> &mut i64| {
        let with = |month| {
            let mut call = call.clone();
            *of(&mut call) = month;
            call
        };
        (0..=2).map(with).collect()
    };
    match kind {
        Kind::Payment => months(|call| &mut call.month),
        Kind::Step | Kind::Evaluate | Kind::Check => months(|call| &mut call.today),
        _ => vec![call],
    }
}
