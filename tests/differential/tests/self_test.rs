//! The harness can fail: every version of the interpreter that is wrong on purpose is found, and the
//! input that shows it is made small.

mod wrong;

use differential::calls::{Interpreter, Kind};
use differential::exhaustive;
use differential::harness::{report, Fault, Harness};
use wrong::Wrong;

/// Calls after which a wrong version has to be found.
const CALLS: u64 = 60_000;

/// Finds each of these, and shrinks what it finds to a text and table of a few fields.
fn found(all: Vec<Wrong>) {
    let mut missed = vec![];
    for wrong in all {
        let mut harness = Harness::new(&wrong, &Kind::ALL);
        let Err(fault) = harness.run(CALLS, 1, |_, _| ()) else {
            missed.push(format!("{}: not found", wrong.name));
            continue;
        };
        let after = harness.compared;
        let fault = harness.smallest(fault);
        println!("{} (after {after} calls)\n{}", wrong.name, report(&fault));
        let Fault::Call(difference) = fault else {
            missed.push(format!("{}: found as a broken roll only", wrong.name));
            continue;
        };
        // What only a text at its limits shows cannot be made small.
        let said = [difference.expected.status, difference.found.status];
        let call = difference.call;
        let at_limits = call.text.len() >= 8_000 || said.iter().any(|n| matches!(n, 1 | 3 | 4));
        let fields = call.text.split(|byte| matches!(byte, b',' | b'\n')).count();
        let table = &call.table;
        let numbers = table.factors.len() + table.bounds.len() + table.values.len();
        let small = if call.kind == Kind::Sheet { 70 } else { 24 };
        if !at_limits && (fields > small || numbers > 20 || call.days.len() > 9) {
            missed.push(format!("{}: not made small", wrong.name));
        }
    }
    assert!(missed.is_empty(), "{missed:#?}");
}

#[test]
fn wrong_buffers_are_found() {
    found(wrong::buffers::all());
}

#[test]
fn wrong_texts_are_found() {
    found(wrong::texts::all());
}

#[test]
fn wrong_orders_are_found() {
    found(wrong::order::all());
}

#[test]
fn wrong_sheets_are_found() {
    found(wrong::sheets::all());
}

#[test]
fn wrong_rules_are_found() {
    found(wrong::rules::all());
}

#[test]
fn wrong_months_are_found() {
    found(wrong::months::all());
}

#[test]
fn wrong_values_are_found() {
    found(wrong::values::all());
}

/// What is right is not found wrong.
#[test]
fn the_interpreter_is_like_itself() {
    let mut harness = Harness::new(&Interpreter, &Kind::ALL);
    if let Err(fault) = harness.run(20_000, 7, |_, _| ()) {
        panic!("{}", report(&harness.smallest(fault)));
    }
}

/// Every text of up to four fields shows some of the wrong versions, and none where all is right.
#[test]
fn short_texts_show_what_is_wrong() {
    let mut harness = Harness::new(&Interpreter, &Kind::ALL);
    assert!(exhaustive::run(&mut harness, 4).is_ok());
    for wrong in wrong::texts::all().into_iter().chain(wrong::months::all()) {
        let shown = [
            "reads leading zeros",
            "steps every plan to Z",
            "pays nothing ever",
            "keeps an L with 0 for another month",
        ];
        if shown.contains(&wrong.name) {
            let mut harness = Harness::new(&wrong, &Kind::ALL);
            assert!(exhaustive::run(&mut harness, 4).is_err(), "{}", wrong.name);
        }
    }
}

/// Each list of calls alone, as on the command line.
#[test]
fn each_call_can_be_compared_alone() {
    for kind in Kind::ALL {
        let mut harness = Harness::new(&Interpreter, &[kind]);
        assert!(harness.run(500, 3, |_, _| ()).is_ok());
        assert!(harness.compared >= 500);
    }
}
