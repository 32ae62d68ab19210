//! Demand 3 can fail: where step, payment or value is wrong, the answers of a roll do not fit each
//! other, and that is seen without any other side to compare with.

mod wrong;

use differential::calls::Interpreter;
use differential::harness::{Fault, Harness};
use differential::random::Random;
use differential::scenario;
use wrong::Wrong;

/// Wrong versions that break demand 3.
const BREAKING: [&str; 21] = [
    "copies the plan instead of stepping",
    "steps every plan to Z",
    "steps in month 0 and copies afterwards",
    "moves the offsets in a waiting W",
    "steps past a hit in the last month",
    "waits one more month with d = 0",
    "steps only the first of both",
    "writes the first plan of a hit unstepped",
    "takes today's value for an index of the past",
    "pays in the step what is due tomorrow",
    "pays nothing ever",
    "pays past a hit in the last month",
    "starts the second plan in the first month tried",
    "starts the first plan in the last month tried",
    "rounds quotients towards zero",
    "cuts the payments of month now",
    "cuts the payments of an F too",
    "adds no waited months to leaves",
    "adds no waited months to indices",
    "starts the second payoff without waiting",
    "gives Z for every payoff",
];

/// Whether some roll is broken when all calls are answered so.
fn breaks(wrong: &Wrong) -> bool {
    (0..4_000).any(|index| {
        let mut harness = Harness::new(&Interpreter, &[]);
        harness.others = Box::new(|call| wrong.told(call));
        let result = scenario::roll(&mut Random::of(5, index), &mut harness);
        matches!(result, Err(Fault::Roll(_)))
    })
}

#[test]
fn wrong_answers_break_rolls() {
    let all = [
        wrong::months::all(),
        wrong::values::all(),
        wrong::texts::all(),
    ];
    let mut tried = 0;
    for wrong in all.iter().flatten() {
        if BREAKING.contains(&wrong.name) {
            tried += 1;
            assert!(breaks(wrong), "no roll is broken: {}", wrong.name);
        }
    }
    assert_eq!(tried, BREAKING.len());
}

/// What is written differently but means the same breaks nothing.
#[test]
fn other_readings_break_no_roll() {
    for wrong in wrong::months::all() {
        if wrong.name == "fills only the settings that it comes past" {
            assert!(!breaks(&wrong));
        }
    }
}
