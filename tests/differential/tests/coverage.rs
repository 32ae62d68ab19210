//! A run of 20,000 calls reaches everything that it has to reach.

use differential::calls::{Interpreter, Kind};
use differential::coverage::Coverage;
use differential::harness::Harness;

fn missing(seed: u64) -> Vec<String> {
    let mut harness = Harness::new(&Interpreter, &Kind::ALL);
    harness.coverage = Some(Coverage::default());
    let result = harness.run(20_000, seed, |_, _| ());
    assert!(result.is_ok(), "the interpreter differs from itself");
    let coverage = harness.coverage.expect("it was set");
    println!("{}", coverage.table(&Kind::ALL));
    coverage.missing(&Kind::ALL)
}

#[test]
fn a_short_run_reaches_everything() {
    let missing = missing(1);
    assert!(missing.is_empty(), "not reached: {missing:#?}");
}

#[test]
#[ignore = "only to see how much luck the seed above has"]
fn so_do_most_other_runs() {
    for seed in 2..22 {
        println!("seed {seed}: {:?}", missing(seed));
    }
}
