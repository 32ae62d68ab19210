//! The run: scenario after scenario, until enough calls are compared or one differs.

use crate::calls::{Call, Calls, Kind};
use crate::compare::{compare, Difference};
use crate::coverage::Coverage;
use crate::random::Random;
use crate::roll::Broken;
use crate::{replay, scenario, shrink};
use interpreter::calls::Answer;
use interpreter::Refusal;

/// What stops a run.
#[derive(Debug)]
pub enum Fault {
    /// A call that both sides answer differently.
    Call(Box<Difference>),
    /// A list of month steps in which answers do not fit each other.
    Roll(Box<Broken>),
}

/// One who answers a call without buffers.
pub type Answerer<'a> = Box<dyn Fn(&Call) -> Result<Answer, Refusal> + 'a>;

/// One side to be compared with the interpreter, and what was compared so far.
pub struct Harness<'a, C: Calls> {
    calls: &'a C,
    /// The calls to be compared.
    pub only: Vec<Kind>,
    /// Who answers the others: the interpreter, except where rolls themselves are tested.
    pub others: Answerer<'a>,
    pub coverage: Option<Coverage>,
    /// Whether each call is written to standard error before it is made, for one that never returns.
    pub trace: bool,
    pub compared: u64,
}

impl<'a, C: Calls> Harness<'a, C> {
    pub fn new(calls: &'a C, only: &[Kind]) -> Harness<'a, C> {
        Harness {
            calls,
            only: only.to_vec(),
            others: Box::new(Call::foretold),
            coverage: None,
            trace: false,
            compared: 0,
        }
    }

    pub fn compares(&self, kind: Kind) -> bool {
        self.only.contains(&kind)
    }

    /// Makes the call on both sides; the answer that both give.
    pub fn compare(&mut self, call: &Call) -> Result<Result<Answer, Refusal>, Fault> {
        if !self.compares(call.kind) {
            return Ok((self.others)(call));
        }
        self.compared += 1;
        if self.trace {
            eprintln!("{}", replay::written(call));
        }
        let told = compare(self.calls, call).map_err(Fault::Call)?;
        if let Some(coverage) = &mut self.coverage {
            coverage.record(call, &told);
        }
        Ok(told)
    }

    /// Counts something for the coverage table.
    pub fn count(&mut self, what: &str) {
        if let Some(coverage) = &mut self.coverage {
            coverage.count(what);
        }
    }

    /// Compares until `calls` calls are made; `watch` is told before each scenario.
    pub fn run(&mut self, calls: u64, seed: u64, watch: impl FnMut(u64, u64)) -> Result<(), Fault> {
        self.run_from(0, calls, seed, watch)
    }

    /// The same, beginning with a later scenario.
    pub fn run_from(
        &mut self,
        first: u64,
        calls: u64,
        seed: u64,
        mut watch: impl FnMut(u64, u64),
    ) -> Result<(), Fault> {
        let mut index = first;
        while self.compared < calls {
            watch(index, self.compared);
            scenario::run(&mut Random::of(seed, index), self)?;
            index += 1;
        }
        Ok(())
    }

    /// The fault with the smallest input that can be found for it.
    pub fn smallest(&self, fault: Fault) -> Fault {
        match fault {
            Fault::Call(found) => Fault::Call(self.smallest_difference(*found)),
            Fault::Roll(found) => {
                let broken = |roll: &crate::roll::Roll| {
                    let mut again = Harness::new(self.calls, &self.only);
                    match roll.run(&mut again) {
                        Err(Fault::Roll(broken)) => Some(broken),
                        _ => None,
                    }
                };
                let roll =
                    shrink::smallest_roll(found.roll.clone(), &|roll| broken(roll).is_some());
                Fault::Roll(broken(&roll).unwrap_or(found))
            }
        }
    }

    fn smallest_difference(&self, mut found: Difference) -> Box<Difference> {
        // With room to spare the answer may change its length without changing the refusal.
        if found.expected.status != 13 {
            let roomy = Call {
                out: if found.call.kind.writes() { 60_000 } else { 0 },
                answer: found.call.kind.numbers() + 1,
                ..found.call.clone()
            };
            if let Err(difference) = compare(self.calls, &roomy) {
                found = *difference;
            }
        }
        // Only calls on which both sides still say what they said at first.
        let said = (found.expected.status, found.found.status);
        let fails = |call: &Call| match compare(self.calls, call) {
            Ok(_) => false,
            Err(other) => (other.expected.status, other.found.status) == said,
        };
        let call = shrink::smallest_call(found.call, &fails);
        compare(self.calls, &call).expect_err("the smallest call differs still")
    }
}

/// The report of a fault, as reproducible text.
pub fn report(fault: &Fault) -> String {
    match fault {
        Fault::Call(difference) => replay::report(difference),
        Fault::Roll(broken) => broken.report(),
    }
}
