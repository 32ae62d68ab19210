//! `differential [--calls N] [--seed S] [--only check,payment,..] [--coverage]`: random calls of the
//! engine compared with the interpreter.
//!
//! `differential --exhaustive K [--only ..]`: calls on every text of at most K fields, and on texts of every size, instead.
//!
//! `--replay FILE` makes the one call that a report tells of. For an engine that does not come back:
//! `--scenarios` names each scenario before it runs, and `--from K --calls 1 --trace` runs the Kth
//! and writes each of its calls before it is made.

use differential::calls::{Engine, Kind};
use differential::compare::compare;
use differential::coverage::Coverage;
use differential::exhaustive;
use differential::harness::{report, Harness};
use differential::replay;
use std::process::ExitCode;
use std::time::{Duration, Instant};

struct Options {
    calls: u64,
    seed: u64,
    only: Vec<Kind>,
    coverage: bool,
    /// Whether each scenario is named before it runs.
    scenarios: bool,
    /// The first scenario.
    from: u64,
    /// Whether each call is written before it is made.
    trace: bool,
    replay: Option<String>,
    /// The greatest number of fields, where every short text is wanted.
    exhaustive: Option<u64>,
}

fn main() -> ExitCode {
    let options = match options(std::env::args().skip(1)) {
        Ok(options) => options,
        Err(fault) => {
            eprintln!("differential: {fault}");
            return ExitCode::from(2);
        }
    };
    match &options.replay {
        Some(file) => replayed(file),
        None => run(&options),
    }
}

fn run(options: &Options) -> ExitCode {
    let seed = options.seed;
    let mut harness = Harness::new(&Engine, &options.only);
    if options.coverage {
        harness.coverage = Some(Coverage::default());
    }
    harness.trace = options.trace;
    let started = Instant::now();
    let mut told = started;
    let watch = |index, compared| {
        if options.scenarios {
            eprintln!("scenario {index}");
        } else if told.elapsed() > Duration::from_secs(5) {
            told = Instant::now();
            eprintln!(
                "{compared} of {} calls after {} s",
                options.calls,
                started.elapsed().as_secs()
            );
        }
    };
    let result = match options.exhaustive {
        Some(longest) => exhaustive::run(&mut harness, longest as usize),
        None => harness.run_from(options.from, options.calls, seed, watch),
    };
    if let Some(coverage) = &harness.coverage {
        print!("{}", coverage.table(&options.only));
    }
    let compared = harness.compared;
    let which = match options.exhaustive {
        Some(longest) => format!("every text of {longest} fields, and texts of every size"),
        None => format!("seed {seed}"),
    };
    match result {
        Ok(()) => {
            println!("differential: {compared} calls, 0 differences ({which})");
            ExitCode::SUCCESS
        }
        Err(fault) => {
            let smallest = harness.smallest(fault);
            print!("{}", report(&smallest));
            println!("differential: {compared} calls, 1 difference ({which})");
            ExitCode::FAILURE
        }
    }
}

/// Makes the one call that a report tells of.
fn replayed(file: &str) -> ExitCode {
    let call = std::fs::read_to_string(file)
        .map_err(|fault| fault.to_string())
        .and_then(|text| replay::read(&text));
    match call {
        Err(fault) => {
            eprintln!("differential: {file}: {fault}");
            ExitCode::from(2)
        }
        Ok(call) => match compare(&Engine, &call) {
            Ok(told) => {
                println!("both: {told:?}");
                ExitCode::SUCCESS
            }
            Err(difference) => {
                print!("{}", replay::report(&difference));
                ExitCode::FAILURE
            }
        },
    }
}

fn options(arguments: impl Iterator<Item = String>) -> Result<Options, String> {
    let mut options = Options {
        calls: 20_000,
        seed: 1,
        only: Kind::ALL.to_vec(),
        coverage: false,
        scenarios: false,
        from: 0,
        trace: false,
        replay: None,
        exhaustive: None,
    };
    let mut arguments = arguments;
    while let Some(argument) = arguments.next() {
        let mut value = || {
            arguments
                .next()
                .ok_or_else(|| format!("{argument} needs a value"))
        };
        let number = |text: String| {
            text.parse::<u64>()
                .map_err(|_| format!("{text} is no number"))
        };
        match argument.as_str() {
            "--calls" => options.calls = number(value()?)?,
            "--seed" => options.seed = number(value()?)?,
            "--only" => {
                options.only = value()?
                    .split(',')
                    .map(|name| Kind::named(name).ok_or_else(|| format!("no call {name}")))
                    .collect::<Result<_, _>>()?;
            }
            "--coverage" => options.coverage = true,
            "--scenarios" => options.scenarios = true,
            "--from" => options.from = number(value()?)?,
            "--trace" => options.trace = true,
            "--exhaustive" => options.exhaustive = Some(number(value()?)?),
            "--replay" => options.replay = Some(value()?),
            other => return Err(format!("what is {other}?")),
        }
    }
    Ok(options)
}
