//! `cases [--only check,payment,..]`: document 01's cases executed against the engine. With `--only`
//! the cases that need another call are left out.

mod document;
mod interface;
mod mistakes;
mod readings;
mod say;

use std::process::ExitCode;

/// One case: its name, the calls it needs, and what has to hold.
pub struct Case {
    pub name: &'static str,
    pub needs: &'static [&'static str],
    pub run: fn() -> Result<(), String>,
}

fn main() -> ExitCode {
    let mut arguments = std::env::args().skip(1);
    let only = match (arguments.next().as_deref(), arguments.next()) {
        (None, _) => None,
        (Some("--only"), Some(calls)) => Some(calls),
        _ => {
            eprintln!("cases: cases [--only check,payment,..]");
            return ExitCode::from(2);
        }
    };
    let wanted = |call: &str| match &only {
        None => true,
        Some(calls) => calls.split(',').any(|wanted| wanted == call),
    };
    let (mut passed, mut failed) = (0, 0);
    let all = [
        document::all(),
        mistakes::all(),
        readings::all(),
        interface::all(),
    ];
    for case in all.into_iter().flatten() {
        if !case.needs.iter().all(|call| wanted(call)) {
            continue;
        }
        match (case.run)() {
            Ok(()) => passed += 1,
            Err(words) => {
                failed += 1;
                println!("case failed: {}: {words}", case.name);
            }
        }
    }
    if failed > 0 {
        println!("cases: {passed} passed, {failed} failed");
        return ExitCode::FAILURE;
    }
    println!("cases: {passed} passed");
    ExitCode::SUCCESS
}
