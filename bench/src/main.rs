//! Every call of the engine beside a hand-written version of it, in one run.

mod agree;
mod ask;
mod baseline;
mod count;
mod generate;
mod loads;
mod picture;
mod random;
mod report;
mod stack;
mod timing;

use ask::Call;
use std::process::ExitCode;

const USAGE: &str = "usage: bench | bench only CALL | bench walks | bench stack | bench count\n       bench agree [--calls N] [--seed S]";

fn main() -> ExitCode {
    let words: Vec<String> = std::env::args().skip(1).collect();
    let words: Vec<&str> = words.iter().map(String::as_str).collect();
    match words[..] {
        ["only", name] => {
            let lines = report::calls(&loads::all(), |call| call.name() == name);
            print!("{}", report::calls_text(&lines));
            ExitCode::SUCCESS
        }
        ["walks"] => {
            print!("{}", report::walks());
            ExitCode::SUCCESS
        }
        [] => all(),
        ["stack"] => {
            print!("{}", stack::text());
            ExitCode::SUCCESS
        }
        ["count"] => match count::text() {
            Some(text) => {
                print!("{text}");
                ExitCode::SUCCESS
            }
            None => {
                eprintln!("valgrind did not count");
                ExitCode::FAILURE
            }
        },
        ["repeat", side, call, load, times] => {
            let numbers = load.parse().ok().zip(times.parse().ok());
            match numbers.and_then(|(load, times)| count::repeat(side, call, load, times)) {
                Some(()) => ExitCode::SUCCESS,
                None => usage(),
            }
        }
        ["agree", ref options @ ..] => match agree::options(options) {
            Some((calls, seed)) => agree::run(calls, seed),
            None => usage(),
        },
        _ => usage(),
    }
}

fn usage() -> ExitCode {
    eprintln!("{USAGE}");
    ExitCode::from(2)
}

/// Prints the tables, and writes them and the picture beside this program's sources.
fn all() -> ExitCode {
    // Times of a version that answers something else would mean nothing.
    let (_, failed) = agree::compare(report::RANDOM_CALLS, 1);
    if failed > 0 {
        eprintln!("{failed} random calls differ");
        return ExitCode::FAILURE;
    }
    let lines = report::calls(&loads::all(), |_| true);
    let text = report::text(&lines);
    print!("{text}");
    let files = [("results.md", text), ("results.svg", picture::svg(&lines))];
    for (name, text) in files {
        if let Err(fault) = std::fs::write(name, text) {
            eprintln!("{name}: {fault}");
            return ExitCode::FAILURE;
        }
    }
    ExitCode::SUCCESS
}

/// The text that the hand-written version writes for a text.
pub fn baseline_text(call: Call, text: &[u8]) -> Option<String> {
    let mut out = vec![0; 60_000];
    let mut answer = [0];
    let told = match call {
        Call::Compile => baseline::compile(text, &mut out, &mut answer),
        _ => baseline::cut(text, &mut out, &mut answer),
    };
    (told == 0).then(|| String::from_utf8_lossy(&out[..answer[0] as usize]).into())
}
