//! Instructions a call, counted by valgrind: the same in every run, whatever else the machine does.

use crate::ask::{Ask, Call, CALLS};
use crate::loads;
use crate::report::grouped;
use std::fmt::Write;
use std::hint::black_box;
use std::process::Command;

/// The sides, as the words of `repeat`.
const SIDES: [&str; 2] = ["engine", "by-hand"];
/// A call is counted as this many more than one, so that what the program does before falls out.
const MORE: u64 = 10;

/// Makes one call so many times; what the counter runs.
pub fn repeat(side: &str, call: &str, load: usize, times: u64) -> Option<()> {
    let call = CALLS.into_iter().find(|known| known.name() == call)?;
    let ask = loads::all().get(load)?.ask(call)?;
    let made = match SIDES.iter().position(|&known| known == side)? {
        0 => Ask::engine,
        _ => Ask::by_hand,
    };
    let mut lent = (vec![0; 60_000], [0; 2]);
    for _ in 0..times {
        black_box(made(black_box(&ask), &mut lent.0, &mut lent.1));
    }
    Some(())
}

/// The instructions of a run with so many calls. Clearing memory is counted in steps of 32 bytes, not byte by byte.
fn run(side: &str, call: Call, load: usize, times: u64) -> Option<u64> {
    let told = Command::new("valgrind")
        .args(["--tool=callgrind", "--callgrind-out-file=/dev/null"])
        .arg(std::env::current_exe().ok()?)
        .args(["repeat", side, call.name()])
        .args([load.to_string(), times.to_string()])
        .env(
            "GLIBC_TUNABLES",
            "glibc.cpu.x86_rep_stosb_threshold=1000000",
        )
        .output()
        .ok()?;
    let told = String::from_utf8_lossy(&told.stderr).into_owned();
    let (_, count) = told.split_once("Collected : ")?;
    count.split_whitespace().next()?.parse().ok()
}

/// Every call on every load that it fits.
pub fn text() -> Option<String> {
    let mut text = String::from(
        "| load | nodes | call | engine | hand-written | ratio |\n|---|---:|---|---:|---:|---:|\n",
    );
    for (number, load) in loads::all().iter().enumerate() {
        for call in CALLS {
            if load.ask(call).is_none() {
                continue;
            }
            let mut counts = [0.0; 2];
            for (count, side) in counts.iter_mut().zip(SIDES) {
                let more = run(side, call, number, 1 + MORE)? - run(side, call, number, 1)?;
                *count = more as f64 / MORE as f64;
            }
            let [engine, by_hand] = counts;
            let _ = writeln!(
                text,
                "| {} | {} | {} | {} | {} | {:.2} |",
                load.name,
                load.nodes(),
                call.name(),
                grouped(engine),
                grouped(by_hand),
                engine / by_hand
            );
        }
    }
    Some(text)
}
