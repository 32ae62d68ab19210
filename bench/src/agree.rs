//! Random calls, made on both sides and compared: what is returned, and every byte of the lent lists.

use crate::ask::{Ask, CALLS};
use crate::generate;
use crate::random::Random;
use std::process::ExitCode;

pub fn options(words: &[&str]) -> Option<(u64, u64)> {
    let mut options = (100_000, 1);
    for pair in words.chunks(2) {
        match pair {
            ["--calls", calls] => options.0 = calls.parse().ok()?,
            ["--seed", seed] => options.1 = seed.parse().ok()?,
            _ => return None,
        }
    }
    Some(options)
}

/// How often each call was refused with each number (0: accepted), and how many calls differ.
type Counts = ([[u64; 15]; 7], u64);

/// Makes the calls on both sides; the first few that differ are printed.
pub fn compare(calls: u64, seed: u64) -> Counts {
    let mut counts = [[0u64; 15]; 7];
    let mut failed = 0;
    for k in 0..calls {
        let random = &mut Random::new(seed.wrapping_mul(1_000_003).wrapping_add(k));
        let ask = generate::ask(random);
        let (room, places) = lent(random, &ask);
        let [engine, by_hand] = ask.both(room, places);
        if engine != by_hand {
            failed += 1;
            if failed <= 5 {
                differ(&ask, room, places, &engine, &by_hand);
            }
        }
        counts[ask.call as usize][refusal(&by_hand)] += 1;
    }
    (counts, failed)
}

/// The refusal's number, also where a sheet's line says it.
fn refusal((told, answer, out): &Told) -> usize {
    match told {
        0 if out.starts_with(b"refused,") => {
            let line = String::from_utf8_lossy(&out[8..answer[0] as usize - 1]);
            line.parse().unwrap_or(0)
        }
        _ => *told as usize,
    }
}

pub fn run(calls: u64, seed: u64) -> ExitCode {
    let (counts, failed) = compare(calls, seed);
    for call in CALLS {
        let counts = counts[call as usize];
        let refused: Vec<String> = (1..15)
            .filter(|&number| counts[number] > 0)
            .map(|number| format!("{number}: {}", counts[number]))
            .collect();
        let name = call.name();
        println!(
            "{name}: {} accepted; refused with {}",
            counts[0],
            refused.join(", ")
        );
    }
    println!("{} passed, {failed} failed", calls - failed);
    match failed == 0 && calls > 0 {
        true => ExitCode::SUCCESS,
        false => ExitCode::FAILURE,
    }
}

/// How long the lent lists are: mostly room enough, else about as long as the answer.
fn lent(random: &mut Random, ask: &Ask) -> (usize, usize) {
    let mut out = vec![0; 60_000];
    let mut answer = [0; 2];
    let told = ask.by_hand(&mut out, &mut answer);
    let bytes = match told == 0 {
        true => answer[0].max(answer[1]).clamp(0, 60_000) as usize,
        false => 100,
    };
    let room = match random.below(12) {
        0 => bytes,
        1 => bytes.saturating_sub(1),
        2 => random.below(bytes + 1),
        _ => bytes + 40,
    };
    (
        room.min(60_000),
        if random.once_in(25) {
            random.below(3)
        } else {
            3
        },
    )
}

type Told = (i32, Vec<i64>, Vec<u8>);

fn differ(ask: &Ask, room: usize, places: usize, engine: &Told, by_hand: &Told) {
    println!(
        "{} differs, out of {room} bytes, answer of {places}",
        ask.call.name()
    );
    println!("  text {}", String::from_utf8_lossy(&ask.text));
    println!("  days {:?} h {} f {}", ask.days, ask.table.h, ask.table.f);
    println!("  bounds {:?}", ask.table.bounds);
    println!(
        "  today {} pair {} {} month {}",
        ask.today, ask.p, ask.q, ask.month
    );
    for (name, side) in [("engine", engine), ("by hand", by_hand)] {
        let out = String::from_utf8_lossy(&side.2[..side.2.len().min(200)]);
        println!("  {name}: {} {:?} {out}", side.0, side.1);
    }
}
