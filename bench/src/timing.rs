//! Engine and hand-written version in turn, in one process; the best of many rounds.

use crate::ask::Ask;
use std::hint::black_box;
use std::time::Instant;

/// Nanoseconds a call.
#[derive(Clone, Copy)]
pub struct Pair {
    pub engine: f64,
    pub by_hand: f64,
}

impl Pair {
    pub const WORST: Pair = Pair {
        engine: f64::MAX,
        by_hand: f64::MAX,
    };

    pub fn ratio(self) -> f64 {
        self.engine / self.by_hand
    }

    fn better(self, other: Pair) -> Pair {
        Pair {
            engine: self.engine.min(other.engine),
            by_hand: self.by_hand.min(other.by_hand),
        }
    }
}

type Side = fn(&Ask, &mut [u8], &mut [i64]) -> i32;

/// A batch of calls lasts at least this long, in nanoseconds.
const BATCH: f64 = 25_000.0;
/// Rounds in a pass over all cells, and fewer where a call takes longer than 200 us.
const ROUNDS: usize = 100;
const FEWER: usize = 20;
/// A neighbour may slow the machine down for seconds, so each cell is taken up several times.
const PASSES: usize = 8;

/// The best times of each call. Where the sides differ or refuse, the program ends.
pub fn timed(cells: &[(String, Ask)]) -> Vec<Pair> {
    for (name, ask) in cells {
        agreed(name, ask);
    }
    let mut best = vec![Pair::WORST; cells.len()];
    for _ in 0..PASSES {
        for (best, (_, ask)) in best.iter_mut().zip(cells) {
            *best = best.better(pass(ask));
        }
    }
    best
}

fn agreed(name: &str, ask: &Ask) {
    let [engine, by_hand] = ask.both(60_000, 3);
    let call = ask.call.name();
    if engine != by_hand {
        eprintln!(
            "{name}: {call}: the sides differ: {} and {}",
            engine.0, by_hand.0
        );
        eprintln!("{}", String::from_utf8_lossy(&ask.text));
        std::process::exit(1);
    }
    if engine.0 != 0 || engine.2.starts_with(b"refused") {
        eprintln!("{name}: {call}: refused with {}", engine.0);
        std::process::exit(1);
    }
}

fn pass(ask: &Ask) -> Pair {
    let mut lent = (vec![0; 60_000], [0; 2]);
    let sides: [Side; 2] = [Ask::engine, Ask::by_hand];
    let once = sides.map(|side| {
        (0..3)
            .map(|_| batch(side, ask, 1, &mut lent))
            .fold(f64::MAX, f64::min)
    });
    let times = once.map(|call| (BATCH / call).ceil().clamp(1.0, 10_000.0) as u32);
    let rounds = if once[0].max(once[1]) > 200_000.0 {
        FEWER
    } else {
        ROUNDS
    };
    let mut best = once;
    for round in 0..rounds {
        for turn in 0..2 {
            let k = (round + turn) % 2;
            best[k] = best[k].min(batch(sides[k], ask, times[k], &mut lent));
        }
    }
    Pair {
        engine: best[0],
        by_hand: best[1],
    }
}

fn batch(side: Side, ask: &Ask, times: u32, lent: &mut (Vec<u8>, [i64; 2])) -> f64 {
    let start = Instant::now();
    for _ in 0..times {
        black_box(side(black_box(ask), &mut lent.0, &mut lent.1));
    }
    start.elapsed().as_nanos() as f64 / times as f64
}
