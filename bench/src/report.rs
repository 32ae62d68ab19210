//! The tables, as Markdown. Their words stay the same from run to run.

use crate::ask::{Ask, Call, CALLS};
use crate::loads::{self, Load};
use crate::timing::{timed, Pair};
use std::fmt::Write;

pub struct Line {
    pub load: String,
    pub nodes: usize,
    pub call: Call,
    pub times: Pair,
}

/// Every wanted call on every load that it fits.
pub fn calls(loads: &[Load], wanted: impl Fn(Call) -> bool) -> Vec<Line> {
    let mut cells = Vec::new();
    let mut nodes = Vec::new();
    for load in loads {
        for call in CALLS.into_iter().filter(|&call| wanted(call)) {
            if let Some(ask) = load.ask(call) {
                cells.push((load.name.clone(), ask));
                nodes.push(load.nodes());
            }
        }
    }
    let times = timed(&cells);
    let mut lines = Vec::new();
    for (((load, ask), nodes), times) in cells.into_iter().zip(nodes).zip(times) {
        lines.push(Line {
            load,
            nodes,
            call: ask.call,
            times,
        });
    }
    lines
}

/// So many random calls are compared before times are taken, as the text says.
pub const RANDOM_CALLS: u64 = 20_000;

/// All tables.
pub fn text(lines: &[Line]) -> String {
    let parts = [
        "## Every call\n\nBefore times were taken, both sides answered the same, byte by byte: in 20,000 \
         random calls and in every call below.\n\nBest of many rounds, engine and hand-written version in turn, in nanoseconds a call. \
         A star marks a ratio above 1.0, for evaluate and sheet above 0.8.\n\n",
        &calls_text(lines),
        "\nOver all loads:\n\n",
        &summary(lines),
        "\n## A node in a month of waiting\n\nNanoseconds: payment with a wait of 600 less payment with a \
         wait of 0, divided by 600 and by the nodes of the test (`G`, both trees). Another build of the same code \
         moves these by a fifth and more (README.md).\n\n",
        &walks(),
        "\n## The hand-written version beside the anchor\n\nThe anchor is an earlier version by hand. Its \
         figures were taken on another machine, said to be about 1.5 times as fast; that factor was not \
         measured in this run. If it holds, a quotient below 1.5 is faster than the anchor. Times in \
         nanoseconds.\n\n",
        &anchors(lines),
        "\n## As nodes and months double\n\nNanoseconds a call.\n",
        &doubling(),
        "\n## Stack of the engine\n\nBytes painted over, the small frames of the wrapper among them. A \
         star marks more than 65,536 in a call other than sheet.\n\n",
        &crate::stack::text(),
    ];
    parts.concat()
}

pub fn calls_text(lines: &[Line]) -> String {
    let mut text = String::from(
        "| load | nodes | call | engine ns | hand-written ns | ratio |\n\
         |---|---:|---|---:|---:|---:|\n",
    );
    for line in lines {
        let Line {
            load,
            nodes,
            call,
            times,
        } = line;
        let name = call.name();
        let _ = writeln!(
            text,
            "| {load} | {nodes} | {name} | {} |",
            pair(*call, *times)
        );
    }
    text
}

/// The ratios of each call over all loads.
fn summary(lines: &[Line]) -> String {
    let mut text = String::from(
        "| call | least ratio | geometric mean | greatest ratio | aim |\n|---|---:|---:|---:|---:|\n",
    );
    for call in CALLS {
        let ratios: Vec<f64> = lines
            .iter()
            .filter(|line| line.call == call)
            .map(|line| line.times.ratio())
            .collect();
        let least = ratios.iter().copied().fold(f64::MAX, f64::min);
        let greatest = ratios.iter().copied().fold(0.0, f64::max);
        let mean = (ratios.iter().map(|ratio| ratio.ln()).sum::<f64>() / ratios.len() as f64).exp();
        let (name, aim) = (call.name(), call.aim());
        let _ = writeln!(
            text,
            "| {name} | {least:.2} | {mean:.2} | {greatest:.2} | {aim:.1} |"
        );
    }
    text
}

fn pair(call: Call, times: Pair) -> String {
    let (engine, by_hand) = (grouped(times.engine), grouped(times.by_hand));
    format!("{engine} | {by_hand} | {}", ratio(call.aim(), times))
}

/// A whole number, its digits in groups of three.
pub fn grouped(number: f64) -> String {
    let digits = format!("{number:.0}");
    let mut text = String::new();
    for (k, digit) in digits.chars().enumerate() {
        if k > 0 && (digits.len() - k) % 3 == 0 {
            text.push(',');
        }
        text.push(digit);
    }
    text
}

/// A star marks a ratio above the aim.
fn ratio(aim: f64, times: Pair) -> String {
    let ratio = times.ratio();
    let star = if ratio > aim { " *" } else { "" };
    format!("{ratio:.2}{star}")
}

/// What the first call takes more than the second, for each of `count` things.
fn share(more: Pair, less: Pair, count: usize) -> Pair {
    Pair {
        engine: (more.engine - less.engine) / count as f64,
        by_hand: (more.by_hand - less.by_hand) / count as f64,
    }
}

fn two(name: &str, more: Option<Ask>, less: Option<Ask>, count: usize) -> Pair {
    let cells = [more, less].map(|ask| (name.to_string(), ask.expect("the call fits")));
    let times = timed(&cells);
    share(times[0], times[1], count)
}

/// Nanoseconds a node-month of a wait.
pub fn walks() -> String {
    let mut text = String::from(
        "| test of the wait | nodes of the test | engine | hand-written | ratio |\n\
         |---|---:|---:|---:|---:|\n",
    );
    for (l, r) in [(127, 128), (5, 5), (1, 1), (64, 65)] {
        let nodes = 2 * (l + r) - 1;
        let [more, less] = [600, 0].map(|d| loads::wait_in_600(d, l, r).ask(Call::Payment));
        let times = two("walk", more, less, 600 * nodes);
        let Pair { engine, by_hand } = times;
        let ratio = ratio(1.0, times);
        let _ = writeln!(
            text,
            "| {l} and {r} leaves | {nodes} | {engine:.2} | {by_hand:.2} | {ratio} |"
        );
    }
    text
}

/// The anchor's figures in nanoseconds: check, step, compile, evaluate, sheet.
const ANCHORS: [(&str, [f64; 5]); 3] = [
    ("typical", [400.0, 480.0, 280.0, 3_600.0, 13_000.0]),
    ("flat sum", [2_900.0, 3_900.0, 4_000.0, 3_200.0, 15_000.0]),
    (
        "one wait",
        [3_000.0, 4_300.0, 2_700.0, 730_000.0, 730_000.0],
    ),
];

fn anchors(lines: &[Line]) -> String {
    let mut text =
        String::from("| what | anchor | hand-written here | quotient |\n|---|---:|---:|---:|\n");
    let calls = [
        Call::Check,
        Call::Step,
        Call::Compile,
        Call::Evaluate,
        Call::Sheet,
    ];
    for (load, anchors) in ANCHORS {
        for (call, anchor) in calls.into_iter().zip(anchors) {
            let found = |line: &&Line| line.load.starts_with(load) && line.call == call;
            let Some(line) = lines.iter().find(found) else {
                continue;
            };
            let here = line.times.by_hand;
            let _ = writeln!(
                text,
                "| {}, {} | {} | {} | {:.2} |",
                line.load,
                call.name(),
                grouped(anchor),
                grouped(here),
                here / anchor
            );
        }
    }
    let node = two(
        "node",
        loads::flat("", 512).ask(Call::Check),
        loads::flat("", 8).ask(Call::Check),
        504,
    );
    let month = two(
        "node-month",
        loads::wait_in_600(600, 127, 128).ask(Call::Payment),
        loads::wait_in_600(0, 127, 128).ask(Call::Payment),
        600 * 509,
    );
    let number = two(
        "number",
        loads::nothing(600, 8).ask(Call::Sheet),
        loads::nothing(600, 1).ask(Call::Sheet),
        7 * 601,
    );
    let line = two(
        "month of a sheet",
        loads::nothing(600, 0).ask(Call::Sheet),
        loads::nothing(300, 0).ask(Call::Sheet),
        300,
    );
    for (what, anchor, times) in [
        ("a node read and checked", 5.5, node),
        ("a node in a month of waiting", 2.4, month),
        ("a number read in a sheet", 5.6, number),
        ("a factor read and a line written in a sheet", 10.6, line),
    ] {
        let here = times.by_hand;
        let _ = writeln!(
            text,
            "| {what} | {anchor:.1} | {here:.1} | {:.2} |",
            here / anchor
        );
    }
    text
}

/// As nodes and months double.
fn doubling() -> String {
    let mut text = String::new();
    let sizes = [8, 16, 32, 64, 128, 256, 512];
    let sums = sizes.map(|nodes| (nodes, loads::flat("flat sum", nodes)));
    text += &growth("flat sum: nodes", &sums, &CALLS);
    let tests = sizes.map(|nodes| {
        let leaves = (nodes - 2) / 2;
        let load = loads::wait("test", 600, leaves / 2, leaves - leaves / 2);
        (nodes, load)
    });
    let waiting = [Call::Payment, Call::Evaluate, Call::Sheet];
    text += &growth("one wait of 600: nodes", &tests, &waiting);
    let months = [75, 150, 300, 600].map(|d| (d, loads::wait("months", d as i64, 64, 65)));
    text += &growth(
        "one wait, test of 257 nodes, f the same: months",
        &months,
        &waiting,
    );
    text
}

fn growth(name: &str, loads: &[(usize, Load)], calls: &[Call]) -> String {
    let mut text = format!(
        "\n| {name} | call | engine ns | hand-written ns | ratio |\n|---:|---|---:|---:|---:|\n"
    );
    let mut cells = Vec::new();
    let mut sizes = Vec::new();
    for &call in calls {
        for (size, load) in loads {
            if let Some(ask) = load.ask(call) {
                cells.push((name.to_string(), ask));
                sizes.push(size);
            }
        }
    }
    for ((times, (_, ask)), size) in timed(&cells).into_iter().zip(&cells).zip(sizes) {
        let name = ask.call.name();
        let _ = writeln!(text, "| {size} | {name} | {} |", pair(ask.call, times));
    }
    text
}
