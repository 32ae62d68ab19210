//! Random texts, tables and sheets, of which about half are accepted.

use crate::ask::{Ask, Call, Table, CALLS};
use crate::random::Random;

const LIMIT: i64 = 9_000_000_000_000;

/// What keeps a text likely to be accepted.
struct Writer<'a> {
    random: &'a mut Random,
    payoff: bool,
    /// Fields mostly stay where acceptance is likely.
    tame: bool,
    h: i64,
    /// Months that may still be waited, and labels and settings that there are.
    months: i64,
    labels: usize,
    days: usize,
    nodes: i64,
}

impl Writer<'_> {
    fn number(&mut self) -> i64 {
        match self.random.below(if self.tame { 30 } else { 12 }) {
            0 => self.random.within(-LIMIT, LIMIT),
            1 => [LIMIT, -LIMIT, 3_000_000, 2_999_999, 1 << 21][self.random.below(5)],
            2..=4 => self.random.within(-100_000, 100_000),
            _ => self.random.within(-9, 9),
        }
    }

    fn delay(&mut self) -> String {
        if self.random.once_in(4) {
            let known = if self.tame { self.days.min(8) } else { 8 };
            if known > 0 {
                return format!("P{}", self.random.below(known));
            }
        }
        if !self.tame && self.random.once_in(4) {
            return self.random.within(0, 600).to_string();
        }
        let most = self.months.clamp(0, 600);
        let most = if self.random.once_in(3) {
            most
        } else {
            most.min(3)
        };
        let months = self.random.within(0, most);
        self.months -= months;
        months.to_string()
    }

    fn month(&mut self, low: i64) -> String {
        let high = if self.tame {
            self.months.clamp(0, 600)
        } else {
            19_200
        };
        let number = match self.random.once_in(3) {
            true => self.random.within(low.min(0), high),
            false => self.random.within(0, high.min(4)),
        };
        let mut text = number.to_string();
        if self.random.once_in(5) {
            let known = if self.tame { self.days.min(8) } else { 8 };
            let count = [1, 2, 3, 5, 31, 32][self.random.below(if self.tame { 5 } else { 6 })];
            let mut all: Vec<usize> = (0..count).map(|_| self.random.below(known)).collect();
            if self.tame || !self.random.once_in(4) {
                all.sort_unstable();
            }
            if known > 0 {
                text.extend(all.iter().map(|k| format!("+P{k}")));
            }
        }
        text
    }

    fn parties(&mut self) -> String {
        if self.random.once_in(2) {
            return "1,2".into();
        }
        let most = if self.random.once_in(5) { 9 } else { 2 };
        format!(
            "{},{}",
            self.random.within(1, most),
            self.random.within(1, most)
        )
    }

    fn plan(&mut self, depth: i64) -> String {
        self.nodes -= 1;
        if depth <= 1 || self.nodes <= 0 || self.random.once_in(8) {
            return match self.random.below(4) {
                0 => "Z".into(),
                _ if self.payoff => {
                    let letter = self.random.of(&["F", "H"]);
                    format!("{letter},{},{}", self.month(-1), self.parties())
                }
                _ => format!("T,{}", self.parties()),
            };
        }
        let months = self.months;
        let text = match self.random.below(7) {
            // A reading ahead that is known in time, or as early as possible.
            5 if !self.payoff && self.labels > 0 => {
                let label = self.random.below(self.labels);
                let delay = self.random.within(0, self.months.clamp(0, 4));
                let offset = self.random.within(delay - 1, delay).max(0);
                self.months -= delay;
                format!("S,O,{label},{offset},L,{delay},{}", self.plan(depth - 1))
            }
            // A reading back that only the second plan of a wait may make.
            6 if !self.payoff && self.labels > 0 => {
                let label = self.random.below(self.labels);
                let delay = self.random.within(0, self.months.clamp(0, 4));
                let test = self.test(depth - 1);
                let one = self.plan(depth - 1);
                self.months -= delay;
                let back = -self.random.within(delay - 1, delay + self.h.min(1)).max(0);
                let two = self.plan(depth - 1);
                format!("W,{delay},{test},{one},S,O,{label},{back},{two}")
            }
            0 if !self.payoff => format!("L,{},{}", self.delay(), self.plan(depth - 1)),
            0 | 1 => format!("B,{},{}", self.plan(depth - 1), self.plan(depth - 1)),
            2 | 3 => format!("S,{},{}", self.amount(depth - 1), self.plan(depth - 1)),
            _ => {
                let delay = self.delay();
                let test = self.test(depth - 1);
                format!(
                    "W,{delay},{test},{},{}",
                    self.plan(depth - 1),
                    self.plan(depth - 1)
                )
            }
        };
        self.months = months;
        text
    }

    fn amount(&mut self, depth: i64) -> String {
        self.nodes -= 1;
        if depth <= 1 || self.nodes <= 0 || self.random.once_in(4) {
            let labels = if self.tame { self.labels } else { 8 };
            if self.random.once_in(2) || labels == 0 {
                return format!("N,{}", self.number());
            }
            let label = self.random.below(labels);
            if self.payoff {
                return format!("O,{label},{}", self.month(-self.h));
            }
            let offset = match self.random.below(if self.tame { 12 } else { 3 }) {
                0 => self.random.within(-60, 600),
                1 => self
                    .random
                    .within(-self.h.clamp(0, 60), self.months.clamp(0, 600)),
                _ => self.random.within(-self.h.clamp(0, 2), 0),
            };
            return format!("O,{label},{offset}");
        }
        match self.random.below(6) {
            0 | 1 => format!("A,{},{}", self.amount(depth - 1), self.amount(depth - 1)),
            2 => format!("U,{},{}", self.amount(depth - 1), self.amount(depth - 1)),
            3 => format!("K,{},{}", self.amount(depth - 1), self.amount(depth - 1)),
            4 => format!(
                "Q,{},{}",
                self.number().abs().max(1),
                self.amount(depth - 1)
            ),
            _ => {
                let test = self.test(depth - 1);
                format!(
                    "I,{test},{},{}",
                    self.amount(depth - 1),
                    self.amount(depth - 1)
                )
            }
        }
    }

    fn test(&mut self, depth: i64) -> String {
        self.nodes -= 1;
        match self.random.below(7) {
            0 if depth > 1 => format!("Y,{},{}", self.test(depth - 1), self.test(depth - 1)),
            1 if depth > 1 => format!("V,{},{}", self.test(depth - 1), self.test(depth - 1)),
            2 if depth > 1 => format!("R,{}", self.test(depth - 1)),
            3 | 4 => format!("E,{},{}", self.amount(depth - 1), self.amount(depth - 1)),
            _ => format!("G,{},{}", self.amount(depth - 1), self.amount(depth - 1)),
        }
    }
}

fn table(random: &mut Random) -> Table {
    let h = [0, 0, 1, 3, 60][random.below(5)];
    let f = match random.below(8) {
        0 => 600,
        1 => 0,
        _ => random.within(1, 30),
    };
    let labels = random.below(9);
    let mut table = Table {
        h,
        f,
        factors: (0..=f).map(|_| random.within(0, 1_000_000)).collect(),
        ..Table::default()
    };
    for _ in 0..labels {
        let kinds = if random.once_in(9) { 5 } else { 3 };
        let bound = [0, 5, 200, 1_000_000, LIMIT][random.below(kinds)];
        table.bounds.push(bound);
        for _ in 0..h + f + 1 {
            table.values.push(random.within(-bound, bound));
        }
    }
    if random.once_in(15) {
        spoil(random, &mut table);
    }
    table
}

fn spoil(random: &mut Random, table: &mut Table) {
    let odd = [
        -1,
        61,
        601,
        1_000_001,
        LIMIT + 1,
        -LIMIT - 1,
        i64::MAX,
        i64::MIN,
    ][random.below(8)];
    match random.below(8) {
        0 => table.h = odd,
        1 => table.f = odd,
        2 => drop(table.factors.pop()),
        3 => table.factors.push(0),
        4 => drop(table.values.pop()),
        5 => table.bounds.push(0),
        6 => {
            let k = random.below(table.factors.len());
            if let Some(factor) = table.factors.get_mut(k) {
                *factor = odd;
            }
        }
        _ => {
            let k = random.below(table.values.len());
            if let Some(value) = table.values.get_mut(k) {
                *value = odd;
            }
        }
    }
}

/// Changes a byte or a field.
fn damaged(random: &mut Random, text: &mut Vec<u8>) {
    let at = random.below(text.len() + 1);
    let byte = random.of(&[
        "A", "F", "Z", "N", "P0", ",", "0", "-", "9", "+", "L", "\n", "1,", "\u{e9}",
    ]);
    if random.once_in(3) {
        // Another letter, mostly of the wrong kind.
        let letters: Vec<usize> = (0..text.len())
            .filter(|&k| text[k].is_ascii_uppercase())
            .collect();
        if !letters.is_empty() {
            let other = b"ZTSLBWNOAUKQIGEYVRFHPX"[random.below(22)];
            text[letters[random.below(letters.len())]] = other;
            return;
        }
    }
    match random.below(4) {
        0 if at < text.len() => drop(text.remove(at)),
        1 => text.truncate(at),
        2 if at < text.len() => text[at] = byte.as_bytes()[0],
        _ => drop(text.splice(at..at, byte.bytes())),
    }
}

/// Texts at the limits of nodes, depth and bytes.
fn edge(random: &mut Random, payoff: bool) -> String {
    let leaf = if payoff { "F,0,1,2" } else { "T,1,2" };
    let count = 28 + random.below(7);
    match random.below(6) {
        0 => format!("{}{leaf}", "B,Z,".repeat(count)),
        1 => format!("S,{}N,1,{leaf}", "Q,2,".repeat(count)),
        2 => format!("W,1,{}E,N,1,N,1,Z,{leaf}", "R,".repeat(count)),
        3 => {
            // From 509 to 515 nodes, balanced.
            fn both(leaves: usize, leaf: &str) -> String {
                match leaves {
                    1 => leaf.into(),
                    _ => format!(
                        "B,{},{}",
                        both(leaves / 2, leaf),
                        both(leaves - leaves / 2, leaf)
                    ),
                }
            }
            let more = random.of(&["", "S,N,2,"]);
            format!("{more}{}", both(254 + random.below(4), leaf))
        }
        4 => "S,N,9000000000000,".repeat(count) + "Z",
        _ => format!(
            "{}Z",
            "B,Z,".repeat([2_175, 13_439, 2_176, 13_440][random.below(4)])
        ),
    }
}

fn text(random: &mut Random, payoff: bool, days: &[i64], table: &Table) -> Vec<u8> {
    if random.once_in(25) {
        return edge(random, payoff).into_bytes();
    }
    let tame = !random.once_in(6);
    let compiled = payoff && random.once_in(2);
    let depth = [2, 3, 4, 5, 7, 9, 12][random.below(7)];
    let mut writer = Writer {
        payoff: payoff && !compiled,
        tame,
        h: table.h.clamp(0, 60),
        months: table.f.clamp(0, 600),
        labels: table.bounds.len().min(8),
        days: days.len(),
        nodes: [5, 12, 40, 300][random.below(4)],
        random,
    };
    let mut text = writer.plan(depth).into_bytes();
    if compiled {
        if let Some(payoff) = crate::baseline_text(Call::Compile, &text) {
            text = payoff.into_bytes();
        }
    }
    if random.once_in(10) {
        damaged(random, &mut text);
    }
    text
}

fn sheet(random: &mut Random, plan: &[u8], ask: &Ask) -> Vec<u8> {
    let list =
        |numbers: &[i64]| -> String { numbers.iter().map(|number| format!(",{number}")).collect() };
    let table = &ask.table;
    let mut text = b"plan,".to_vec();
    text.extend_from_slice(plan);
    text.extend_from_slice(format!("\ndays{}\n", list(&ask.days)).as_bytes());
    text.extend_from_slice(format!("span,{},{}\n", table.h, table.f).as_bytes());
    text.extend_from_slice(format!("factors{}\n", list(&table.factors)).as_bytes());
    text.extend_from_slice(format!("pair,{},{}\n", ask.p, ask.q).as_bytes());
    let months = table
        .h
        .saturating_add(table.f)
        .saturating_add(1)
        .clamp(1, 10_000) as usize;
    let mut chunks = table.values.chunks(months);
    for (label, bound) in table.bounds.iter().enumerate() {
        let values = list(chunks.next().unwrap_or(&[]));
        text.extend_from_slice(format!("index,{label},{bound}{values}\n").as_bytes());
    }
    if random.once_in(6) {
        damaged(random, &mut text);
    }
    if random.once_in(200) {
        let at = random.below(text.len());
        text.splice(
            at..at,
            std::iter::repeat_n(b'7', 59_990 - text.len().min(59_980) + random.below(20)),
        );
    }
    text
}

pub fn ask(random: &mut Random) -> Ask {
    let call = CALLS[random.below(7)];
    let table = table(random);
    let mut days: Vec<i64> = (0..random.below(9)).map(|_| random.within(0, 3)).collect();
    if random.once_in(30) {
        days.push([-1, 600, 601, 3, i64::MIN][random.below(5)]);
    }
    let f = table.f.clamp(0, 600);
    let mut ask = Ask {
        call,
        text: Vec::new(),
        today: if random.once_in(3) {
            random.within(0, f)
        } else {
            0
        },
        p: 1,
        q: 2,
        month: 0,
        days,
        table,
    };
    if random.once_in(4) {
        (ask.p, ask.q) = (random.within(1, 2), random.within(1, 3));
    }
    ask.month = match random.below(20) {
        0 => random.within(-1, f + 1),
        1..=8 => random.within(ask.today, f),
        _ => random.within(ask.today, f.min(ask.today + 5)),
    };
    if random.once_in(30) {
        ask.today = [-1, f + 1, i64::MAX, i64::MIN][random.below(4)];
    }
    if random.once_in(30) {
        ask.p = [0, 9, 10, -1, i64::MAX][random.below(5)];
    }
    let payoff = matches!(call, Call::Cut | Call::Evaluate);
    ask.text = text(random, payoff, &ask.days, &ask.table);
    if call == Call::Sheet {
        ask.text = sheet(random, &ask.text.clone(), &ask);
    }
    ask
}
