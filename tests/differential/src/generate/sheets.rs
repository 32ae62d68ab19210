//! Sheets, and damage to their lines.

use super::damage;
use crate::random::Random;
use interpreter::Table;

/// The lines of a sheet, without their line feeds.
pub fn lines(plan: &[u8], days: &[i64], table: &Table, pair: (i64, i64)) -> Vec<Vec<u8>> {
    let line = |word: &str, numbers: &[i64]| {
        let fields: String = numbers.iter().map(|n| format!(",{n}")).collect();
        format!("{word}{fields}").into_bytes()
    };
    let mut lines = vec![
        [b"plan,", plan].concat(),
        line("days", days),
        line("span", &[table.h, table.f]),
        line("factors", &table.factors),
        line("pair", &[pair.0, pair.1]),
    ];
    let months = (i128::from(table.h) + i128::from(table.f) + 1).clamp(0, 700) as usize;
    for (label, bound) in table.bounds.iter().enumerate() {
        let from = (label * months).min(table.values.len());
        let to = (from + months).min(table.values.len());
        let fields = [&[label as i64, *bound], &table.values[from..to]].concat();
        lines.push(line("index", &fields));
    }
    lines
}

/// The sheet of these lines, "each ended by a line feed".
pub fn text(lines: &[Vec<u8>]) -> Vec<u8> {
    lines
        .iter()
        .flat_map(|line| [line, &b"\n"[..]].concat())
        .collect()
}

/// A fault of the sheet itself, more or less.
pub fn damaged(random: &mut Random, mut lines: Vec<Vec<u8>>) -> Vec<u8> {
    let at = random.below(lines.len());
    match random.below(12) {
        0 => {
            lines.remove(at);
        }
        1 => {
            let other = random.below(lines.len());
            lines.swap(at, other);
        }
        2 => {
            let copy = lines[at].clone();
            lines.insert(random.below(lines.len() + 1), copy);
        }
        3 => lines.insert(at, vec![]),
        4 if random.chance(50) => lines.push(vec![]),
        4 => lines.truncate(at),
        5 => {
            let mut sheet = text(&lines);
            sheet.pop();
            return sheet;
        }
        6 => {
            let mut sheet = text(&lines);
            damage::text(random, &mut sheet);
            return sheet;
        }
        7 => lines[at].push(*random.pick(b"\r ,0")),
        8 => lines[at] = first_word(random, &lines[at]),
        9 => {
            lines[at] = lines[at]
                .split(|byte| *byte == b',')
                .next()
                .unwrap()
                .to_vec()
        }
        _ => {
            // Any line but the plan's, whose faults are not the sheet's.
            let at = random.range(1, lines.len() as i64 - 1) as usize;
            damage::text(random, &mut lines[at]);
        }
    }
    text(&lines)
}

fn first_word(random: &mut Random, line: &[u8]) -> Vec<u8> {
    let words = [
        &b"plan"[..],
        b"days",
        b"span",
        b"factors",
        b"pair",
        b"index",
        b"Plan",
        b"",
        b"edition",
    ];
    let word = *random.pick(&words);
    let rest = line.iter().position(|byte| *byte == b',');
    [word, &line[rest.unwrap_or(line.len())..]].concat()
}
