//! Damage to texts, tables and settings.

use crate::random::Random;
use interpreter::{Table, AMOUNT_LIMIT};

/// One to three edits of a text.
pub fn text(random: &mut Random, text: &mut Vec<u8>) {
    for _ in 0..random.weighted(&[(7, 1), (2, 2), (1, 3)]) {
        match random.below(5) {
            0 => bytes(random, text),
            _ => fields(random, text),
        }
    }
}

/// An edit that knows nothing of fields.
fn bytes(random: &mut Random, text: &mut Vec<u8>) {
    if text.is_empty() {
        text.push(random.word() as u8);
        return;
    }
    let at = random.below(text.len());
    match random.below(5) {
        0 => text[at] ^= 1 << random.below(8),
        1 => {
            text.remove(at);
        }
        2 => text.insert(at, random.word() as u8),
        3 => text.insert(at, *random.pick(b",,-+0P19ZNBLST \n")),
        _ => text.truncate(at),
    }
}

/// An edit of one field or of the row of fields.
fn fields(random: &mut Random, text: &mut Vec<u8>) {
    let mut fields: Vec<Vec<u8>> = text
        .split(|byte| *byte == b',')
        .map(<[u8]>::to_vec)
        .collect();
    let at = random.below(fields.len());
    let open: Vec<usize> = (0..fields.len())
        .filter(|at| fields[*at].contains(&b'+'))
        .collect();
    if !open.is_empty() && random.chance(20) {
        let at = *random.pick(&open);
        fields[at] = settings(random, &fields[at]);
        *text = fields.join(&b',');
        return;
    }
    match random.below(13) {
        0 => {
            fields.remove(at);
        }
        1 => {
            let other = random.below(fields.len());
            fields.swap(at, other);
        }
        2 => {
            let copy = fields[random.below(fields.len())].clone();
            fields.insert(at, copy);
        }
        3 => fields.push(random.pick(&[&b""[..], b"Z", b"0", b"T,1,2"]).to_vec()),
        4 => fields.truncate(at + 1),
        _ => {
            let like = fields[at].clone();
            // Rather a number than a letter, as there are fewer of them.
            let numbers: Vec<usize> = (0..fields.len())
                .filter(|at| fields[*at].iter().any(u8::is_ascii_digit))
                .collect();
            if like.len() == 1 && !like[0].is_ascii_digit() && random.chance(50) {
                fields[at] = letter(random, &like);
            } else if !numbers.is_empty() {
                let at = *random.pick(&numbers);
                fields[at] = number(random, &fields[at]);
            } else {
                fields[at] = letter(random, &like);
            }
        }
    }
    *text = fields.join(&b',');
}

/// Some letter, of any kind or of none.
fn letter(random: &mut Random, old: &[u8]) -> Vec<u8> {
    match random.below(12) {
        0 => old.to_ascii_lowercase(),
        1 => random
            .pick(&[&b"z"[..], b"J", b"ZZ", b"", b"M", b"P", b"0", b"S "])
            .to_vec(),
        _ => vec![*random.pick(b"ZTSLBWNOAUKQIGEYVRFH")],
    }
}

/// A field in a number's place: a little off, out of range or malformed.
fn number(random: &mut Random, old: &[u8]) -> Vec<u8> {
    if old.contains(&b'+') && random.chance(50) {
        return settings(random, old);
    }
    let with = |prefix: &[u8]| [prefix, old].concat();
    let behind = |suffix: &[u8]| [old, suffix].concat();
    match random.below(14) {
        0 => with(b"0"),
        1 => with(b"+"),
        2 => with(b"-"),
        3 => b"-0".to_vec(),
        4 => vec![],
        5 => behind(b"0"),
        6 => behind(b"+P0"),
        7 => behind(b" "),
        8 => random
            .pick(&[
                &b"99999999999999999999999999999999999999999"[..],
                b"-99999999999999999999999999999999999999999",
                b"9223372036854775808",
                b"-9223372036854775808",
                b"18446744073709551617",
                b"340282366920938463463374607431768211457",
            ])
            .to_vec(),
        9 => random
            .pick(&[
                &b"P0"[..],
                b"P7",
                b"P8",
                b"P",
                b"P00",
                b"p1",
                b"P-1",
                b"0+P1+P0",
                b"0+P7",
                b"P0+P1",
                b"1+1",
                b"+P0",
            ])
            .to_vec(),
        10 | 11 => random
            .pick(&[
                0,
                1,
                7,
                8,
                9,
                10,
                60,
                61,
                599,
                600,
                601,
                19_200,
                19_201,
                AMOUNT_LIMIT,
                AMOUNT_LIMIT + 1,
            ])
            .to_string()
            .into_bytes(),
        12 => random
            .pick(&[-1, -60, -61, -AMOUNT_LIMIT, -AMOUNT_LIMIT - 1])
            .to_string()
            .into_bytes(),
        _ => random.range(-2, 9).to_string().into_bytes(),
    }
}

/// A month with its settings out of order, or too many, or without its number.
fn settings(random: &mut Random, old: &[u8]) -> Vec<u8> {
    let mut parts: Vec<&[u8]> = old.split(|byte| *byte == b'+').collect();
    match random.below(5) {
        0 | 1 => parts[1..].reverse(),
        2 => {
            while parts.len() < 33 {
                parts.push(parts[parts.len() - 1]);
            }
        }
        3 => {
            parts.remove(0);
        }
        _ => parts.push(b"P0"),
    }
    parts.join(&b'+')
}

/// Makes a text as long as its limit or longer.
pub fn length(random: &mut Random, text: &mut Vec<u8>, limit: usize) {
    let aim = limit + *random.pick(&[0, 1, 1, 2, 100]);
    let filler: Vec<u8> = random
        .pick(&[&b",Z"[..], b"Z", b",B,Z", b"L,0,", b"\n"])
        .to_vec();
    while text.len() < aim {
        let rest = aim - text.len();
        text.extend_from_slice(&filler[..filler.len().min(rest)]);
    }
}

/// One or two rules of a table broken.
pub fn table(random: &mut Random, table: &mut Table) {
    for _ in 0..random.weighted(&[(8, 1), (2, 2)]) {
        one_of_table(random, table);
    }
}

fn one_of_table(random: &mut Random, table: &mut Table) {
    let extreme = |random: &mut Random| *random.pick(&[i64::MIN, i64::MAX, -1, i64::MIN + 1]);
    let put = |random: &mut Random, list: &mut Vec<i64>, value: i64| {
        if !list.is_empty() {
            let at = random.below(list.len());
            list[at] = value;
        }
    };
    match random.below(18) {
        0 => table.h = *random.pick(&[-1, 61, 62, -60]),
        1 => table.f = *random.pick(&[-1, 601, 602, -2]),
        2 => table.h = extreme(random),
        3 => table.f = extreme(random),
        4 => table.factors.push(0),
        5 => {
            table.factors.pop();
        }
        6 => put(random, &mut table.factors, 1_000_001),
        7 => {
            let value = extreme(random);
            put(random, &mut table.factors, value);
        }
        8 => put(random, &mut table.bounds, -1),
        9 => put(random, &mut table.bounds, AMOUNT_LIMIT + 1),
        10 => {
            let value = extreme(random);
            put(random, &mut table.bounds, value);
        }
        11 => table.values.push(0),
        12 => {
            table.values.pop();
        }
        13 | 16 => {
            // Nine labels and more, their values all there.
            let months = (i128::from(table.h) + i128::from(table.f) + 1).clamp(0, 700) as usize;
            let labels = random.range(9, 12) as usize;
            table.bounds = vec![1; labels];
            table.values = vec![1; labels * months];
        }
        14 => {
            let value = extreme(random);
            put(random, &mut table.values, value);
        }
        _ => {
            // One value just beyond its bound.
            let months = (i128::from(table.h) + i128::from(table.f) + 1).max(1);
            if !table.values.is_empty() && (months as usize) <= table.values.len() {
                let at = random.below(table.values.len());
                if let Some(bound) = table.bounds.get(at / months as usize) {
                    let beyond = bound.saturating_add(1);
                    table.values[at] = *random.pick(&[beyond, beyond.saturating_neg()]);
                }
            }
        }
    }
}

/// Settings outside their rules.
pub fn days(random: &mut Random, days: &mut Vec<i64>) {
    match random.below(4) {
        0 => days.resize(random.range(9, 12) as usize, 0),
        1 => {
            days.pop();
        }
        2 => days.clear(),
        _ => {
            let at = random.below(days.len() + 1);
            let day = *random.pick(&[-1, 601, 602, i64::MIN, i64::MAX]);
            days.insert(at, day);
            days.truncate(8);
        }
    }
}

/// A month that may lie outside 0 to f.
pub fn month(random: &mut Random, f: i64) -> i64 {
    *random.pick(&[
        -1,
        f.saturating_add(1),
        f.saturating_add(2),
        i64::MIN,
        i64::MAX,
        0,
    ])
}

/// A party that may lie outside 1 to 9.
pub fn party(random: &mut Random) -> i64 {
    *random.pick(&[0, 10, -1, i64::MIN, i64::MAX, 9, 1])
}
