//! Where a refusal comes from. The engine is asked about changed plans and tables; its answers tell
//! which part is at fault.

use crate::plan::{self, kind, Kind, Node};
use crate::sheet::{self, Sheet};

/// Where and why, in lines.
pub fn of(bytes: &[u8], refusal: i32) -> Vec<String> {
    if refusal == 1 && bytes.len() > 60_000 {
        return vec!["the sheet itself is too long".into()];
    }
    let sheet = match sheet::read(bytes) {
        Ok(sheet) => sheet,
        Err(fault) if refusal == 2 => {
            let line = bytes.split(|byte| *byte == b'\n').nth(fault.line - 1);
            let mut told = vec![format!(
                "in line {} of the sheet: {}",
                fault.line, fault.words
            )];
            if let Some(line) = line.filter(|line| !line.is_empty()) {
                told.push(format!("    {}", shown(&line[..line.len().min(70)])));
            }
            return told;
        }
        Err(_) => return Vec::new(),
    };
    match refusal {
        1 => vec!["in line 1 of the sheet: the plan is too long".into()],
        2..=5 => match plan::read(&sheet.plan) {
            Err(fault) if fault.number == refusal => {
                at(&sheet.plan, fault.from, fault.to, &fault.words)
            }
            _ => Vec::new(),
        },
        8 => settings(&sheet),
        9 => table(&sheet),
        10 => length(&sheet),
        11 => reads(&sheet),
        7 => timing(&sheet),
        6 => magnitude(&sheet),
        12 => pair(&sheet),
        _ => Vec::new(),
    }
}

fn shown(bytes: &[u8]) -> String {
    let printable = |byte: &u8| {
        if (b' '..=b'~').contains(byte) {
            *byte as char
        } else {
            '?'
        }
    };
    bytes.iter().map(printable).collect()
}

/// A place in the plan's text, with the bytes around it.
fn at(text: &[u8], from: usize, to: usize, words: &str) -> Vec<String> {
    let start = from.saturating_sub(30);
    let end = text.len().min(start + 76);
    let marks = to.min(end).saturating_sub(from).max(1);
    let before = if start > 0 { ".. " } else { "" };
    let after = if end < text.len() { " .." } else { "" };
    vec![
        format!("at byte {} of the plan: {words}", from + 1),
        format!("    {before}{}{after}", shown(&text[start..end])),
        format!(
            "    {}{}",
            " ".repeat(before.len() + from - start),
            "^".repeat(marks)
        ),
    ]
}

fn check(plan: &str, sheet: &Sheet) -> Result<(i64, i64), i32> {
    engine::check(plan.as_bytes(), &sheet.days, &sheet.table(), 0)
}

fn tree(sheet: &Sheet) -> Option<Node> {
    plan::read(&sheet.plan).ok()
}

fn settings(sheet: &Sheet) -> Vec<String> {
    if check("Z", sheet) == Err(8) {
        for (k, day) in sheet.days.iter().enumerate() {
            if engine::check(b"Z", &[*day], &sheet.table(), 0) == Err(8) {
                return vec![format!(
                    "in line 2 of the sheet: setting P{k}, {day}, is outside 0 to 600"
                )];
            }
        }
        return vec!["in line 2 of the sheet: more than eight settings".into()];
    }
    let Some(root) = tree(sheet) else {
        return Vec::new();
    };
    for node in root.all() {
        if let (b'L' | b'W', Some(delay)) = (node.letter, node.fields.first()) {
            // The same delay before a plan that does nothing else: refused only if it is not set.
            if delay.starts_with('P') && check(&format!("L,{delay},Z"), sheet) == Err(8) {
                return at(
                    &sheet.plan,
                    node.from,
                    node.from + 2 + delay.len(),
                    &format!("{delay} is used here, and line 2 of the sheet does not set it"),
                );
            }
        }
    }
    Vec::new()
}

fn broken(h: i64, f: i64, factors: &[i64], bounds: &[i64], values: &[i64]) -> bool {
    let table = engine::Table {
        h,
        f,
        factors,
        bounds,
        values,
    };
    engine::check(b"Z", &[], &table, 0) == Err(9)
}

fn table(sheet: &Sheet) -> Vec<String> {
    if broken(sheet.h, sheet.f, &vec![0; sheet.factors.len()], &[], &[]) {
        return vec![format!(
            "in line 3 of the sheet: h = {} has to be 0 to 60 and f = {} has to be 0 to 600",
            sheet.h, sheet.f
        )];
    }
    for (month, factor) in sheet.factors.iter().enumerate() {
        if broken(0, 0, &[*factor], &[], &[]) {
            return vec![format!("in line 4 of the sheet: the factor of month {month}, {factor}, is outside 0 to 1000000")];
        }
    }
    let months = sheet
        .values
        .len()
        .checked_div(sheet.bounds.len())
        .unwrap_or(0);
    for (label, bound) in sheet.bounds.iter().enumerate() {
        let line = label + 6;
        if broken(0, 0, &[0], &[*bound], &[0]) {
            return vec![format!("in line {line} of the sheet: the bound of index {label}, {bound}, is outside 0 to 9000000000000")];
        }
        for (k, value) in sheet.values[label * months..(label + 1) * months]
            .iter()
            .enumerate()
        {
            if broken(0, 0, &[0], &[*bound], &[*value]) {
                return vec![format!("in line {line} of the sheet: value {} of index {label}, {value}, is further from zero than the bound {bound}", k + 1)];
            }
        }
    }
    vec![format!(
        "in line {} of the sheet: more than eight labels",
        sheet.bounds.len().min(8) + 6
    )]
}

/// The shortest table for which the engine no longer answers 10 tells the plan's length.
fn length(sheet: &Sheet) -> Vec<String> {
    let plan = &sheet.plan;
    let months = |f: i64| vec![0; usize::try_from(f).unwrap_or(0) + 1];
    for f in sheet.f + 1..=600 {
        let table = engine::Table {
            h: 0,
            f,
            factors: &months(f),
            bounds: &[],
            values: &[],
        };
        if engine::check(plan, &sheet.days, &table, 0) != Err(10) {
            return vec![format!(
                "the plan is {f} months long, and line 3 of the sheet ends the table with month {}",
                sheet.f
            )];
        }
    }
    vec!["the plan is more than 600 months long: no table is long enough".into()]
}

/// All parts that `is` names, but those before the kth, are put out of action by `change`; the first
/// k at which the engine still refuses is the place.
fn first(
    sheet: &Sheet,
    refusal: i32,
    is: &dyn Fn(&Node) -> bool,
    change: &dyn Fn(&Node) -> String,
    words: &dyn Fn(&Node) -> String,
) -> Vec<String> {
    let Some(root) = tree(sheet) else {
        return Vec::new();
    };
    let parts: Vec<&Node> = root.all().into_iter().filter(|node| is(node)).collect();
    for part in parts {
        let text = root.text(&|node| (is(node) && node.from > part.from).then(|| change(node)));
        if check(&text, sheet) == Err(refusal) {
            return at(&sheet.plan, part.from, part.to, &words(part));
        }
    }
    Vec::new()
}

fn reads(sheet: &Sheet) -> Vec<String> {
    let absent = |node: &Node| {
        node.fields[0]
            .parse::<usize>()
            .is_ok_and(|label| label >= sheet.bounds.len())
    };
    first(
        sheet,
        11,
        &|node| node.letter == b'O',
        &|_| "N,0".into(),
        &|node| {
            if absent(node) {
                format!("index {} is not in the table", node.fields[0])
            } else {
                format!("index {} could be read here in a month that the table does not cover (h = {}, f = {})", node.fields[0], sheet.h, sheet.f)
            }
        },
    )
}

fn timing(sheet: &Sheet) -> Vec<String> {
    first(
        sheet,
        7,
        &|node| matches!(node.letter, b'S' | b'W'),
        &|node| quieted(node).unwrap_or_else(|| node.own_text()),
        &|node| {
            match node.letter {
            b'S' => "this amount reads an index of a later month than the first in which its plan may pay".into(),
            _ => "this test reads an index of a later month than the one in which it is tried".into(),
        }
        },
    )
}

/// An `S` or `W` that reads nothing.
fn quieted(node: &Node) -> Option<String> {
    let child = |k: usize| node.children[k].text(&|inner| quieted(inner));
    match node.letter {
        b'S' => Some(format!("S,N,0,{}", child(1))),
        b'W' => Some(format!(
            "W,{},E,N,0,N,0,{},{}",
            node.fields[0],
            child(1),
            child(2)
        )),
        _ => None,
    }
}

/// The first node that is beyond the limit while its parts are not. Each is asked about alone, in the
/// longest table with the sheet's bounds, so that nothing but its magnitude can be refused.
fn magnitude(sheet: &Sheet) -> Vec<String> {
    let Some(root) = tree(sheet) else {
        return Vec::new();
    };
    let values = vec![0; sheet.bounds.len() * 661];
    let table = engine::Table {
        h: 60,
        f: 600,
        factors: &[0; 601],
        bounds: &sheet.bounds,
        values: &values,
    };
    let ask = |plan: String| engine::check(plan.as_bytes(), &sheet.days, &table, 0);
    let beyond = |node: &Node| {
        let text = node.own_text();
        let asked = match kind(node.letter) {
            Kind::Plan => ask(text),
            Kind::Amount => ask(format!("S,{text},Z")),
            Kind::Test => ask(format!("S,I,{text},N,0,N,0,Z")),
        };
        asked == Err(6)
    };
    let size = |node: &Node| match kind(node.letter) {
        Kind::Plan => ask(node.own_text()).ok(),
        Kind::Amount => ask(format!("S,{},L,600,T,1,2", node.own_text())).ok(),
        Kind::Test => None,
    };
    for node in root.all() {
        if beyond(node) && !node.children.iter().any(beyond) {
            let sizes: Vec<String> = node
                .children
                .iter()
                .filter_map(size)
                .map(|(_, magnitude)| magnitude.to_string())
                .collect();
            let of = if sizes.is_empty() {
                String::new()
            } else {
                format!("; the magnitudes of its parts are {}", sizes.join(" and "))
            };
            return at(
                &sheet.plan,
                node.from,
                node.to,
                &format!("this is beyond the limit{of}"),
            );
        }
    }
    Vec::new()
}

fn pair(sheet: &Sheet) -> Vec<String> {
    for party in [sheet.p, sheet.q] {
        if engine::payment(b"Z", &sheet.days, &sheet.table(), 0, party, party, 0) == Err(12) {
            return vec![format!(
                "in line 5 of the sheet: party {party} is outside 1 to 9"
            )];
        }
    }
    Vec::new()
}
