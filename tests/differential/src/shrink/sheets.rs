//! The places of a sheet.

use super::tables::{list_at, list_places, table_at, table_places};
use super::texts::{text_at, text_places};
use crate::generate::sheets;
use interpreter::sheet::{read_sheet, Sheet};
use interpreter::Table;

/// The places of a sheet: those of its parts where it has no fault, else those of its lines.
pub fn sheet_places(text: &[u8]) -> usize {
    match read_sheet(text) {
        Ok(sheet) => {
            text_places(&sheet.plan)
                + table_places(&sheet.table)
                + list_places(&sheet.days)
                + list_places(&[sheet.pair.0, sheet.pair.1])
        }
        Err(_) => {
            let lines = text.split(|byte| *byte == b'\n');
            lines.map(|line| 1 + text_places(line)).sum()
        }
    }
}

pub fn sheet_at(text: &[u8], place: usize) -> Vec<Vec<u8>> {
    match read_sheet(text) {
        Ok(sheet) => sound_sheet_at(&sheet, place),
        Err(_) => lines_at(text, place),
    }
}

fn sound_sheet_at(sheet: &Sheet, place: usize) -> Vec<Vec<u8>> {
    let text = |plan: &[u8], days: &[i64], table: &Table, pair: (i64, i64)| {
        sheets::text(&sheets::lines(plan, days, table, pair))
    };
    let Sheet {
        plan,
        days,
        table,
        pair,
    } = sheet;
    let Some(place) = place.checked_sub(text_places(plan)) else {
        let plans = text_at(plan, place);
        return plans
            .iter()
            .map(|plan| text(plan, days, table, *pair))
            .collect();
    };
    let Some(place) = place.checked_sub(table_places(table)) else {
        let tables = table_at(table, place);
        return tables
            .iter()
            .map(|table| text(plan, days, table, *pair))
            .collect();
    };
    let Some(place) = place.checked_sub(list_places(days)) else {
        let lists = list_at(days, place);
        return lists
            .iter()
            .map(|days| text(plan, days, table, *pair))
            .collect();
    };
    list_at(&[pair.0, pair.1], place)
        .iter()
        .filter_map(|pair| <[i64; 2]>::try_from(pair.as_slice()).ok())
        .map(|[p, q]| text(plan, days, table, (p, q)))
        .collect()
}

/// A sheet with a fault: one line less, or one line smaller.
fn lines_at(text: &[u8], mut place: usize) -> Vec<Vec<u8>> {
    let lines: Vec<&[u8]> = text.split(|byte| *byte == b'\n').collect();
    for (at, line) in lines.iter().enumerate() {
        let places = 1 + text_places(line);
        if place >= places {
            place -= places;
            continue;
        }
        if place == 0 {
            return vec![[&lines[..at], &lines[at + 1..]].concat().join(&b'\n')];
        }
        let with = |smaller: Vec<u8>| {
            let mut changed = lines.clone();
            changed[at] = &smaller;
            changed.join(&b'\n')
        };
        return text_at(line, place - 1).into_iter().map(with).collect();
    }
    vec![]
}
