//! The places of tables and of lists of numbers.

use crate::tree::smaller_number;
use interpreter::Table;

/// The places of a table: its span, then its lists.
pub fn table_places(table: &Table) -> usize {
    let Table {
        factors,
        bounds,
        values,
        ..
    } = table;
    2 + list_places(factors) + list_places(bounds) + list_places(values)
}

pub fn table_at(table: &Table, place: usize) -> Vec<Table> {
    match place {
        0 => return shorter_tables(table),
        1 => {
            let earlier = smaller_number(table.h)
                .into_iter()
                .map(|h| Table { h, ..table.clone() });
            let later = smaller_number(table.f)
                .into_iter()
                .map(|f| Table { f, ..table.clone() });
            return earlier.chain(later).collect();
        }
        _ => {}
    }
    type List = fn(&mut Table) -> &mut Vec<i64>;
    let lists: [List; 3] = [
        |table| &mut table.factors,
        |table| &mut table.bounds,
        |table| &mut table.values,
    ];
    let mut place = place - 2;
    for list in lists {
        let own = list(&mut table.clone()).clone();
        if let Some(rest) = place.checked_sub(list_places(&own)) {
            place = rest;
            continue;
        }
        let with = |smaller: Vec<i64>| {
            let mut changed = table.clone();
            *list(&mut changed) = smaller;
            changed
        };
        return list_at(&own, place).into_iter().map(with).collect();
    }
    vec![]
}

/// Tables with a label or a month less, still whole.
pub fn shorter_tables(table: &Table) -> Vec<Table> {
    let spanned = (0..=60).contains(&table.h) && (0..=600).contains(&table.f);
    let months = if spanned { table.months() } else { 0 };
    let whole = spanned
        && table.values.len() == months * table.bounds.len()
        && table.factors.len() as i64 == table.f + 1;
    let mut found = vec![];
    if !whole {
        return found;
    }
    if !table.bounds.is_empty() {
        let mut changed = table.clone();
        changed.bounds.pop();
        changed.values.truncate(months * changed.bounds.len());
        found.push(changed);
        let mut changed = table.clone();
        changed.bounds.remove(0);
        changed.values.drain(..months);
        found.push(changed);
    }
    let mut shorter = |h: i64, f: i64| {
        let keep = (h + f + 1) as usize;
        let with = |values_from: usize, factors_from: usize| Table {
            h,
            f,
            factors: table.factors[factors_from..][..f as usize + 1].to_vec(),
            bounds: table.bounds.clone(),
            values: table
                .values
                .chunks(months)
                .flat_map(|own| own[values_from..][..keep].to_vec())
                .collect(),
        };
        // The months that stay are those before, or those behind.
        found.push(with((table.h - h) as usize, 0));
        found.push(with(months - keep, (table.f - f) as usize));
    };
    if table.f > 0 {
        shorter(table.h, table.f / 2);
        shorter(table.h, table.f - 1);
    }
    if table.h > 0 {
        shorter(0, table.f);
        shorter(table.h - 1, table.f);
    }
    found
}

/// The places of a list: the whole, then its first numbers.
pub fn list_places(list: &[i64]) -> usize {
    1 + list.len().min(80)
}

pub fn list_at(list: &[i64], place: usize) -> Vec<Vec<i64>> {
    let Some(at) = place.checked_sub(1) else {
        return match list.len() {
            0 => vec![],
            len => vec![
                list[..len / 2].to_vec(),
                list[..len - 1].to_vec(),
                vec![0; len],
            ],
        };
    };
    let with = |number| {
        let mut changed = list.to_vec();
        changed[at] = number;
        changed
    };
    smaller_number(list[at]).into_iter().map(with).collect()
}
