//! What an accepted plan pays: in one month, and in every month by one walk.

use super::amounts::{amount, tried};
use super::reader::Row;
use super::LIMIT;

/// The pence paid in `month` by the plan at `node` with root `root`.
pub fn paid(rows: &[Row], values: &[i64], node: usize, root: usize, month: usize) -> i64 {
    let row = rows[node];
    match row.letter {
        b'T' => (root == month) as i64 * row.x,
        b'L' => {
            let root = root + row.x as usize;
            // Nothing is paid before the root's month.
            match root <= month {
                true => paid(rows, values, node + 1, root, month),
                false => 0,
            }
        }
        b'B' => {
            paid(rows, values, node + 1, root, month)
                + paid(rows, values, row.b as usize, root, month)
        }
        b'S' => match paid(rows, values, row.b as usize, root, month) {
            0 => 0,
            pence => pence * amount(rows, (node + 1, row.b as usize), values, root),
        },
        b'W' => {
            let last = root + row.x as usize;
            let test = (node + 1, row.b as usize);
            match tried(rows, test, values, root, last.min(month)) {
                Some(hit) => paid(rows, values, row.b as usize, hit, month),
                None if last <= month => paid(rows, values, row.c as usize, last, month),
                None => 0,
            }
        }
        _ => 0,
    }
}

/// Adds to the column what the plan at `node` pays in each month, times the amounts above it.
pub fn column(
    rows: &[Row],
    values: &[i64],
    node: usize,
    root: usize,
    weight: i64,
    months: &mut [i64],
) {
    let row = rows[node];
    match row.letter {
        b'T' => months[root] += weight * row.x,
        b'L' => column(
            rows,
            values,
            node + 1,
            root + row.x as usize,
            weight,
            months,
        ),
        b'B' => {
            column(rows, values, node + 1, root, weight, months);
            column(rows, values, row.b as usize, root, weight, months);
        }
        b'S' => {
            let amount = amount(rows, (node + 1, row.b as usize), values, root);
            // Beyond the limit the plan beneath has magnitude 0, so it pays nothing.
            match weight.checked_mul(amount) {
                Some(weight) if weight != 0 && weight.abs() <= LIMIT => {
                    column(rows, values, row.b as usize, root, weight, months)
                }
                _ => {}
            }
        }
        b'W' => {
            let last = root + row.x as usize;
            let test = (node + 1, row.b as usize);
            let (next, root) = match tried(rows, test, values, root, last) {
                Some(hit) => (row.b, hit),
                None => (row.c, last),
            };
            column(rows, values, next as usize, root, weight, months);
        }
        _ => {}
    }
}
