//! Amounts and tests of rows that are known to be fine: nothing is checked.

use super::reader::Row;

struct Walk<'a> {
    rows: &'a [Row],
    values: &'a [i64],
}

impl Walk<'_> {
    /// A leaf is taken where it stands; only what has children is a call.
    #[inline(always)]
    fn operand(&self, node: usize, month: usize) -> i64 {
        let row = &self.rows[node];
        match row.letter {
            b'N' => row.x,
            b'O' => self.values[row.x as usize + month],
            _ => self.inner(node, month),
        }
    }

    fn inner(&self, node: usize, month: usize) -> i64 {
        let row = &self.rows[node];
        let second = row.b as usize;
        let one = self.operand(node + 1, month);
        match row.letter {
            b'A' => one + self.operand(second, month),
            b'U' => one - self.operand(second, month),
            b'K' => one * self.operand(second, month),
            b'Q' => one.div_euclid(row.x),
            b'G' => (one < self.operand(second, month)) as i64,
            b'E' => (one == self.operand(second, month)) as i64,
            b'Y' => one & self.operand(second, month),
            b'V' => one | self.operand(second, month),
            b'R' => one ^ 1,
            _ => {
                let chosen = if one != 0 { second } else { row.c as usize };
                self.operand(chosen, month)
            }
        }
    }
}

/// Values that wait for their node. Three children at each of 32 levels leave at most 65.
type Pending = [i64; 128];

/// The same from the last row to the first, for all rows: each node finds its operands on top of the
/// pending values. For many rows that is quicker than calls.
#[inline(always)]
fn backwards(rows: &[Row], values: &[i64], month: usize, pending: &mut Pending) -> i64 {
    let mut top = 0;
    let mut count = 0usize;
    macro_rules! waiting {
        () => {{
            count = count.wrapping_sub(1);
            pending[count & 127]
        }};
    }
    for row in rows.iter().rev() {
        match row.letter {
            b'N' => {
                pending[count & 127] = top;
                count += 1;
                top = row.x;
            }
            b'O' => {
                pending[count & 127] = top;
                count += 1;
                top = values[row.x as usize + month];
            }
            b'A' => top += waiting!(),
            b'U' => top -= waiting!(),
            b'K' => top *= waiting!(),
            b'G' => top = (top < waiting!()) as i64,
            b'E' => top = (top == waiting!()) as i64,
            b'Y' => top &= waiting!(),
            b'V' => top |= waiting!(),
            b'Q' => top = top.div_euclid(row.x),
            b'R' => top ^= 1,
            _ => {
                let one = waiting!();
                let two = waiting!();
                top = if top != 0 { one } else { two };
            }
        }
    }
    top
}

/// From how many rows on an amount or test is worked out backwards.
const LONG: usize = 16;

/// The first of the months `from` to `to` in which the test in the rows `node` to `end` holds.
#[inline(never)]
pub fn tried(
    rows: &[Row],
    (node, end): (usize, usize),
    values: &[i64],
    from: usize,
    to: usize,
) -> Option<usize> {
    if end - node < LONG {
        let walk = Walk { rows, values };
        return (from..=to).find(|&month| walk.inner(node, month) != 0);
    }
    let test = &rows[node..end];
    let mut pending = [0; 128];
    (from..=to).find(|&month| backwards(test, values, month, &mut pending) != 0)
}

/// The amount in the rows `node` to `end`, once.
#[inline(never)]
pub fn amount(rows: &[Row], (node, end): (usize, usize), values: &[i64], month: usize) -> i64 {
    match end - node < LONG {
        true => Walk { rows, values }.operand(node, month),
        false => backwards(&rows[node..end], values, month, &mut [0; 128]),
    }
}
