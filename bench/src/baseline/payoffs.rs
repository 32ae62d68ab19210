//! What a payoff is worth: without checks where its form says that nothing is refused, else with them.

use super::amounts::{amount, tried};
use super::reader::Row;
use super::{LIMIT, REFUSED_RANGE, REFUSED_READS};

pub struct Payoff<'a> {
    pub rows: &'a [Row],
    pub factors: &'a [i64],
    pub values: &'a [i64],
    pub labels: usize,
    pub h: i64,
    pub f: i64,
    pub now: i64,
}

const VALUE_LIMIT: i64 = 9_000_000_000_000_000_000;

impl Payoff<'_> {
    /// The value of a payoff that refuses nothing.
    pub fn fine(&self, node: usize, waited: usize) -> i64 {
        let row = self.rows[node];
        match row.letter {
            b'F' => row.tag as i8 as i64 * self.factors[(row.x + waited as i64) as usize],
            b'H' => {
                let month = row.x + waited as i64;
                match month < self.now {
                    true => 0,
                    false => row.tag as i8 as i64 * self.factors[month as usize],
                }
            }
            b'B' => self.fine(node + 1, waited) + self.fine(row.b as usize, waited),
            b'S' => match self.fine(row.b as usize, waited) {
                0 => 0,
                value => value * amount(self.rows, (node + 1, row.b as usize), self.values, waited),
            },
            b'W' => {
                let last = waited + row.x as usize;
                let test = (node + 1, row.b as usize);
                match tried(self.rows, test, self.values, waited, last) {
                    Some(hit) => self.fine(row.b as usize, hit),
                    None => self.fine(row.c as usize, last),
                }
            }
            _ => 0,
        }
    }

    /// The value, or the refusal that evaluation meets first.
    pub fn value(&self, node: usize, waited: i64) -> Result<i64, u8> {
        let row = self.rows[node];
        match row.letter {
            b'F' | b'H' => {
                let month = row.x + waited;
                if month < 0 || month > self.f {
                    return Err(REFUSED_READS);
                }
                match row.letter == b'H' && month < self.now {
                    true => Ok(0),
                    false => Ok(row.tag as i8 as i64 * self.factors[month as usize]),
                }
            }
            b'B' => {
                let one = self.value(node + 1, waited)?;
                let two = self.value(row.b as usize, waited)?;
                within(one.checked_add(two), VALUE_LIMIT)
            }
            b'S' => {
                let amount = self.amount(node + 1, waited)?;
                let value = self.value(row.b as usize, waited)?;
                within(amount.checked_mul(value), VALUE_LIMIT)
            }
            b'W' => {
                for month in waited..=waited + row.x {
                    if self.test(node + 1, month)? {
                        return self.value(row.b as usize, month);
                    }
                }
                self.value(row.c as usize, waited + row.x)
            }
            _ => Ok(0),
        }
    }

    fn amount(&self, node: usize, waited: i64) -> Result<i64, u8> {
        let row = self.rows[node];
        match row.letter {
            b'N' => Ok(row.x),
            b'O' => {
                let label = row.tag as usize;
                let start = label as i64 * (self.h + self.f + 1);
                let place = row.x + waited;
                if label >= self.labels || place < start || place > start + self.h + self.f {
                    return Err(REFUSED_READS);
                }
                Ok(self.values[place as usize])
            }
            b'Q' => Ok(self.amount(node + 1, waited)?.div_euclid(row.x)),
            b'I' => match self.test(node + 1, waited)? {
                true => self.amount(row.b as usize, waited),
                false => self.amount(row.c as usize, waited),
            },
            letter => {
                let one = self.amount(node + 1, waited)?;
                let two = self.amount(row.b as usize, waited)?;
                within(
                    match letter {
                        b'A' => Some(one + two),
                        b'U' => Some(one - two),
                        _ => one.checked_mul(two),
                    },
                    LIMIT,
                )
            }
        }
    }

    fn test(&self, node: usize, waited: i64) -> Result<bool, u8> {
        let row = self.rows[node];
        match row.letter {
            b'R' => Ok(!self.test(node + 1, waited)?),
            b'Y' | b'V' => {
                let one = self.test(node + 1, waited)?;
                let two = self.test(row.b as usize, waited)?;
                Ok(if row.letter == b'Y' {
                    one & two
                } else {
                    one | two
                })
            }
            letter => {
                let one = self.amount(node + 1, waited)?;
                let two = self.amount(row.b as usize, waited)?;
                Ok(if letter == b'G' {
                    one < two
                } else {
                    one == two
                })
            }
        }
    }
}

fn within(number: Option<i64>, limit: i64) -> Result<i64, u8> {
    match number {
        Some(number) if -limit <= number && number <= limit => Ok(number),
        _ => Err(REFUSED_RANGE),
    }
}
