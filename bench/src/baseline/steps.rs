//! The plan for tomorrow, as a copy of the plan's text with the changes in it.

use super::amounts::{amount, tried};
use super::number;
use super::pieces::copy;
use super::reader::Row;

pub struct Step<'a> {
    pub text: &'a [u8],
    pub rows: &'a [Row],
    pub values: &'a [i64],
    /// Where open settings stand in the text, in order.
    pub opens: &'a [u16],
    pub days: &'a [i32; 8],
    /// A label's months in the table, and those before month 0.
    pub months: i64,
    pub before: i64,
    pub today: usize,
    pub out: Vec<u8>,
}

impl Step<'_> {
    /// Writes the step of the plan at `node`, whose text ends at `end`; answers what it pays today.
    pub fn step(&mut self, node: usize, end: usize) -> i64 {
        let row = self.rows[node];
        match row.letter {
            b'L' if row.x == 0 => self.step(node + 1, end),
            b'L' => {
                self.out.extend_from_slice(b"L,");
                number::write(&mut self.out, row.x - 1);
                self.filled(self.rows[node + 1].at as usize - 1, end);
                0
            }
            b'B' => {
                let second = row.b as usize;
                self.out.extend_from_slice(b"B,");
                let one = self.step(node + 1, self.rows[second].at as usize - 1);
                self.out.push(b',');
                one + self.step(second, end)
            }
            b'S' => {
                let plan = row.b as usize;
                self.amount(row.at as usize, node + 1, plan);
                match self.step(plan, end) {
                    0 => 0,
                    pence => pence * amount(self.rows, (node + 1, plan), self.values, self.today),
                }
            }
            b'W' => {
                let (first, second) = (row.b as usize, row.c as usize);
                let test = (node + 1, first);
                if tried(self.rows, test, self.values, self.today, self.today).is_some() {
                    return self.step(first, self.rows[second].at as usize - 1);
                }
                if row.x == 0 {
                    return self.step(second, end);
                }
                self.out.extend_from_slice(b"W,");
                number::write(&mut self.out, row.x - 1);
                self.filled(self.rows[node + 1].at as usize - 1, end);
                0
            }
            // `Z` stays, and `T` becomes it; the sign of a `Z` is 0.
            _ => {
                self.out.push(b'Z');
                row.x
            }
        }
    }

    /// Copies text as it is, open settings filled.
    fn filled(&mut self, mut from: usize, end: usize) {
        let next = self.opens.partition_point(|&open| (open as usize) < from);
        for &open in &self.opens[next..] {
            let open = open as usize;
            if open >= end {
                break;
            }
            copy(&mut self.out, self.text, from, open);
            let setting = self.text[open + 1] - b'0';
            number::write(&mut self.out, self.days[(setting & 7) as usize] as i64);
            from = open + 2;
        }
        self.out.extend_from_slice(&self.text[from..end]);
    }

    /// Copies an `S` up to its plan, each `O` of its amount a month nearer.
    fn amount(&mut self, mut from: usize, first: usize, plan: usize) {
        for node in first..plan {
            let row = self.rows[node];
            if row.letter != b'O' {
                continue;
            }
            let label = row.tag as i64;
            let offset = row.x - label * self.months - self.before;
            let at = row.at as usize;
            if offset <= 0 {
                copy(&mut self.out, self.text, from, at);
                self.out.extend_from_slice(b"N,");
                let value = self.values[row.x as usize + self.today];
                number::write(&mut self.out, value);
            } else {
                copy(&mut self.out, self.text, from, at + 4);
                number::write(&mut self.out, offset - 1);
            }
            // A leaf ends where the next node's comma stands.
            from = self.rows[node + 1].at as usize - 1;
        }
        copy(&mut self.out, self.text, from, self.rows[plan].at as usize);
    }
}
