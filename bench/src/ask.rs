//! One call with all that it takes, to be made on either side.

use crate::baseline;
use engine::lent;

#[derive(Clone, Copy, Debug, PartialEq, Eq)]
pub enum Call {
    Check,
    Payment,
    Step,
    Compile,
    Cut,
    Evaluate,
    Sheet,
}

pub const CALLS: [Call; 7] = [
    Call::Check,
    Call::Payment,
    Call::Step,
    Call::Compile,
    Call::Cut,
    Call::Evaluate,
    Call::Sheet,
];

impl Call {
    pub fn name(self) -> &'static str {
        match self {
            Call::Check => "check",
            Call::Payment => "payment",
            Call::Step => "step",
            Call::Compile => "compile",
            Call::Cut => "cut",
            Call::Evaluate => "evaluate",
            Call::Sheet => "sheet",
        }
    }

    /// The ratio that the engine is to stay below.
    pub fn aim(self) -> f64 {
        match self {
            Call::Evaluate | Call::Sheet => 0.8,
            _ => 1.0,
        }
    }
}

#[derive(Clone, Debug, Default)]
pub struct Table {
    pub h: i64,
    pub f: i64,
    pub factors: Vec<i64>,
    pub bounds: Vec<i64>,
    pub values: Vec<i64>,
}

/// What a call takes; `today` is also the month now.
#[derive(Clone, Debug)]
pub struct Ask {
    pub call: Call,
    pub text: Vec<u8>,
    pub days: Vec<i64>,
    pub table: Table,
    pub today: i64,
    pub p: i64,
    pub q: i64,
    pub month: i64,
}

impl Ask {
    pub fn engine(&self, out: &mut [u8], answer: &mut [i64]) -> i32 {
        let table = engine::Table {
            h: self.table.h,
            f: self.table.f,
            factors: &self.table.factors,
            bounds: &self.table.bounds,
            values: &self.table.values,
        };
        let (text, days, today, p, q) = (&self.text, &self.days, self.today, self.p, self.q);
        match self.call {
            Call::Check => lent::check(text, days, &table, today, answer),
            Call::Payment => lent::payment(text, days, &table, today, p, q, self.month, answer),
            Call::Step => lent::step(text, days, &table, today, p, q, out, answer),
            Call::Compile => lent::compile(text, out, answer),
            Call::Cut => lent::cut(text, out, answer),
            Call::Evaluate => lent::evaluate(text, days, &table, today, p, q, answer),
            Call::Sheet => lent::sheet(text, out, answer),
        }
    }

    pub fn by_hand(&self, out: &mut [u8], answer: &mut [i64]) -> i32 {
        let table = baseline::Table {
            h: self.table.h,
            f: self.table.f,
            factors: &self.table.factors,
            bounds: &self.table.bounds,
            values: &self.table.values,
        };
        let (text, days, today, p, q) = (&self.text, &self.days, self.today, self.p, self.q);
        match self.call {
            Call::Check => baseline::check(text, days, &table, today, answer),
            Call::Payment => baseline::payment(text, days, &table, today, p, q, self.month, answer),
            Call::Step => baseline::step(text, days, &table, today, p, q, out, answer),
            Call::Compile => baseline::compile(text, out, answer),
            Call::Cut => baseline::cut(text, out, answer),
            Call::Evaluate => baseline::evaluate(text, days, &table, today, p, q, answer),
            Call::Sheet => baseline::sheet(text, out, answer),
        }
    }

    /// What both sides return and leave in the lent lists, the lists being `room` and `places` long.
    pub fn both(&self, room: usize, places: usize) -> [(i32, Vec<i64>, Vec<u8>); 2] {
        [Ask::engine, Ask::by_hand].map(|side| {
            let mut out: Vec<u8> = (0..room).map(|k| (k * 37 + 11) as u8).collect();
            let mut answer: Vec<i64> = (0..places as i64).map(|k| k * 1_000_003 - 77).collect();
            let told = side(self, &mut out, &mut answer);
            (told, answer, out)
        })
    }
}
