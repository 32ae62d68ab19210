//! Settings and tables: whether they keep the rules, and what a reader takes from them.

use super::{LIMIT, REFUSED_CALLER, REFUSED_SETTINGS, REFUSED_TABLE};

/// A table as a call takes it.
#[derive(Clone, Copy)]
pub struct Table<'a> {
    pub h: i64,
    pub f: i64,
    pub factors: &'a [i64],
    pub bounds: &'a [i64],
    pub values: &'a [i64],
}

impl Table<'_> {
    fn sound(&self) -> bool {
        if !(0..=60).contains(&self.h) || !(0..=600).contains(&self.f) || self.bounds.len() > 8 {
            return false;
        }
        let months = (self.h + self.f + 1) as usize;
        if self.factors.len() != (self.f + 1) as usize
            || self.values.len() != months * self.bounds.len()
        {
            return false;
        }
        // Sign bits are gathered, so that no value costs a branch.
        let mut wrong = 0;
        for &factor in self.factors {
            wrong |= factor | 1_000_000i64.wrapping_sub(factor);
        }
        for (&bound, values) in self.bounds.iter().zip(self.values.chunks_exact(months)) {
            wrong |= bound | LIMIT.wrapping_sub(bound);
            for &value in values {
                wrong |= value.wrapping_add(bound) | bound.wrapping_sub(value);
            }
        }
        wrong >= 0
    }
}

/// What a reader has to know of settings, table and pair.
pub struct Sight<'a> {
    pub h: i32,
    pub f: i32,
    pub bounds: &'a [i64],
    pub days: [i32; 8],
    pub set: usize,
    pub p: u8,
    pub q: u8,
    /// 9, 12 or 8, the first that comes, or 0.
    pub refusal: u8,
}

impl<'a> Sight<'a> {
    /// Nothing known: for calls that only read.
    pub const NONE: Sight<'static> = Sight {
        h: 0,
        f: 0,
        bounds: &[],
        days: [0; 8],
        set: 8,
        p: 1,
        q: 2,
        refusal: 0,
    };

    /// `asked` says whether the calling program's numbers keep the rules, the table being sound.
    pub fn of(
        days: &[i64],
        table: &Table<'a>,
        pair: Option<(i64, i64)>,
        asked: impl FnOnce() -> bool,
    ) -> Sight<'a> {
        let mut sight = Sight::NONE;
        if !table.sound() {
            sight.refusal = REFUSED_TABLE;
            return sight;
        }
        sight.h = table.h as i32;
        sight.f = table.f as i32;
        sight.bounds = table.bounds;
        if let Some((p, q)) = pair {
            if !(1..=9).contains(&p) || !(1..=9).contains(&q) {
                sight.refusal = REFUSED_CALLER;
                return sight;
            }
            (sight.p, sight.q) = (p as u8, q as u8);
        }
        if !asked() {
            sight.refusal = REFUSED_CALLER;
            return sight;
        }
        if days.len() > 8 || days.iter().any(|day| !(0..=600).contains(day)) {
            sight.refusal = REFUSED_SETTINGS;
            return sight;
        }
        sight.set = days.len();
        for (kept, &day) in sight.days.iter_mut().zip(days) {
            *kept = day as i32;
        }
        sight
    }

    /// What a payment from `from` to `to` counts for the pair.
    #[inline(always)]
    pub fn sign(&self, from: u8, to: u8) -> i64 {
        if self.p == self.q {
            return 0;
        }
        (from == self.p && to == self.q) as i64 - (from == self.q && to == self.p) as i64
    }
}
