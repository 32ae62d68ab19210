//! Scenes: the settings, table and today that a text is made for.

use super::Roots;
use crate::random::Random;
use interpreter::{Table, AMOUNT_LIMIT};

/// What a text is made for, and in which spirit.
#[derive(Clone, Debug)]
pub struct Scene {
    pub table: Table,
    pub days: Vec<i64>,
    pub today: i64,
    /// Numbers that plan and table share, so that tests come out both ways.
    pub numbers: Vec<i64>,
    /// In how many of a hundred choices no rule is heeded.
    pub wild: usize,
    /// Whether limits on magnitudes are not heeded.
    pub bold: bool,
    /// Whether amounts may be known too late.
    pub late: bool,
    /// Whether some months lie just outside the table.
    pub near: bool,
    /// Whether the months of payoffs have as many settings as they can.
    pub long_months: bool,
}

impl Scene {
    pub fn random(random: &mut Random) -> Scene {
        let numbers = pool(random);
        let table = table(random, &numbers);
        let long_months = random.chance(3);
        let days = if long_months {
            (0..random.range(1, 8))
                .map(|_| random.range(0, 2))
                .collect()
        } else {
            days(random, table.f)
        };
        let today = match random.below(4) {
            0 => random.range(0, table.f / 2),
            1 if random.chance(20) => table.f,
            _ => 0,
        };
        Scene {
            table,
            days,
            today,
            numbers,
            wild: random.weighted(&[(66, 0), (25, 4), (9, 25)]),
            bold: random.chance(8),
            late: random.chance(10),
            near: random.chance(10),
            long_months,
        }
    }

    /// The same, but with nothing that an accepted plan could not have.
    pub fn tame(random: &mut Random) -> Scene {
        Scene {
            wild: 0,
            bold: false,
            late: false,
            near: false,
            today: 0,
            ..Scene::random(random)
        }
    }

    pub fn is_wild(&self, random: &mut Random) -> bool {
        random.chance(self.wild)
    }

    /// The root's month.
    pub fn roots(&self) -> Roots {
        Roots {
            earliest: self.today,
            latest: self.today,
        }
    }

    /// All eight settings, those unset as 0.
    pub fn eight_days(&self) -> [i64; 8] {
        std::array::from_fn(|at| self.days.get(at).copied().unwrap_or(0))
    }

    /// A number no further from zero than the limit (unless wild or bold).
    pub fn number(&self, random: &mut Random, limit: i64) -> i64 {
        if self.bold && random.chance(55) {
            let size = *random.pick(&[AMOUNT_LIMIT, AMOUNT_LIMIT / 2, 3_000_000, 3_000_001]);
            return *random.pick(&[-1, 1]) * size;
        }
        let limit = if self.bold || self.is_wild(random) {
            AMOUNT_LIMIT
        } else {
            limit
        };
        let number = match random.below(10) {
            0..=4 => *random.pick(&self.numbers),
            5 => random.range(-3, 3),
            6 => random.range(-limit, limit),
            7 => *random.pick(&[-1, 1]) * (limit - random.range(0, 1)),
            _ => *random.pick(&self.numbers) + random.range(-1, 1),
        };
        number.clamp(-limit, limit)
    }
}

/// Settings: "up to eight months, each 0 to 600", mostly small.
fn days(random: &mut Random, f: i64) -> Vec<i64> {
    let count = random.weighted(&[(25, 0), (30, 1), (20, 2), (15, 3), (10, 8)]);
    let day = |random: &mut Random| match random.below(20) {
        0 => 600,
        1 => f,
        2 => random.range(0, 600),
        3..=6 => 0,
        _ => random.range(0, (f / 2).max(1)),
    };
    (0..count).map(|_| day(random)).collect()
}

/// A few numbers for plan and table, from tiny to the limits.
fn pool(random: &mut Random) -> Vec<i64> {
    let scale = *random.pick(&[2, 2, 10, 100, 100, 1_000_000, 3_000_000, AMOUNT_LIMIT]);
    let mut numbers = vec![0, 1, scale, -scale];
    for _ in 0..3 {
        numbers.push(random.range(-scale, scale));
    }
    if random.chance(10) {
        numbers.push(*random.pick(&[AMOUNT_LIMIT, -AMOUNT_LIMIT, AMOUNT_LIMIT / 2]));
    }
    numbers
}

fn table(random: &mut Random, numbers: &[i64]) -> Table {
    let (h, f) = match random.below(100) {
        0 => (*random.pick(&[0, 59, 60]), *random.pick(&[599, 600])),
        1..=2 => (random.range(0, 60), random.range(31, 600)),
        3..=12 => (random.range(0, 12), random.range(7, 30)),
        _ => (random.range(0, 3), random.range(0, 6)),
    };
    let labels = random.weighted(&[(8, 0), (50, 1), (25, 2), (12, 3), (5, 8)]);
    let months = (h + f + 1) as usize;
    let factors = factors(random, f as usize + 1);
    let (mut bounds, mut values) = (vec![], vec![]);
    for _ in 0..labels {
        let greatest = numbers.iter().map(|n| n.abs()).max().unwrap_or(0);
        let bound = match random.below(12) {
            0 => 0,
            1 => AMOUNT_LIMIT,
            2 => random.range(0, 3),
            3 => (greatest + 1).min(AMOUNT_LIMIT),
            _ => greatest,
        };
        bounds.push(bound);
        for _ in 0..months {
            let value = match random.below(8) {
                0 => bound,
                1 => -bound,
                2 => random.range(-bound, bound),
                3 => *random.pick(numbers) + random.range(-1, 1),
                _ => *random.pick(numbers),
            };
            values.push(value.clamp(-bound, bound));
        }
    }
    Table {
        h,
        f,
        factors,
        bounds,
        values,
    }
}

/// Factors: all 1, all 0, falling, or any.
fn factors(random: &mut Random, count: usize) -> Vec<i64> {
    let style = random.below(5);
    let mut factor = 1_000_000;
    (0..count)
        .map(|_| match style {
            0 => 1_000_000,
            1 => *random.pick(&[0, 1, 1_000_000]),
            2 => random.range(0, 1_000_000),
            _ => {
                let now = factor;
                factor = factor * 99 / 100;
                now
            }
        })
        .collect()
}
