//! The loads: plans, payoffs and sheets of the worst kinds and of the usual one.

use crate::ask::{Ask, Call, Table};

/// A plan or a payoff with settings and table.
#[derive(Clone)]
pub struct Load {
    pub name: String,
    pub plan: Option<String>,
    pub payoff: Option<String>,
    pub days: Vec<i64>,
    pub table: Table,
    /// The month that payment is asked for, where it is not the last; the load is then for it alone.
    pub month: Option<i64>,
}

impl Load {
    pub fn plan(name: &str, plan: String, days: &[i64], table: Table) -> Load {
        Load {
            name: name.into(),
            payoff: crate::baseline_text(Call::Compile, plan.as_bytes()),
            plan: Some(plan),
            days: days.into(),
            table,
            month: None,
        }
    }

    /// The call on this load, where it fits.
    pub fn ask(&self, call: Call) -> Option<Ask> {
        if self.month.is_some() && call != Call::Payment {
            return None;
        }
        let text = match call {
            Call::Cut | Call::Evaluate => self.payoff.clone()?,
            Call::Sheet => self.sheet()?,
            _ => self.plan.clone()?,
        };
        Some(Ask {
            call,
            text: text.into_bytes(),
            days: self.days.clone(),
            table: self.table.clone(),
            today: 0,
            p: 1,
            q: 2,
            month: self.month.unwrap_or(self.table.f),
        })
    }

    pub fn nodes(&self) -> usize {
        let text = self.plan.as_ref().or(self.payoff.as_ref()).unwrap();
        let letter = |field: &&str| field.len() == 1 && field.as_bytes()[0].is_ascii_uppercase();
        text.split(',').filter(letter).count()
    }

    fn sheet(&self) -> Option<String> {
        let plan = self.plan.as_ref()?;
        let table = &self.table;
        let list = |numbers: &[i64]| -> String {
            numbers.iter().map(|number| format!(",{number}")).collect()
        };
        let mut text = format!("plan,{plan}\ndays{}\n", list(&self.days));
        text += &format!("span,{},{}\n", table.h, table.f);
        text += &format!("factors{}\npair,1,2\n", list(&table.factors));
        let months = (table.h + table.f + 1) as usize;
        for (label, bound) in table.bounds.iter().enumerate() {
            let values = &table.values[label * months..(label + 1) * months];
            text += &format!("index,{label},{bound}{}\n", list(values));
        }
        Some(text)
    }
}

/// Factors that fall month by month, and index values within the bound that move.
pub fn table(h: i64, f: i64, labels: usize, bound: i64) -> Table {
    let months = (h + f + 1) as usize;
    let mut state = 12_345u64;
    let mut values = Vec::new();
    for _ in 0..labels * months {
        state = state
            .wrapping_mul(6_364_136_223_846_793_005)
            .wrapping_add(1);
        values.push((state >> 33) as i64 % (2 * bound + 1) - bound);
    }
    Table {
        h,
        f,
        factors: (0..=f).map(|month| 1_000_000 - 1_000 * month).collect(),
        bounds: vec![bound; labels],
        values,
    }
}

/// A balanced tree of alternating `A` and `U` over alternating `N` and `O`.
fn tree(leaves: usize, labels: usize, next: &mut usize) -> String {
    if leaves == 1 {
        *next += 1;
        return match *next % 2 {
            1 if *next == 1 => "N,1000000".into(),
            1 => format!("N,{}", 10 + *next % 90),
            _ => format!("O,{},0", *next / 2 % labels),
        };
    }
    let left = tree(leaves / 2, labels, next);
    let letter = if leaves.ilog2().is_multiple_of(2) {
        "A"
    } else {
        "U"
    };
    format!(
        "{letter},{left},{}",
        tree(leaves - leaves / 2, labels, next)
    )
}

/// A test of 2(l + r) - 1 nodes that never holds.
fn never(l: usize, r: usize, labels: usize) -> String {
    let next = &mut 0;
    let left = tree(l, labels, next);
    format!("G,{left},{}", tree(r, labels, next))
}

/// One wait of d months, its test with l and r leaves.
pub fn wait(name: &str, d: i64, l: usize, r: usize) -> Load {
    let plan = format!("W,{d},{},Z,Z", never(l, r, 8));
    Load::plan(name, plan, &[], table(0, d.max(1), 8, 200))
}

/// The same wait, in a table of 601 months whatever d is.
pub fn wait_in_600(d: i64, l: usize, r: usize) -> Load {
    let plan = format!("W,{d},{},Z,Z", never(l, r, 8));
    Load::plan("wait", plan, &[], table(0, 600, 8, 200))
}

/// A sum of so many nodes in all: an `S` over a quotient of a balanced sum.
pub fn flat(name: &str, nodes: usize) -> Load {
    let sum = tree((nodes - 2) / 2, 1, &mut 0);
    let plan = format!("S,Q,7,{sum},T,1,2");
    Load::plan(name, plan, &[], table(0, 600, 1, 200))
}

/// A plan that pays nothing, for what a sheet costs by its numbers and lines alone.
pub fn nothing(f: i64, labels: usize) -> Load {
    Load::plan("nothing", "Z".into(), &[], table(0, f, labels, 200_000))
}

/// Waits one in the other's place when it misses, so that each waits its months in full.
fn nested(waits: usize, d: i64, leaves: impl Fn(usize) -> usize) -> String {
    let mut plan = String::from("Z");
    for wait in (1..=waits).rev() {
        let test = never(1, leaves(wait), 8);
        plan = format!("W,{d},{test},Z,{plan}");
    }
    plan
}

/// What a provider writes: premium, a wait for early maturity, an income on the index, a floor.
fn typical() -> Load {
    let early = "S,I,G,O,0,0,N,120000,N,120000,O,0,0,T,2,1";
    let income = "L,P1,S,Q,1000,K,N,45,O,0,0,T,2,1";
    let floor = "L,120,S,I,G,O,0,0,N,100000,N,100000,O,0,0,T,2,1";
    let plan = format!("B,S,N,250000,T,1,2,W,P0,G,N,130000,O,0,0,{early},L,0,B,{income},{floor}");
    let mut table = table(0, 600, 1, 200_000);
    for (month, value) in table.values.iter_mut().enumerate() {
        *value = 90_000 + 60 * month as i64 + *value / 100;
    }
    Load::plan("typical plan, f = 600", plan, &[480, 12], table)
}

/// All kinds of plan nodes one below the other.
fn deep() -> Load {
    let mut plan = String::from("T,1,2");
    for level in (1..32).rev() {
        plan = match level % 4 {
            0 => format!("B,T,1,2,{plan}"),
            1 => format!("L,1,{plan}"),
            2 => format!("W,1,G,N,999,O,0,0,Z,{plan}"),
            // Its operands would stand one deeper than the last `T`.
            3 if level == 31 => format!("S,N,3,{plan}"),
            _ => format!("S,U,N,3,N,1,{plan}"),
        };
    }
    Load::plan("32 deep", plan, &[], table(0, 600, 1, 200))
}

/// Months as long as can be, and three leaves for two inner nodes. Evaluation meets the first test and
/// the first leaf alone, so only their months have to lie in the table.
fn longest() -> Load {
    let open = "+P7".repeat(31);
    fn waits(count: usize, open: &str) -> String {
        if count == 0 {
            return format!("F,19200{open},1,2");
        }
        let test = format!("G,O,0,19200{open},O,1,19200{open}");
        let half = (count - 1) / 2;
        let (one, two) = (waits(half, open), waits(count - 1 - half, open));
        format!("W,600,{test},{one},{two}")
    }
    let test = format!("R,G,O,0,600{open},O,0,600{open}");
    let payoff = format!("W,600,{test},F,600{open},1,2,{}", waits(101, &open));
    Load {
        name: "longest payoff".into(),
        plan: None,
        payoff: Some(payoff),
        days: vec![0; 8],
        table: table(60, 600, 1, 200),
        month: None,
    }
}

/// The same wait as the long one, asked for what it pays in its first month.
fn first_month() -> Load {
    let mut load = wait("one wait of 600, its first month", 600, 127, 128);
    load.month = Some(0);
    load
}

fn example() -> Load {
    let plan = "B,L,1,S,N,5000,T,1,2,W,P0,G,N,100,O,0,0,S,U,O,0,0,N,100,T,2,1,Z";
    let table = Table {
        h: 0,
        f: 2,
        factors: vec![1_000_000, 990_000, 980_000],
        bounds: vec![200],
        values: vec![90, 100, 130],
    };
    Load::plan("document 01's example", plan.into(), &[2], table)
}

pub fn all() -> Vec<Load> {
    vec![
        typical(),
        flat("flat sum, 512 nodes", 512),
        wait("one wait of 600, test of 509", 600, 127, 128),
        first_month(),
        Load::plan(
            "2 nested waits of 300, tests of 253",
            nested(2, 300, |_| 126),
            &[],
            table(0, 600, 8, 200),
        ),
        Load::plan(
            "30 nested waits of 20",
            // The innermost tests have no room beneath them.
            nested(30, 20, |wait| match wait {
                28.. => 1 << (30 - wait),
                15.. => 7,
                _ => 8,
            }),
            &[],
            table(0, 600, 8, 200),
        ),
        deep(),
        longest(),
        example(),
    ]
}

/// Plans 32 deep of one letter, for the stack.
pub fn deepest() -> Vec<Load> {
    let mut loads = Vec::new();
    let mut add = |name: &str, plan: String| {
        let name = format!("32 deep, {name}");
        loads.push(Load::plan(&name, plan, &[], table(0, 600, 8, 200)));
    };
    let chain = |open: &str, last: &str| format!("{}{last}", open.repeat(31));
    add("L", chain("L,0,", "T,1,2"));
    add("B", chain("B,T,1,2,", "T,1,2"));
    add("S", chain("S,N,1,", "T,1,2"));
    add(
        "W",
        chain("W,0,E,N,1,N,2,Z,", "T,1,2").replacen("W,0,E,N,1,N,2,Z,T,1,2", "T,1,2", 1),
    );
    add("W that holds", {
        let open = "W,0,E,N,1,N,1,".repeat(30);
        format!("{open}T,1,2{}", ",Z".repeat(30))
    });
    let unary = |open: &str, last: &str| format!("S,{}{last},T,1,2", open.repeat(30));
    add("Q", unary("Q,1,", "O,0,0"));
    add("A", unary("A,O,0,0,", "O,0,0"));
    add(
        "U to the left",
        format!("S,{}O,0,0{},T,1,2", "U,".repeat(30), ",N,1".repeat(30)),
    );
    add("K", unary("K,N,1,", "N,1"));
    let choices = format!("{}N,1{}", "I,E,N,1,N,1,".repeat(29), ",N,2".repeat(29));
    add("I", format!("S,{choices},T,1,2"));
    let tests = |open: &str| format!("W,600,{}G,N,1,O,0,0,T,1,2,T,2,1", open.repeat(29));
    add("R", tests("R,"));
    add("Y", tests("Y,E,N,1,N,1,"));
    add("V", tests("V,E,N,1,N,2,"));
    // With a text so long that the longest table is taken.
    for open in ["L,0,", "B,T,1,2,", "S,N,1,"] {
        let sum = tree(150, 8, &mut 0);
        let chain = open.repeat(30);
        let name = format!("{} beside a sum", &open[..1]);
        add(&name, format!("B,S,{sum},T,1,2,{chain}T,1,2"));
    }
    let mixed = "I,G,N,0,A,".repeat(10) + "N,1" + &",N,1,N,1,N,1".repeat(10);
    add("I in G in I", format!("S,{mixed},T,1,2"));
    loads
}

/// Plans 32 deep that break a rule in their innermost plan: all of them is measured, and then refused with 6.
pub fn refused() -> Vec<Load> {
    let great = "S,N,9000000000000,S,N,9000000000000,T,1,2";
    let opens = [
        ("L", "L,0,"),
        ("B", "B,T,1,2,"),
        ("S", "S,N,1,"),
        ("W", "W,0,E,N,1,N,2,Z,"),
    ];
    let mut loads = Vec::new();
    for (letter, open) in opens {
        let mut add = |name: &str, plan: String| {
            let name = format!("32 deep, {letter}{name}, refused");
            loads.push(Load::plan(&name, plan, &[], table(0, 600, 8, 200)));
        };
        add("", open.repeat(29) + great);
        let sum = tree(150, 8, &mut 0);
        add(
            " beside a sum",
            format!("B,S,{sum},T,1,2,{}{great}", open.repeat(28)),
        );
    }
    loads
}

#[cfg(test)]
mod tests {
    use super::*;
    use crate::ask::CALLS;

    #[test]
    fn every_load_is_accepted() {
        for load in all().into_iter().chain(deepest()) {
            for ask in CALLS.into_iter().filter_map(|call| load.ask(call)) {
                let mut out = vec![0; 60_000];
                let told = ask.by_hand(&mut out, &mut [0; 2]);
                assert_eq!(told, 0, "{}: {}", load.name, ask.call.name());
                assert!(!out.starts_with(b"refused"), "{}", load.name);
            }
        }
    }

    #[test]
    fn loads_are_as_large_as_they_say() {
        assert_eq!(flat("", 512).nodes(), 512);
        assert_eq!(wait("", 600, 127, 128).nodes(), 512);
        assert_eq!(longest().nodes(), 512);
        assert_eq!(typical().nodes(), 34);
        let nested = all()
            .into_iter()
            .filter(|load| load.name.contains("nested"));
        assert!(nested.map(|load| load.nodes()).all(|nodes| nodes >= 511));
        // One level more is refused, so these are 32 deep.
        for load in deepest().iter().chain([&deep()]) {
            let plan = format!("L,0,{}", load.plan.as_ref().unwrap());
            let mut answer = [0];
            let told = crate::baseline::compile(plan.as_bytes(), &mut [0; 60_000], &mut answer);
            assert_eq!(told, 4, "{}", load.name);
        }
    }
}
