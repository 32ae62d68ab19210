//! From tree to text: "A node is its letter, its fields, then its children, outermost first",
//! "parted by commas, no quoting, no spaces, no line end".

use crate::language::{Amount, Delay, Month, Offset, Payoff, Plan, Test};
use std::fmt::Display;

/// The text of a plan.
pub fn plan(tree: &Plan) -> Vec<u8> {
    text(|fields| plan_fields(tree, fields))
}

/// The text of a payoff.
pub fn payoff(tree: &Payoff) -> Vec<u8> {
    text(|fields| payoff_fields(tree, fields))
}

fn text(write: impl Fn(&mut Fields)) -> Vec<u8> {
    let mut fields = Fields(String::new());
    write(&mut fields);
    fields.0.into_bytes()
}

/// Fields parted by commas.
struct Fields(String);

impl Fields {
    fn put(&mut self, field: impl Display) {
        use std::fmt::Write;
        if !self.0.is_empty() {
            self.0.push(',');
        }
        write!(self.0, "{field}").expect("a String takes all");
    }

    fn put_delay(&mut self, delay: Delay) {
        match delay {
            Delay::Months(d) => self.put(d),
            Delay::Setting(open) => self.put(format_args!("P{open}")),
        }
    }
}

/// When an index is read, as one field.
trait When {
    fn put(&self, fields: &mut Fields);
}

impl When for Offset {
    fn put(&self, fields: &mut Fields) {
        fields.put(self.0);
    }
}

impl When for Month {
    fn put(&self, fields: &mut Fields) {
        let settings: String = self.settings.iter().map(|p| format!("+P{p}")).collect();
        fields.put(format_args!("{}{settings}", self.number));
    }
}

fn plan_fields(tree: &Plan, fields: &mut Fields) {
    match tree {
        Plan::Nothing => fields.put('Z'),
        Plan::Transfer { from, to } => {
            fields.put('T');
            fields.put(from);
            fields.put(to);
        }
        Plan::Scale(amount, plan) => {
            fields.put('S');
            amount_fields(amount, fields);
            plan_fields(plan, fields);
        }
        Plan::Later(delay, plan) => {
            fields.put('L');
            fields.put_delay(*delay);
            plan_fields(plan, fields);
        }
        Plan::Both(one, other) => {
            fields.put('B');
            plan_fields(one, fields);
            plan_fields(other, fields);
        }
        Plan::Wait(delay, test, first, second) => {
            fields.put('W');
            fields.put_delay(*delay);
            test_fields(test, fields);
            plan_fields(first, fields);
            plan_fields(second, fields);
        }
    }
}

fn payoff_fields(tree: &Payoff, fields: &mut Fields) {
    match tree {
        Payoff::Nothing => fields.put('Z'),
        Payoff::Leaf {
            cut,
            month,
            from,
            to,
        } => {
            fields.put(if *cut { 'H' } else { 'F' });
            month.put(fields);
            fields.put(from);
            fields.put(to);
        }
        Payoff::Scale(amount, payoff) => {
            fields.put('S');
            amount_fields(amount, fields);
            payoff_fields(payoff, fields);
        }
        Payoff::Both(one, other) => {
            fields.put('B');
            payoff_fields(one, fields);
            payoff_fields(other, fields);
        }
        Payoff::Wait(delay, test, first, second) => {
            fields.put('W');
            fields.put_delay(*delay);
            test_fields(test, fields);
            payoff_fields(first, fields);
            payoff_fields(second, fields);
        }
    }
}

fn amount_fields<At: When>(amount: &Amount<At>, fields: &mut Fields) {
    match amount {
        Amount::Number(n) => {
            fields.put('N');
            fields.put(n);
        }
        Amount::Index { label, at } => {
            fields.put('O');
            fields.put(label);
            at.put(fields);
        }
        Amount::Sum(one, other) => {
            fields.put('A');
            amount_fields(one, fields);
            amount_fields(other, fields);
        }
        Amount::Difference(one, other) => {
            fields.put('U');
            amount_fields(one, fields);
            amount_fields(other, fields);
        }
        Amount::Product(one, other) => {
            fields.put('K');
            amount_fields(one, fields);
            amount_fields(other, fields);
        }
        Amount::Quotient(n, amount) => {
            fields.put('Q');
            fields.put(n);
            amount_fields(amount, fields);
        }
        Amount::Choice(test, one, other) => {
            fields.put('I');
            test_fields(test, fields);
            amount_fields(one, fields);
            amount_fields(other, fields);
        }
    }
}

fn test_fields<At: When>(test: &Test<At>, fields: &mut Fields) {
    match test {
        Test::Less(one, other) => {
            fields.put('G');
            amount_fields(one, fields);
            amount_fields(other, fields);
        }
        Test::Equal(one, other) => {
            fields.put('E');
            amount_fields(one, fields);
            amount_fields(other, fields);
        }
        Test::And(one, other) => {
            fields.put('Y');
            test_fields(one, fields);
            test_fields(other, fields);
        }
        Test::Or(one, other) => {
            fields.put('V');
            test_fields(one, fields);
            test_fields(other, fields);
        }
        Test::Not(test) => {
            fields.put('R');
            test_fields(test, fields);
        }
    }
}
