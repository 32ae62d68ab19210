//! One call with all that it takes, and those who can answer it.

use interpreter::calls::{self, Answer, Given, Room};
use interpreter::{Refusal, Table};

/// The seven calls.
#[derive(Clone, Copy, Debug, PartialEq, Eq, PartialOrd, Ord)]
pub enum Kind {
    Check,
    Payment,
    Step,
    Compile,
    Cut,
    Evaluate,
    Sheet,
}

impl Kind {
    pub const ALL: [Kind; 7] = [
        Kind::Check,
        Kind::Payment,
        Kind::Step,
        Kind::Compile,
        Kind::Cut,
        Kind::Evaluate,
        Kind::Sheet,
    ];

    pub fn name(self) -> &'static str {
        match self {
            Kind::Check => "check",
            Kind::Payment => "payment",
            Kind::Step => "step",
            Kind::Compile => "compile",
            Kind::Cut => "cut",
            Kind::Evaluate => "evaluate",
            Kind::Sheet => "sheet",
        }
    }

    pub fn named(name: &str) -> Option<Kind> {
        Kind::ALL.into_iter().find(|kind| kind.name() == name)
    }

    /// Whether the call takes settings, a table and today (or now).
    pub fn takes_table(self) -> bool {
        matches!(
            self,
            Kind::Check | Kind::Payment | Kind::Step | Kind::Evaluate
        )
    }

    /// Whether the call takes a pair.
    pub fn takes_pair(self) -> bool {
        matches!(self, Kind::Payment | Kind::Step | Kind::Evaluate)
    }

    /// Whether the call writes bytes.
    pub fn writes(self) -> bool {
        matches!(self, Kind::Step | Kind::Compile | Kind::Cut | Kind::Sheet)
    }

    /// How many numbers the call answers.
    pub fn numbers(self) -> usize {
        match self {
            Kind::Check | Kind::Step => 2,
            _ => 1,
        }
    }

    /// Whether its text is a payoff.
    pub fn reads_payoff(self) -> bool {
        matches!(self, Kind::Cut | Kind::Evaluate)
    }
}

/// One call; what its kind does not take is not looked at.
#[derive(Clone, Debug, PartialEq, Eq)]
pub struct Call {
    pub kind: Kind,
    /// The plan, payoff or sheet.
    pub text: Vec<u8>,
    pub days: Vec<i64>,
    pub table: Table,
    /// Today, or now.
    pub today: i64,
    pub p: i64,
    pub q: i64,
    /// The month that `payment` asks for.
    pub month: i64,
    /// The length of the lent `out`.
    pub out: usize,
    /// The length of the lent `answer`.
    pub answer: usize,
}

impl Call {
    /// A call of a text alone, with room enough.
    pub fn of_text(kind: Kind, text: Vec<u8>) -> Call {
        Call {
            kind,
            text,
            days: vec![],
            table: Table::default(),
            today: 0,
            p: 1,
            q: 2,
            month: 0,
            out: if kind.writes() { 60_000 } else { 0 },
            answer: kind.numbers(),
        }
    }

    /// What the interpreter says.
    pub fn foretold(&self) -> Result<Answer, Refusal> {
        self.foretold_with(Room {
            out: self.out,
            answer: self.answer,
        })
    }

    /// What the interpreter says if another length is lent.
    pub fn foretold_with(&self, room: Room) -> Result<Answer, Refusal> {
        let given = Given {
            text: &self.text,
            days: &self.days,
            table: &self.table,
            today: self.today,
        };
        let pair = (self.p, self.q);
        match self.kind {
            Kind::Check => calls::check(given, room),
            Kind::Payment => calls::payment(given, pair, self.month, room),
            Kind::Step => calls::step(given, pair, room),
            Kind::Compile => calls::compile(&self.text, room),
            Kind::Cut => calls::cut(&self.text, room),
            Kind::Evaluate => calls::evaluate(given, pair, room),
            Kind::Sheet => calls::sheet(&self.text, room),
        }
    }
}

/// One who answers calls: the engine, or what stands in for it where the harness itself is tested.
/// Returned is 0 or the refusal's number; `out` and `answer` have the lengths that the call says.
pub trait Calls {
    fn call(&self, call: &Call, out: &mut [u8], answer: &mut [i64]) -> i32;
}

/// The engine, through its C interface.
pub struct Engine;

impl Calls for Engine {
    fn call(&self, call: &Call, out: &mut [u8], answer: &mut [i64]) -> i32 {
        use engine::lent;
        let Call {
            kind,
            text,
            days,
            table,
            today,
            p,
            q,
            month,
            ..
        } = call;
        let table = engine::Table {
            h: table.h,
            f: table.f,
            factors: &table.factors,
            bounds: &table.bounds,
            values: &table.values,
        };
        match kind {
            Kind::Check => lent::check(text, days, &table, *today, answer),
            Kind::Payment => lent::payment(text, days, &table, *today, *p, *q, *month, answer),
            Kind::Step => lent::step(text, days, &table, *today, *p, *q, out, answer),
            Kind::Compile => lent::compile(text, out, answer),
            Kind::Cut => lent::cut(text, out, answer),
            Kind::Evaluate => lent::evaluate(text, days, &table, *today, *p, *q, answer),
            Kind::Sheet => lent::sheet(text, out, answer),
        }
    }
}

/// The interpreter as one who answers calls.
pub struct Interpreter;

impl Calls for Interpreter {
    fn call(&self, call: &Call, out: &mut [u8], answer: &mut [i64]) -> i32 {
        write(call.foretold(), out, answer)
    }
}

/// "An accepted call writes from the buffer's first byte, and bytes behind the answer keep their
/// values"; after a refusal "every lent buffer holds the bytes it held before".
pub fn write(told: Result<Answer, Refusal>, out: &mut [u8], answer: &mut [i64]) -> i32 {
    match told {
        Ok(told) => {
            out[..told.bytes.len()].copy_from_slice(&told.bytes);
            answer[..told.numbers.len()].copy_from_slice(&told.numbers);
            0
        }
        Err(refusal) => i32::from(refusal.number()),
    }
}
