//! The engine's C interface, declared and wrapped.
//!
//! [`lent`] has each call as C has it: the caller lends `out` and `answer`, and gets back 0 or the
//! refusal's number. The functions at the top here lend room enough and hand back what was written.

pub mod lent;

/// A table as the C interface takes it: factors for months 0 to f, as many labels as bounds, values
/// label after label for months -h to f.
#[derive(Clone, Copy, Debug)]
pub struct Table<'a> {
    pub h: i64,
    pub f: i64,
    pub factors: &'a [i64],
    pub bounds: &'a [i64],
    pub values: &'a [i64],
}

/// Room for every text that a call writes: the longest is a payoff of 53,760 bytes.
const OUT: usize = 60_000;

/// Length and magnitude of an accepted plan.
pub fn check(plan: &[u8], days: &[i64], table: &Table, today: i64) -> Result<(i64, i64), i32> {
    let mut answer = [0; 2];
    told(lent::check(plan, days, table, today, &mut answer))?;
    Ok((answer[0], answer[1]))
}

/// The pence that p pays q in a month.
pub fn payment(
    plan: &[u8],
    days: &[i64],
    table: &Table,
    today: i64,
    p: i64,
    q: i64,
    month: i64,
) -> Result<i64, i32> {
    let mut answer = [0];
    told(lent::payment(
        plan,
        days,
        table,
        today,
        p,
        q,
        month,
        &mut answer,
    ))?;
    Ok(answer[0])
}

/// The pence that p pays q today, and the plan for tomorrow.
pub fn step(
    plan: &[u8],
    days: &[i64],
    table: &Table,
    today: i64,
    p: i64,
    q: i64,
) -> Result<(i64, Vec<u8>), i32> {
    let mut out = vec![0; OUT];
    let mut answer = [0; 2];
    told(lent::step(
        plan,
        days,
        table,
        today,
        p,
        q,
        &mut out,
        &mut answer,
    ))?;
    Ok((answer[0], written(out, answer[1])))
}

/// The payoff of a plan.
pub fn compile(plan: &[u8]) -> Result<Vec<u8>, i32> {
    let mut out = vec![0; OUT];
    let mut answer = [0];
    told(lent::compile(plan, &mut out, &mut answer))?;
    Ok(written(out, answer[0]))
}

/// The payoff with every `F` turned into `H`.
pub fn cut(payoff: &[u8]) -> Result<Vec<u8>, i32> {
    let mut out = vec![0; OUT];
    let mut answer = [0];
    told(lent::cut(payoff, &mut out, &mut answer))?;
    Ok(written(out, answer[0]))
}

/// The value of a payoff for a pair, in millionths of a penny.
pub fn evaluate(
    payoff: &[u8],
    days: &[i64],
    table: &Table,
    now: i64,
    p: i64,
    q: i64,
) -> Result<i64, i32> {
    let mut answer = [0];
    told(lent::evaluate(payoff, days, table, now, p, q, &mut answer))?;
    Ok(answer[0])
}

/// What the sheet program prints.
pub fn sheet(input: &[u8]) -> Result<Vec<u8>, i32> {
    let mut out = vec![0; OUT];
    let mut answer = [0];
    told(lent::sheet(input, &mut out, &mut answer))?;
    Ok(written(out, answer[0]))
}

fn told(status: i32) -> Result<(), i32> {
    match status {
        0 => Ok(()),
        refusal => Err(refusal),
    }
}

fn written(mut out: Vec<u8>, bytes: i64) -> Vec<u8> {
    let bytes = usize::try_from(bytes).expect("a count of bytes");
    assert!(bytes <= out.len(), "more bytes than were lent");
    out.truncate(bytes);
    out
}
