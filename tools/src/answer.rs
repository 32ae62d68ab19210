//! What the engine's sheet call answers.

pub struct Month {
    pub month: i64,
    pub pence: i64,
    /// What is left from this month on, in millionths of a penny.
    pub left: i64,
}

pub struct Accepted {
    pub length: i64,
    pub magnitude: i64,
    pub months: Vec<Month>,
}

/// The sheet's lines, byte for byte.
pub fn lines(sheet: &[u8]) -> Vec<u8> {
    engine::sheet(sheet).expect("the sheet call has room for every answer")
}

/// The answer, or the number of the refusal.
pub fn of(sheet: &[u8]) -> Result<Accepted, i32> {
    let answer = String::from_utf8(lines(sheet)).expect("an answer is text");
    let mut rows = answer
        .lines()
        .map(|line| line.split(',').collect::<Vec<_>>());
    let number = |field: &str| field.parse::<i64>().expect("an answer holds numbers");
    match &rows.next().expect("an answer has a line")[..] {
        ["accepted", length, magnitude] => Ok(Accepted {
            length: number(length),
            magnitude: number(magnitude),
            months: rows
                .map(|row| Month {
                    month: number(row[0]),
                    pence: number(row[1]),
                    left: number(row[2]),
                })
                .collect(),
        }),
        ["refused", refusal] => Err(refusal.parse().expect("a refusal has a number")),
        other => panic!("no answer of a sheet: {other:?}"),
    }
}
