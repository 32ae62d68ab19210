//! Document 01's cases, by the hand-written version alone.

use super::*;

const PLAN: &str = "B,L,1,S,N,5000,T,1,2,W,P0,G,N,100,O,0,0,S,U,O,0,0,N,100,T,2,1,Z";
const PAYOFF: &str = "B,S,N,5000,F,1,1,2,W,P0,G,N,100,O,0,0,S,U,O,0,0,N,100,F,0,2,1,Z";
const SHEET: &str = "plan,B,L,1,S,N,5000,T,1,2,W,P0,G,N,100,O,0,0,S,U,O,0,0,N,100,T,2,1,Z
days,2
span,0,2
factors,1000000,990000,980000
pair,1,2
index,0,200,90,100,130
";

fn table() -> Table<'static> {
    Table {
        h: 0,
        f: 2,
        factors: &[1_000_000, 990_000, 980_000],
        bounds: &[200],
        values: &[90, 100, 130],
    }
}

/// Checks a plan with one label that is always 1 and a flat table of f.
fn checked(plan: &str, f: i64) -> Result<(i64, i64), i32> {
    let ones = vec![1; (f + 1) as usize];
    let table = Table {
        h: 0,
        f,
        factors: &ones,
        bounds: &[1],
        values: &ones,
    };
    let mut answer = [0; 2];
    match check(plan.as_bytes(), &[], &table, 0, &mut answer) {
        0 => Ok((answer[0], answer[1])),
        refusal => Err(refusal),
    }
}

fn stepped(plan: &str, today: i64) -> (i64, String) {
    let mut out = [0; 200];
    let mut answer = [0; 2];
    let told = step(
        plan.as_bytes(),
        &[2],
        &table(),
        today,
        1,
        2,
        &mut out,
        &mut answer,
    );
    assert_eq!(told, 0, "{plan}");
    let text = String::from_utf8(out[..answer[1] as usize].to_vec()).unwrap();
    (answer[0], text)
}

fn sheeted(input: &str) -> String {
    let mut out = [0; 200];
    let mut answer = [0];
    assert_eq!(sheet(input.as_bytes(), &mut out, &mut answer), 0);
    String::from_utf8(out[..answer[0] as usize].to_vec()).unwrap()
}

#[test]
fn the_sheet() {
    let lines = "accepted,2,5300\n0,0,4920600000\n1,5000,4920600000\n2,-30,-29400000\n";
    assert_eq!(sheeted(SHEET), lines);
    assert_eq!(sheeted(&SHEET.replace("days,2", "days,601")), "refused,8\n");
    assert_eq!(sheeted(&SHEET.replace("days,2", "days,")), "refused,2\n");
    assert_eq!(sheeted(&SHEET.replace("pair,1,2", "pair,1")), "refused,2\n");
    assert_eq!(
        sheeted(&SHEET.replace("pair,1,2", "pair,1,10")),
        "refused,12\n"
    );
    assert_eq!(sheeted(&SHEET.replace("990000", "1000001")), "refused,9\n");
    assert_eq!(sheeted(SHEET.trim_end()), "refused,2\n");
    assert_eq!(sheeted(&format!("{SHEET}\n")), "refused,2\n");
}

#[test]
fn the_steps() {
    let (paid, one) = stepped(PLAN, 0);
    assert_eq!(
        (paid, &one[..]),
        (0, &PLAN.replace("L,1", "L,0").replace("P0", "1")[..])
    );
    let (paid, two) = stepped(&one, 1);
    assert_eq!(paid, 5000);
    assert_eq!(
        stepped(&two, 2),
        (-30, "B,S,N,5000,Z,S,U,N,130,N,100,Z".into())
    );
}

#[test]
fn the_payoff() {
    let mut out = [0; 200];
    let mut answer = [0];
    assert_eq!(compile(PLAN.as_bytes(), &mut out, &mut answer), 0);
    assert_eq!(&out[..answer[0] as usize], PAYOFF.as_bytes());
    assert_eq!(cut(PAYOFF.as_bytes(), &mut out, &mut answer), 0);
    let cut = PAYOFF.replace('F', "H");
    assert_eq!(&out[..answer[0] as usize], cut.as_bytes());
    for (text, now, value) in [(PAYOFF, 2, 4_920_600_000), (&cut, 1, 4_920_600_000)] {
        assert_eq!(
            evaluate(text.as_bytes(), &[2], &table(), now, 1, 2, &mut answer),
            0
        );
        assert_eq!(answer[0], value);
    }
    assert_eq!(
        evaluate(cut.as_bytes(), &[2], &table(), 2, 1, 2, &mut answer),
        0
    );
    assert_eq!(answer[0], -29_400_000);
}

#[test]
fn the_payments() {
    for (month, pence) in [(0, 0), (1, 5000), (2, -30)] {
        let mut answer = [7];
        let told = payment(PLAN.as_bytes(), &[2], &table(), 0, 1, 2, month, &mut answer);
        assert_eq!((told, answer[0]), (0, pence));
    }
    assert_eq!(
        payment(PLAN.as_bytes(), &[2], &table(), 1, 1, 2, 0, &mut [0]),
        12
    );
}

#[test]
fn acceptance() {
    assert_eq!(checked("S,O,0,3,L,3,T,1,2", 3), Ok((3, 1)));
    assert_eq!(checked("S,O,0,3,L,2,T,1,2", 3), Err(7));
    assert_eq!(checked("S,N,9000000000000,T,1,2", 0), Ok((0, LIMIT)));
    assert_eq!(checked("B,S,N,9000000000000,T,1,2,T,1,2", 0), Err(6));
    assert_eq!(checked("L,600,Z", 600), Ok((600, 0)));
    assert_eq!(checked("L,600,Z", 599), Err(10));
    assert_eq!(checked("S,O,0,500,Z", 499), Err(11));
    assert_eq!(checked(&("L,0,".repeat(31) + "Z"), 0), Ok((0, 0)));
    assert_eq!(checked(&("L,0,".repeat(32) + "Z"), 0), Err(4));
    assert_eq!(checked("", 0), Err(2));
    assert_eq!(checked("N,5", 0), Err(5));
    assert_eq!(checked("L,07,Z", 0), Err(2));
    assert_eq!(
        checked("S,N,9000000000000,S,N,9000000000000,Z", 0),
        Ok((0, 0))
    );
    assert_eq!(checked("W,5,E,N,1,N,2,Z,S,O,0,-3,Z", 5), Ok((5, 0)));
    assert_eq!(checked("W,5,E,N,1,N,1,S,O,0,1,Z,Z", 5), Err(11));
    assert_eq!(checked("S,I,G,N,5,N,6,N,1,N,2,T,1,2", 0), Ok((0, 2)));
}

#[test]
fn settings_are_filled_everywhere() {
    let table = table();
    let mut out = [0; 200];
    let mut answer = [0; 2];
    let plan = b"W,1,G,N,1,N,0,L,P0,Z,Z";
    assert_eq!(step(plan, &[1], &table, 0, 1, 2, &mut out, &mut answer), 0);
    assert_eq!(&out[..answer[1] as usize], b"W,0,G,N,1,N,0,L,1,Z,Z");
}

#[test]
fn payoffs_by_hand() {
    let value = |text: &str| {
        let mut answer = [0];
        match evaluate(text.as_bytes(), &[], &table(), 0, 1, 2, &mut answer) {
            0 => Ok(answer[0]),
            refusal => Err(refusal),
        }
    };
    assert_eq!(value("S,N,0,F,-1,1,2"), Err(11));
    assert_eq!(value("S,A,N,9000000000000,N,1,F,-1,1,2"), Err(14));
    assert_eq!(value("W,0,E,N,1,N,1,Z,F,0+P7,1,2"), Err(8));
    assert_eq!(value("B,F,601,1,2,F,0+P7,1,2"), Err(8));
    assert_eq!(value("F,19201,1,2"), Err(2));
    let big = "S,N,9000000000000,F,0";
    let three = format!("B,{big},1,2,B,{big},1,2,{big},2,1");
    assert_eq!(value(&three), Ok(9_000_000_000_000_000_000));
    assert_eq!(value("W,600,G,N,0,N,1,F,0,1,2,F,0,2,1"), Ok(1_000_000));
}
