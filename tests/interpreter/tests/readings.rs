//! Where document 01 leaves a choice: the readings A1 to A15, each with the input that tells it from
//! the other reading.

mod common;
use common::*;
use interpreter::calls::{self, Given, Room};
use interpreter::Refusal;

const TRUE: &str = "E,N,1,N,1";

/// A1: all open settings are filled, also beneath a waiting `W` or an `L` that only counts down.
#[test]
fn a1_a_step_fills_every_setting() {
    let table = bare(0, 9);
    let step = |plan| step(plan, &[3], &table, 0).unwrap().1;
    assert_eq!(step("W,1,G,N,1,N,0,L,P0,Z,Z"), "W,0,G,N,1,N,0,L,3,Z,Z");
    assert_eq!(step("L,2,L,P0,Z"), "L,1,L,3,Z");
    assert_eq!(step("L,P0,W,P0,G,N,1,N,0,Z,Z"), "L,2,W,3,G,N,1,N,0,Z,Z");
}

/// A2: an unset setting of a payoff is found in the whole text before evaluation.
#[test]
fn a2_unset_settings_of_a_payoff() {
    let table = bare(0, 0);
    let value = |payoff: &str| evaluate(payoff, &[], &table, 0);
    assert_eq!(value(&format!("W,0,{TRUE},Z,F,0+P7,1,2")), Err(8));
    assert_eq!(value("B,F,601,1,2,F,0+P7,1,2"), Err(8));
    assert_eq!(value(&format!("W,P3,{TRUE},Z,Z")), Err(8));
    assert_eq!(value("S,O,0,0+P0,Z"), Err(8));
}

/// A3: the second plan starts only in the last month tried.
#[test]
fn a3_months_of_the_second_plan() {
    let table = indexed(0, 5, &[]);
    let plan = "W,5,E,N,1,N,2,Z,S,O,0,-3,Z";
    assert_eq!(check(plan, &[], &table, 0), Ok((5, 0)));
    let first = "W,5,E,N,1,N,2,S,O,0,-3,Z,Z";
    assert_eq!(check(first, &[], &table, 0), Err(11));
}

/// A4: a ninth index line is 9, after the plan is read.
#[test]
fn a4_a_ninth_index_line() {
    let index = |label| format!("index,{label},5,1\n");
    let nine: String = (0..9).map(index).collect();
    let with = |plan: &str| format!("plan,{plan}\ndays\nspan,0,0\nfactors,1\npair,1,2\n{nine}");
    assert_eq!(sheet(&with("Z")), "refused,9\n");
    assert_eq!(sheet(&with("N,5")), "refused,5\n");
}

/// A5: a span below zero is 9 where the counts fit, 2 where a count would be 0.
#[test]
fn a5_a_span_below_zero() {
    let with = |span: &str, factors: &str, index: &str| {
        sheet(&format!(
            "plan,Z\ndays\nspan,{span}\nfactors,{factors}\npair,1,2\n{index}"
        ))
    };
    assert_eq!(with("-1,1", "1,1", "index,0,5,1\n"), "refused,9\n");
    assert_eq!(with("-5,0", "1", ""), "refused,9\n");
    assert_eq!(with("-1,0", "1", "index,0,0\n"), "refused,2\n");
    assert_eq!(with("0,0", "1", ""), "accepted,0,0\n0,0,0\n");
}

/// A6: what stands beneath an `S` is evaluated also where the amount is 0; the amount comes first.
#[test]
fn a6_an_amount_of_0() {
    let table = bare(0, 0);
    let value = |payoff| evaluate(payoff, &[], &table, 0);
    assert_eq!(value("S,N,0,F,-1,1,2"), Err(11));
    assert_eq!(value("S,A,N,9000000000000,N,1,F,-1,1,2"), Err(14));
}

/// A7: a field outside its range is 2, whatever the field.
#[test]
fn a7_fields_outside_their_range() {
    let table = bare(0, 0);
    for plan in [
        "T,0,1",
        "T,1,10",
        "S,O,8,0,Z",
        "S,O,-1,0,Z",
        "S,O,0,-61,Z",
        "S,O,0,601,Z",
        "L,601,Z",
        "L,-1,Z",
        "L,P8,Z",
        "S,N,9000000000001,Z",
        "S,N,-9000000000001,Z",
        "S,Q,0,N,1,Z",
        "S,Q,-1,N,1,Z",
        "S,Q,9000000000001,N,1,Z",
        "S,N,99999999999999999999999999,Z",
    ] {
        assert_eq!(check(plan, &[], &table, 0), Err(2), "{plan}");
    }
    for payoff in ["F,19201,1,2", "F,-61,1,2", "H,0,0,1", "S,O,0,19201,Z"] {
        assert_eq!(cut(payoff), Err(2), "{payoff}");
    }
    assert_eq!(cut("F,19200,1,2"), Ok("H,19200,1,2".into()));
    assert_eq!(cut("S,O,7,-60,H,-60,9,9"), Ok("S,O,7,-60,H,-60,9,9".into()));
}

/// A8: a child that is missing is 2, also where it would be too deep or one too many.
#[test]
fn a8_a_missing_child() {
    let table = bare(0, 0);
    let nested = "L,0,".repeat(32);
    let cut_off = nested.strip_suffix(',').unwrap();
    assert_eq!(check(cut_off, &[], &table, 0), Err(2));
    assert_eq!(check(&nested, &[], &table, 0), Err(2));
    assert_eq!(check(&format!("{nested}J"), &[], &table, 0), Err(2));
    assert_eq!(check(&format!("{nested}N"), &[], &table, 0), Err(5));
    assert_eq!(check(&format!("{nested}Z"), &[], &table, 0), Err(4));
}

/// A9: a test that always holds makes no month impossible.
#[test]
fn a9_reads_go_by_form() {
    let table = indexed(0, 5, &[]);
    let plan = format!("W,5,{TRUE},S,O,0,1,Z,Z");
    assert_eq!(check(&plan, &[], &table, 0), Err(11));
}

/// A10: an unset setting anywhere in a plan is 8.
#[test]
fn a10_unset_settings_of_a_plan() {
    let plan = format!("W,0,{TRUE},Z,L,P7,Z");
    assert_eq!(check(&plan, &[], &bare(0, 0), 0), Err(8));
    assert_eq!(check(&plan, &[0; 7], &bare(0, 0), 0), Err(8));
    assert_eq!(check(&plan, &[0; 8], &bare(0, 0), 0), Ok((0, 0)));
    assert_eq!(check(&plan, &[0; 9], &bare(0, 0), 0), Err(8));
}

/// A11: a step with today = f is accepted like any other.
#[test]
fn a11_a_step_with_today_f() {
    let table = bare(0, 2);
    assert_eq!(step("T,1,2", &[], &table, 2), Ok((1, "Z".into())));
    assert_eq!(step("T,1,2", &[], &table, 3), Err(12));
}

/// A12: form, 9×10^12 and the listed counts are 2; all else comes in the order of ranges.
#[test]
fn a12_numbers_and_counts_of_a_sheet() {
    let changed = |from: &str, to: &str| {
        assert!(SHEET.contains(from), "{from}");
        sheet(&SHEET.replace(from, to))
    };
    for (from, to, printed) in [
        ("days,2", "days,601", "refused,8\n"),
        ("days,2", "days,-1", "refused,8\n"),
        ("days,2", "days,9000000000001", "refused,2\n"),
        ("days,2", "days,2,2,2,2,2,2,2,2,2", "refused,8\n"),
        ("days,2", "days,", "refused,2\n"),
        ("days,2", "days", "refused,8\n"),
        ("days,2", "days,3", "refused,10\n"),
        ("pair,1,2", "pair,1", "refused,2\n"),
        ("pair,1,2", "pair", "refused,2\n"),
        ("pair,1,2", "pair,1,2,3", "refused,2\n"),
        ("pair,1,2", "pair,1,10", "refused,12\n"),
        ("span,0,2", "span,0", "refused,2\n"),
        ("span,0,2", "span,0,2,2", "refused,2\n"),
        ("span,0,2", "span,0,3", "refused,2\n"),
        ("span,0,2", "span,1,2", "refused,2\n"),
        ("factors,1000000", "factors,1000001", "refused,9\n"),
        ("index,0,200,90", "index,0,-1,90", "refused,9\n"),
        ("index,0,200,90", "index,0,129,90", "refused,9\n"),
        ("index,0,200,90", "index,1,200,90", "refused,2\n"),
        ("index,0,200,90,100,130", "index,0", "refused,2\n"),
        ("index,0,200,90,100,130", "index", "refused,2\n"),
        ("index,0,200,90,100,130\n", "", "refused,11\n"),
        ("index,0,200,90", "index,0,200,+90", "refused,2\n"),
        ("index,0,200,90", "index,0,200,090", "refused,2\n"),
        ("index,0,200,90", "index,0,200,-0", "refused,2\n"),
        (",130\n", ",130", "refused,2\n"),
        (",130\n", ",130\n\n", "refused,2\n"),
        (",130\n", ",130\r\n", "refused,2\n"),
        ("pair,1,2\n", "pair,1,2\n\n", "refused,2\n"),
        ("pair,1,2\n", "pair,1,2\npair,1,2\n", "refused,2\n"),
        ("plan,B", "plans,B", "refused,2\n"),
        ("plan,B", "plan,N", "refused,5\n"),
    ] {
        assert_eq!(changed(from, to), printed, "{from} -> {to}");
    }
    assert_eq!(sheet(""), "refused,2\n");
    let long_plan = format!("plan,{}", "Z".repeat(8_705));
    assert_eq!(changed("plan,B", &long_plan), "refused,1\n");
    let and_a_fault = SHEET
        .replace("plan,B", &long_plan)
        .replace("days,2", "days,");
    assert_eq!(sheet(&and_a_fault), "refused,2\n");
    let too_long = SHEET.replace("days,2", &format!("days{}", ",".repeat(60_000)));
    assert_eq!(sheet(&too_long), "refused,1\n");
}

/// A13: a test has no magnitude, but its amounts are held to the limit.
#[test]
fn a13_tests_and_magnitude() {
    let table = bare(0, 0);
    let plan = "S,I,G,N,5,N,6,N,1,N,2,T,1,2";
    assert_eq!(check(plan, &[], &table, 0), Ok((0, 2)));
    let plan = "S,I,G,A,N,9000000000000,N,1,N,6,N,1,N,2,T,1,2";
    assert_eq!(check(plan, &[], &table, 0), Err(6));
    let plan = "W,0,R,E,A,N,9000000000000,N,-1,N,6,Z,Z";
    assert_eq!(check(plan, &[], &table, 0), Err(6));
}

/// A14: counts that do not fit h and f, and more than eight labels, are 9.
#[test]
fn a14_counts_of_a_table() {
    let refused = |change: fn(&mut interpreter::Table)| {
        let mut table = indexed(1, 2, &[]);
        change(&mut table);
        check("Z", &[], &table, 0)
    };
    assert_eq!(refused(|_| ()), Ok((0, 0)));
    assert_eq!(refused(|table| table.factors.push(0)), Err(9));
    assert_eq!(refused(|table| table.factors.truncate(2)), Err(9));
    assert_eq!(refused(|table| table.values.push(0)), Err(9));
    assert_eq!(refused(|table| table.values.clear()), Err(9));
    assert_eq!(refused(|table| table.bounds.push(0)), Err(9));
    assert_eq!(refused(|table| table.h = -1), Err(9));
    assert_eq!(refused(|table| table.h = 61), Err(9));
    assert_eq!(refused(|table| table.f = 601), Err(9));
    assert_eq!(refused(|table| table.f = i64::MAX), Err(9));
    assert_eq!(refused(|table| table.h = i64::MIN), Err(9));
    assert_eq!(refused(|table| table.values[3] = 1001), Err(9));
    assert_eq!(refused(|table| table.values[3] = i64::MIN), Err(9));
    assert_eq!(refused(|table| table.factors[0] = 1_000_001), Err(9));
    assert_eq!(refused(|table| table.factors[0] = -1), Err(9));
    assert_eq!(refused(|table| table.bounds[0] = -1), Err(9));
    assert_eq!(refused(|table| table.bounds[0] = 9_000_000_000_001), Err(9));
    let labels = |count: usize| {
        let mut table = bare(0, 0);
        table.bounds = vec![0; count];
        table.values = vec![0; count];
        check("Z", &[], &table, 0)
    };
    assert_eq!(labels(8), Ok((0, 0)));
    assert_eq!(labels(9), Err(9));
}

/// A15: 14 looks at the value of each node, and `S` multiplies before 14 can be told.
#[test]
fn a15_ranges_of_amounts_and_values() {
    let mut table = bare(0, 0);
    let value = |payoff: &str| evaluate(payoff, &[], &table, 0);
    let most = 9_000_000_000_000_000_000;
    assert_eq!(value("S,N,9000000000000,F,0,1,2"), Ok(most));
    assert_eq!(value("S,N,9000000000000,F,0,2,1"), Ok(-most));
    assert_eq!(value("B,S,N,9000000000000,F,0,1,2,F,0,1,2"), Err(14));
    assert_eq!(value("B,S,N,-9000000000000,F,0,1,2,F,0,2,1"), Err(14));
    assert_eq!(value("S,N,2,S,N,9000000000000,F,0,1,2"), Err(14));
    assert_eq!(
        value("S,N,9000000000000,S,N,9000000000000,F,0,1,2"),
        Err(14)
    );
    assert_eq!(value("S,N,0,S,N,9000000000000,F,0,1,2"), Ok(0));
    assert_eq!(value("S,U,N,-9000000000000,N,1,Z"), Err(14));
    assert_eq!(value("S,K,N,-3000000,N,3000001,Z"), Err(14));
    assert_eq!(value("S,K,N,-3000000,N,3000000,Z"), Ok(0));
    // The sum is met before what would bring it back.
    assert_eq!(value("S,U,A,N,9000000000000,N,1,N,1,Z"), Err(14));
    // Only the chosen branch is met, but `Y` and `V` try both sides.
    assert_eq!(value("S,I,E,N,1,N,1,N,1,A,N,9000000000000,N,1,Z"), Ok(0));
    let beyond = "E,A,N,9000000000000,N,1,N,0";
    assert_eq!(value(&format!("W,0,Y,E,N,1,N,2,{beyond},Z,Z")), Err(14));
    assert_eq!(value(&format!("W,0,V,E,N,1,N,1,{beyond},Z,Z")), Err(14));
    table.factors[0] = 1;
    let value = |payoff: &str| evaluate(payoff, &[], &table, 0);
    assert_eq!(value("S,N,1000000,S,N,9000000000000,F,0,1,2"), Ok(most));
    assert_eq!(value("S,N,1000001,S,N,9000000000000,F,0,1,2"), Err(14));
}

/// Order: "1; then reading ..; then 9, 12, 8, 10, 11, 7, 6, 13".
#[test]
fn order_of_refusals() {
    // Wrong in each way at once; then one fault after the other is mended.
    let refused = |text: &str, table: &interpreter::Table, p: i64, days: &[i64], room: Room| {
        let given = Given {
            text: text.as_bytes(),
            days,
            table,
            today: 0,
        };
        calls::step(given, (p, 2), room).map_err(Refusal::number)
    };
    let none = Room { out: 0, answer: 0 };
    let mut table = indexed(0, 3, &[]);
    table.factors[0] = -1;
    let all = "B,L,P0,Z,B,S,O,0,4,T,1,2,S,N,9000000000000,S,N,2,Z";
    let long = "Z".repeat(8_705);
    assert_eq!(refused(&long, &table, 0, &[], none), Err(1));
    assert_eq!(refused("B,Z", &table, 0, &[], none), Err(2));
    assert_eq!(refused(all, &table, 0, &[], none), Err(9));
    table.factors[0] = 1;
    assert_eq!(refused(all, &table, 0, &[], none), Err(12));
    assert_eq!(refused(all, &table, 1, &[], none), Err(8));
    assert_eq!(refused(all, &table, 1, &[4], none), Err(10));
    assert_eq!(refused(all, &table, 1, &[3], none), Err(11));
    let read = all.replace("O,0,4", "O,0,3");
    assert_eq!(refused(&read, &table, 1, &[3], none), Err(7));
    let known = all
        .replace("O,0,4", "O,0,0")
        .replace("S,N,2,Z", "S,N,2,T,1,2");
    assert_eq!(refused(&known, &table, 1, &[3], none), Err(6));
    let small = known.replace("9000000000000", "9");
    assert_eq!(refused(&small, &table, 1, &[3], none), Err(13));
    let room = Room { out: 99, answer: 2 };
    let answer = refused(&small, &table, 1, &[3], room).unwrap();
    assert_eq!(answer.numbers, [7 + 9 * 2, answer.bytes.len() as i64]);
    assert_eq!(answer.bytes, b"B,L,2,Z,B,S,N,7,Z,S,N,9,S,N,2,Z");
    let exact = answer.bytes.len();
    let one_short = |out, answer| {
        let room = Room { out, answer };
        refused(&small, &table, 1, &[3], room).map(|_| ())
    };
    assert_eq!(one_short(exact, 2), Ok(()));
    assert_eq!(one_short(exact - 1, 2), Err(13));
    assert_eq!(one_short(exact, 1), Err(13));
}

/// "at each node unknown letter 2, wrong kind 5, 3, 4, its fields 2, and last leftover bytes 2".
#[test]
fn order_at_a_node() {
    let table = bare(0, 0);
    let refused = |plan: &str| check(plan, &[], &table, 0).unwrap_err();
    // 510 nodes, none of them deep, then what `last` begins with is the 511th.
    fn balanced(nodes: usize) -> String {
        match nodes {
            1 => "Z".into(),
            2 => "L,0,Z".into(),
            more => {
                let left = (more - 1) / 2;
                format!("B,{},{}", balanced(left), balanced(more - 1 - left))
            }
        }
    }
    let behind_510 = |last: &str| format!("B,{},{last}", balanced(509));
    assert_eq!(check(&behind_510("B,Z,Z"), &[], &table, 0), Err(3));
    assert_eq!(check(&behind_510("L,0,Z"), &[], &table, 0), Ok((0, 0)));
    assert_eq!(refused(&behind_510("L,0,Z,")), 2);
    assert_eq!(refused(&behind_510("B,Z,N,99")), 5);
    assert_eq!(refused(&behind_510("B,Z,J")), 2);
    assert_eq!(refused(&behind_510("B,Z,T,0,0")), 3);
    assert_eq!(refused(&behind_510("B,Z")), 2);
    // Letters of the other kind of text are unknown.
    assert_eq!(refused("F,0,1,2"), 2);
    assert_eq!(refused("S,F,0,1,2,Z"), 2);
    assert_eq!(cut("T,1,2"), Err(2));
    assert_eq!(cut("S,L,0,Z,Z"), Err(2));
    assert_eq!(cut("S,Z,Z"), Err(5));
    // Anything but a single letter is unknown.
    for plan in [
        "ZZ", "z", " Z", "Z ", ",Z", "Z,", "\u{5a}\n", "S,NN,1,Z", "-",
    ] {
        assert_eq!(refused(plan), 2, "{plan:?}");
    }
    // Fields come before the children's letters.
    assert_eq!(refused("L,x,N"), 2);
    assert_eq!(refused("L,0,N"), 5);
    assert_eq!(refused("S,N,+1,N"), 2);
    assert_eq!(refused("S,N,-0,N"), 2);
    assert_eq!(refused("S,N,,N"), 2);
    assert_eq!(refused("S,N,-,N"), 2);
    assert_eq!(refused("S,N,1,N"), 5);
    assert_eq!(refused("L,P00,N"), 2);
    assert_eq!(refused("L,p0,N"), 2);
}

/// Months of a payoff: "up to 31 settings with `+`, lowest first".
#[test]
fn months_of_a_payoff() {
    let same = |text: &str| assert_eq!(cut(text).as_deref(), Ok(text));
    same("H,12+P0+P3+P3,1,2");
    same(&format!("H,-60{},1,2", "+P7".repeat(31)));
    for month in [
        "12+P3+P0", "+P0", "P0", "12+", "12P0", "12+P8", "012", "1+2", "",
    ] {
        assert_eq!(cut(&format!("H,{month},1,2")), Err(2), "{month}");
    }
    assert_eq!(cut(&format!("H,0{},1,2", "+P7".repeat(32))), Err(2));
    let nested = "L,P1,L,5,L,P0,L,P1,S,O,0,-6,T,1,2";
    assert_eq!(
        compile(nested).unwrap(),
        "S,O,0,-1+P0+P1+P1,F,5+P0+P1+P1,1,2"
    );
    let table = indexed(1, 9, &[0, 1, 2, 3, 4, 5, 6, 7, 8, 9, 10]);
    let payoff = "S,O,0,-1+P0+P1,F,2+P1,1,2";
    assert_eq!(evaluate(payoff, &[3, 4], &table, 0), Ok(7_000_000));
    assert_eq!(evaluate(payoff, &[3, 7], &table, 0), Ok(10_000_000));
    assert_eq!(evaluate(payoff, &[3, 8], &table, 0), Err(11));
    assert_eq!(evaluate("H,-1,3,3", &[], &table, 1), Err(11));
    assert_eq!(evaluate("H,10,3,3", &[], &table, 1), Err(11));
    assert_eq!(evaluate("H,0,1,2", &[], &table, 1), Ok(0));
    assert_eq!(evaluate("S,O,1,0,Z", &[], &table, 1), Err(11));
}

/// "a `W` adds the months it has waited to every month beneath", also those of its test.
#[test]
fn waits_of_a_payoff() {
    let mut table = indexed(0, 4, &[0, 0, 5, 0, 5]);
    table.factors = vec![100, 200, 300, 400, 500];
    let payoff = "W,3,E,O,0,0,N,5,W,2,E,O,0,2,N,5,S,O,0,2,F,1,1,2,Z,F,0,1,2";
    // The outer wait hits after 2 months, the inner one there and then: month 1 + 2.
    assert_eq!(evaluate(payoff, &[], &table, 0), Ok(5 * 400));
    // Reads beyond f while waiting are 11, though a later test might hold.
    assert_eq!(evaluate("W,4,E,O,0,1,N,9,Z,Z", &[], &table, 0), Err(11));
    assert_eq!(
        evaluate("W,3,E,O,0,1,N,9,Z,F,1,1,2", &[], &table, 0),
        Ok(500)
    );
}
