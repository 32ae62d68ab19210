//! Where document 01 leaves a choice: the readings A1 to A15, each with the input that tells it from
//! the other reading.

use crate::say::*;
use crate::Case;

pub fn all() -> Vec<Case> {
    vec![
        Case {
            name: "A1: a step fills every setting",
            needs: &["step"],
            run: || {
                let table = bare(0, 9);
                for (plan, next) in [
                    ("W,1,G,N,1,N,0,L,P0,Z,Z", "W,0,G,N,1,N,0,L,3,Z,Z"),
                    ("L,2,L,P0,Z", "L,1,L,3,Z"),
                    ("L,P0,W,P0,G,N,1,N,0,Z,Z", "L,2,W,3,G,N,1,N,0,Z,Z"),
                ] {
                    same_for(plan, step(plan, &[3], &table, 0), Ok((0, next.into())))?;
                }
                Ok(())
            },
        },
        Case {
            name: "A2: an unset setting of a payoff is found before evaluation",
            needs: &["evaluate"],
            run: || {
                for payoff in [
                    "W,0,E,N,1,N,1,Z,F,0+P7,1,2",
                    "B,F,601,1,2,F,0+P7,1,2",
                    "W,P3,E,N,1,N,1,Z,Z",
                    "S,O,0,0+P0,Z",
                ] {
                    same_for(payoff, evaluate(payoff, &[], &bare(0, 0), 0), Err(8))?;
                }
                Ok(())
            },
        },
        Case {
            name: "A3: the second plan starts only in the last month tried",
            needs: &["check"],
            run: || {
                let table = indexed(0, 5, &[]);
                let plan = "W,5,E,N,1,N,2,Z,S,O,0,-3,Z";
                same(check(plan, &[], &table, 0), Ok((5, 0)))?;
                let first = "W,5,E,N,1,N,2,S,O,0,-3,Z,Z";
                same(check(first, &[], &table, 0), Err(11))
            },
        },
        Case {
            name: "A4: a ninth index line is 9, after the plan is read",
            needs: &["sheet"],
            run: || {
                let nine: String = (0..9).map(|label| format!("index,{label},5,1\n")).collect();
                let with = |plan: &str| {
                    sheet(&format!(
                        "plan,{plan}\ndays\nspan,0,0\nfactors,1\npair,1,2\n{nine}"
                    ))
                };
                same(with("Z"), Ok("refused,9\n".into()))?;
                same(with("N,5"), Ok("refused,5\n".into()))
            },
        },
        Case {
            name: "A5: a span below zero",
            needs: &["sheet"],
            run: || {
                for (span, factors, index, printed) in [
                    ("-1,1", "1,1", "index,0,5,1\n", "refused,9\n"),
                    ("-5,0", "1", "", "refused,9\n"),
                    ("-1,0", "1", "index,0,0\n", "refused,2\n"),
                    ("0,0", "1", "", "accepted,0,0\n0,0,0\n"),
                ] {
                    let found = sheet(&format!(
                        "plan,Z\ndays\nspan,{span}\nfactors,{factors}\npair,1,2\n{index}"
                    ));
                    same_for(span, found, Ok(printed.into()))?;
                }
                Ok(())
            },
        },
        Case {
            name: "A6: an amount of 0, and the amount first",
            needs: &["evaluate"],
            run: || {
                let value = |payoff| evaluate(payoff, &[], &bare(0, 0), 0);
                same(value("S,N,0,F,-1,1,2"), Err(11))?;
                same(value("S,A,N,9000000000000,N,1,F,-1,1,2"), Err(14))
            },
        },
        Case {
            name: "A7: a field outside its range is 2 (plans)",
            needs: &["check"],
            run: || {
                for plan in [
                    "T,0,1",
                    "T,1,10",
                    "S,O,8,0,Z",
                    "S,O,0,-61,Z",
                    "S,O,0,601,Z",
                    "L,601,Z",
                    "L,-1,Z",
                    "L,P8,Z",
                    "S,N,9000000000001,Z",
                    "S,N,-9000000000001,Z",
                    "S,Q,0,N,1,Z",
                    "S,Q,9000000000001,N,1,Z",
                    "S,N,99999999999999999999999999,Z",
                ] {
                    same_for(plan, check(plan, &[], &bare(0, 0), 0), Err(2))?;
                }
                Ok(())
            },
        },
        Case {
            name: "A7: a field outside its range is 2 (payoffs)",
            needs: &["cut"],
            run: || {
                for payoff in ["F,19201,1,2", "F,-61,1,2", "H,0,0,1", "S,O,0,19201,Z"] {
                    same_for(payoff, cut(payoff), Err(2))?;
                }
                same(cut("F,19200,1,2"), Ok("H,19200,1,2".into()))?;
                let same_text = "S,O,7,-60,H,-60,9,9";
                same(cut(same_text), Ok(same_text.into()))
            },
        },
        Case {
            name: "A8: a missing child is 2",
            needs: &["check"],
            run: || {
                let nested = "L,0,".repeat(32);
                let cut_off = nested.strip_suffix(',').expect("a comma");
                let refused = |plan: &str| check(plan, &[], &bare(0, 0), 0);
                same(refused(cut_off), Err(2))?;
                same(refused(&nested), Err(2))?;
                same(refused(&format!("{nested}N")), Err(5))?;
                same(refused(&format!("{nested}Z")), Err(4))
            },
        },
        Case {
            name: "A9: reads go by form",
            needs: &["check"],
            run: || {
                let plan = "W,5,E,N,1,N,1,S,O,0,1,Z,Z";
                same(check(plan, &[], &indexed(0, 5, &[]), 0), Err(11))
            },
        },
        Case {
            name: "A10: an unset setting anywhere in a plan is 8",
            needs: &["check"],
            run: || {
                let plan = "W,0,E,N,1,N,1,Z,L,P7,Z";
                let with = |days: &[i64]| check(plan, days, &bare(0, 0), 0);
                same(with(&[]), Err(8))?;
                same(with(&[0; 7]), Err(8))?;
                same(with(&[0; 8]), Ok((0, 0)))?;
                same(with(&[0; 9]), Err(8))
            },
        },
        Case {
            name: "A11: a step with today = f",
            needs: &["step"],
            run: || {
                same(step("T,1,2", &[], &bare(0, 2), 2), Ok((1, "Z".into())))?;
                same(step("T,1,2", &[], &bare(0, 2), 3), Err(12))
            },
        },
        Case {
            name: "A12: numbers and counts of a sheet",
            needs: &["sheet"],
            run: || {
                for (from, to, printed) in [
                    ("days,2", "days,601", "refused,8\n"),
                    ("days,2", "days,9000000000001", "refused,2\n"),
                    ("days,2", "days,2,2,2,2,2,2,2,2,2", "refused,8\n"),
                    ("days,2", "days,", "refused,2\n"),
                    ("days,2", "days", "refused,8\n"),
                    ("days,2", "days,3", "refused,10\n"),
                    ("pair,1,2", "pair,1", "refused,2\n"),
                    ("pair,1,2", "pair,1,2,3", "refused,2\n"),
                    ("pair,1,2", "pair,1,10", "refused,12\n"),
                    ("span,0,2", "span,0", "refused,2\n"),
                    ("span,0,2", "span,0,3", "refused,2\n"),
                    ("factors,1000000", "factors,1000001", "refused,9\n"),
                    ("index,0,200,90", "index,0,-1,90", "refused,9\n"),
                    ("index,0,200,90", "index,1,200,90", "refused,2\n"),
                    ("index,0,200,90,100,130", "index,0", "refused,2\n"),
                    ("index,0,200,90,100,130\n", "", "refused,11\n"),
                    ("index,0,200,90", "index,0,200,+90", "refused,2\n"),
                    (",130\n", ",130", "refused,2\n"),
                    (",130\n", ",130\n\n", "refused,2\n"),
                    ("plan,B", "plan,N", "refused,5\n"),
                ] {
                    same_for(to, sheet(&SHEET.replace(from, to)), Ok(printed.into()))?;
                }
                let long = format!("plan,{}", "Z".repeat(8_705));
                let long = SHEET.replace("plan,B", &long);
                same(sheet(&long), Ok("refused,1\n".into()))?;
                let and_a_fault = long.replace("days,2", "days,");
                same(sheet(&and_a_fault), Ok("refused,2\n".into()))?;
                let too_long = "z".repeat(60_001);
                same(sheet(&too_long), Ok("refused,1\n".into()))?;
                same(sheet(&too_long[1..]), Ok("refused,2\n".into()))
            },
        },
        Case {
            name: "A13: tests and magnitude",
            needs: &["check"],
            run: || {
                let of = |plan| check(plan, &[], &bare(0, 0), 0);
                same(of("S,I,G,N,5,N,6,N,1,N,2,T,1,2"), Ok((0, 2)))?;
                let beyond = "S,I,G,A,N,9000000000000,N,1,N,6,N,1,N,2,T,1,2";
                same(of(beyond), Err(6))
            },
        },
        Case {
            name: "A14: counts of a table",
            needs: &["check"],
            run: || {
                let changes: [fn(&mut Numbers); 12] = [
                    |table| table.factors.push(0),
                    |table| table.factors.truncate(2),
                    |table| table.values.push(0),
                    |table| table.values.clear(),
                    |table| table.bounds.push(0),
                    |table| table.h = -1,
                    |table| table.h = 61,
                    |table| table.f = 601,
                    |table| table.f = i64::MAX,
                    |table| table.h = i64::MIN,
                    |table| table.values[3] = 1001,
                    |table| table.values[3] = i64::MIN,
                ];
                for (at, change) in changes.into_iter().enumerate() {
                    let mut table = indexed(1, 2, &[]);
                    change(&mut table);
                    let name = format!("change {at}");
                    same_for(&name, check("Z", &[], &table, 0), Err(9))?;
                }
                let labels = |count: usize| {
                    let mut table = bare(0, 0);
                    table.bounds = vec![0; count];
                    table.values = vec![0; count];
                    check("Z", &[], &table, 0)
                };
                same(labels(8), Ok((0, 0)))?;
                same(labels(9), Err(9))
            },
        },
        Case {
            name: "A15: ranges of amounts and values",
            needs: &["evaluate"],
            run: || {
                let most = 9_000_000_000_000_000_000;
                for (payoff, value) in [
                    ("S,N,9000000000000,F,0,1,2", Ok(most)),
                    ("S,N,9000000000000,F,0,2,1", Ok(-most)),
                    ("B,S,N,9000000000000,F,0,1,2,F,0,1,2", Err(14)),
                    ("B,S,N,-9000000000000,F,0,1,2,F,0,2,1", Err(14)),
                    ("S,N,2,S,N,9000000000000,F,0,1,2", Err(14)),
                    ("S,N,9000000000000,S,N,9000000000000,F,0,1,2", Err(14)),
                    ("S,N,0,S,N,9000000000000,F,0,1,2", Ok(0)),
                    ("S,U,N,-9000000000000,N,1,Z", Err(14)),
                    ("S,K,N,-3000000,N,3000001,Z", Err(14)),
                    ("S,K,N,-3000000,N,3000000,Z", Ok(0)),
                    ("S,U,A,N,9000000000000,N,1,N,1,Z", Err(14)),
                    ("S,I,E,N,1,N,1,N,1,A,N,9000000000000,N,1,Z", Ok(0)),
                    ("W,0,Y,E,N,1,N,2,E,A,N,9000000000000,N,1,N,0,Z,Z", Err(14)),
                    ("W,0,V,E,N,1,N,1,E,A,N,9000000000000,N,1,N,0,Z,Z", Err(14)),
                ] {
                    same_for(payoff, evaluate(payoff, &[], &bare(0, 0), 0), value)?;
                }
                Ok(())
            },
        },
    ]
}
