//! The section "Cases" of document 01, starred cases included.

use crate::say::*;
use crate::Case;

pub fn all() -> Vec<Case> {
    vec![
        Case {
            name: "* the sheet above",
            needs: &["sheet"],
            run: || {
                let printed =
                    "accepted,2,5300\n0,0,4920600000\n1,5000,4920600000\n2,-30,-29400000\n";
                same(sheet(SHEET), Ok(printed.into()))
            },
        },
        Case {
            name: "the sheet's plan, call by call",
            needs: &["check", "payment"],
            run: || {
                let table = sheet_table();
                same(check(SHEET_PLAN, &[2], &table, 0), Ok((2, 5300)))?;
                same(payment(SHEET_PLAN, &[2], &table, 0, 0), Ok(0))?;
                same(payment(SHEET_PLAN, &[2], &table, 0, 1), Ok(5000))?;
                same(payment(SHEET_PLAN, &[2], &table, 0, 2), Ok(-30))
            },
        },
        Case {
            name: "* its plan after one step",
            needs: &["step"],
            run: || {
                let rest = SHEET_PLAN.split_once("W,P0,").expect("a wait").1;
                let next = format!("B,L,0,S,N,5000,T,1,2,W,1,{rest}");
                same(step(SHEET_PLAN, &[2], &sheet_table(), 0), Ok((0, next)))
            },
        },
        Case {
            name: "* its plan after three steps",
            needs: &["step"],
            run: || {
                let table = sheet_table();
                let told = |refusal: i32| format!("refused {refusal}");
                let (_, one) = step(SHEET_PLAN, &[2], &table, 0).map_err(told)?;
                let (_, two) = step(&one, &[2], &table, 1).map_err(told)?;
                let three = "B,S,N,5000,Z,S,U,N,130,N,100,Z";
                same(step(&two, &[2], &table, 2), Ok((-30, three.into())))
            },
        },
        Case {
            name: "* its payoff",
            needs: &["compile"],
            run: || {
                let payoff = "B,S,N,5000,F,1,1,2,W,P0,G,N,100,O,0,0,S,U,O,0,0,N,100,F,0,2,1,Z";
                same(compile(SHEET_PLAN), Ok(payoff.into()))
            },
        },
        Case {
            name: "its payoff, cut and valued in each month",
            needs: &["cut", "evaluate"],
            run: || {
                let payoff = "B,S,N,5000,F,1,1,2,W,P0,G,N,100,O,0,0,S,U,O,0,0,N,100,F,0,2,1,Z";
                let cut_payoff = payoff.replace('F', "H");
                same(cut(payoff), Ok(cut_payoff.clone()))?;
                for (now, value) in [(0, 4_920_600_000), (1, 4_920_600_000), (2, -29_400_000)] {
                    same(evaluate(&cut_payoff, &[2], &sheet_table(), now), Ok(value))?;
                    same(
                        evaluate(payoff, &[2], &sheet_table(), now),
                        Ok(4_920_600_000),
                    )?;
                }
                Ok(())
            },
        },
        Case {
            name: "* S,O,0,3,L,3,T,1,2 is known in time",
            needs: &["check"],
            run: || {
                let table = indexed(0, 3, &[]);
                same(check("S,O,0,3,L,3,T,1,2", &[], &table, 0), Ok((3, 1000)))
            },
        },
        Case {
            name: "* with L,2 it is 7",
            needs: &["check"],
            run: || {
                let table = indexed(0, 3, &[]);
                same(check("S,O,0,3,L,2,T,1,2", &[], &table, 0), Err(7))
            },
        },
        Case {
            name: "* S,N,9000000000000,T,1,2 is accepted",
            needs: &["check"],
            run: || {
                let accepted = check("S,N,9000000000000,T,1,2", &[], &bare(0, 0), 0);
                same(accepted, Ok((0, 9_000_000_000_000)))
            },
        },
        Case {
            name: "* B of it and T,1,2 is 6",
            needs: &["check"],
            run: || {
                let plan = "B,S,N,9000000000000,T,1,2,T,1,2";
                same(check(plan, &[], &bare(0, 0), 0), Err(6))
            },
        },
        Case {
            name: "L,600,Z is accepted with f = 600",
            needs: &["check"],
            run: || same(check("L,600,Z", &[], &bare(0, 600), 0), Ok((600, 0))),
        },
        Case {
            name: "L,600,Z with f = 599 is 10",
            needs: &["check"],
            run: || same(check("L,600,Z", &[], &bare(0, 599), 0), Err(10)),
        },
        Case {
            name: "* S,O,0,500,Z with f = 499 is 11",
            needs: &["check"],
            run: || {
                let table = indexed(0, 499, &[]);
                same(check("S,O,0,500,Z", &[], &table, 0), Err(11))
            },
        },
        Case {
            name: "31 times L,0, before Z is accepted",
            needs: &["check"],
            run: || {
                let plan = format!("{}Z", "L,0,".repeat(31));
                same(check(&plan, &[], &bare(0, 0), 0), Ok((0, 0)))
            },
        },
        Case {
            name: "32 times is 4",
            needs: &["check"],
            run: || {
                let plan = format!("{}Z", "L,0,".repeat(32));
                same(check(&plan, &[], &bare(0, 0), 0), Err(4))
            },
        },
        Case {
            name: "* the empty text is 2",
            needs: &["check"],
            run: || same(check("", &[], &bare(0, 0), 0), Err(2)),
        },
        Case {
            name: "* N,5 as a plan is 5",
            needs: &["check"],
            run: || same(check("N,5", &[], &bare(0, 0), 0), Err(5)),
        },
        Case {
            name: "* L,07,Z is 2",
            needs: &["check"],
            run: || same(check("L,07,Z", &[], &bare(0, 7), 0), Err(2)),
        },
    ]
}
