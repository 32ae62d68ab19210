//! "Mistakes near at hand", each told apart from what is right.

use crate::say::*;
use crate::Case;

pub fn all() -> Vec<Case> {
    vec![
        Case {
            name: "moving the offsets in a waiting W as in an S",
            needs: &["step"],
            run: || {
                let table = indexed(1, 3, &[0, 0, 0, 9, 9]);
                let plan = "W,2,G,N,5,O,0,-1,S,O,0,0,T,1,2,Z";
                let next = "W,1,G,N,5,O,0,-1,S,O,0,0,T,1,2,Z";
                same(step(plan, &[], &table, 0), Ok((0, next.into())))
            },
        },
        Case {
            name: "a test that holds in the last month taken for a miss (payment)",
            needs: &["payment"],
            run: || {
                let table = indexed(0, 2, &[0, 0, 9]);
                same(payment(LAST_HIT, &[], &table, 0, 2), Ok(1))
            },
        },
        Case {
            name: "a test that holds in the last month taken for a miss (value)",
            needs: &["evaluate"],
            run: || {
                let table = indexed(0, 2, &[0, 0, 9]);
                let payoff = "W,2,G,N,5,O,0,0,F,0,1,2,F,0,2,1";
                same(evaluate(payoff, &[], &table, 0), Ok(1_000_000))
            },
        },
        Case {
            name: "a test that holds in the last month taken for a miss (step)",
            needs: &["step"],
            run: || {
                let table = indexed(0, 2, &[0, 0, 9]);
                let last = LAST_HIT.replace("W,2", "W,0");
                same(step(&last, &[], &table, 2), Ok((1, "Z".into())))
            },
        },
        Case {
            name: "cutting the payments of month now",
            needs: &["evaluate"],
            run: || {
                let table = bare(0, 2);
                let payoff = "B,H,0,1,2,B,H,1,1,2,H,2,1,2";
                same(evaluate(payoff, &[], &table, 0), Ok(3_000_000))?;
                same(evaluate(payoff, &[], &table, 1), Ok(2_000_000))?;
                same(evaluate(payoff, &[], &table, 2), Ok(1_000_000))
            },
        },
        Case {
            name: "one more month of waiting at W with d = 0 (payment)",
            needs: &["payment"],
            run: || {
                let table = indexed(0, 1, &[0, 9]);
                let plan = LAST_HIT.replace("W,2", "W,0");
                same(payment(&plan, &[], &table, 0, 0), Ok(-1))?;
                same(payment(&plan, &[], &table, 0, 1), Ok(0))
            },
        },
        Case {
            name: "one more month of waiting at W with d = 0 (step)",
            needs: &["step"],
            run: || {
                let table = indexed(0, 1, &[0, 9]);
                let plan = LAST_HIT.replace("W,2", "W,0");
                same(step(&plan, &[], &table, 0), Ok((-1, "Z".into())))
            },
        },
        Case {
            name: "replacing an O at offset 1 a month early",
            needs: &["step"],
            run: || {
                let table = indexed(1, 2, &[1, 2, 3, 4]);
                let plan = "S,A,O,0,1,A,O,0,0,O,0,-1,L,1,T,1,2";
                let one = "S,A,O,0,0,A,N,2,N,1,L,0,T,1,2";
                same(step(plan, &[], &table, 0), Ok((0, one.into())))?;
                let two = "S,A,N,3,A,N,2,N,1,Z";
                same(step(one, &[], &table, 1), Ok((6, two.into())))
            },
        },
        Case {
            name: "-1 by 3 is -1",
            needs: &["payment"],
            run: || {
                for (n, by, is) in [(-1, 3, -1), (-3, 3, -1), (-4, 3, -2), (4, 3, 1), (2, 3, 0)] {
                    let plan = format!("S,Q,{by},N,{n},T,1,2");
                    same_for(&plan, payment(&plan, &[], &bare(0, 0), 0, 0), Ok(is))?;
                }
                Ok(())
            },
        },
    ]
}

const LAST_HIT: &str = "W,2,G,N,5,O,0,0,T,1,2,T,2,1";
