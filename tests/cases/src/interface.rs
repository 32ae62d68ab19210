//! The C interface: lengths of 0, buffers of the exact size, and nothing written after a refusal.

use crate::say::*;
use crate::Case;
use engine::lent;

pub fn all() -> Vec<Case> {
    vec![
        Case {
            name: "an empty text and empty lists",
            needs: &["check"],
            run: || {
                let table = engine::Table {
                    h: 0,
                    f: 0,
                    factors: &[],
                    bounds: &[],
                    values: &[],
                };
                same(lent::check(&[], &[], &table, 0, &mut []), 2)?;
                same(lent::check(b"Z", &[], &table, 0, &mut []), 9)
            },
        },
        Case {
            name: "an answer too short is 13, after all else, and writes nothing",
            needs: &["check"],
            run: || {
                let numbers = bare(0, 0);
                let table = numbers.table();
                let mut answer = [77];
                same(lent::check(b"Z", &[], &table, 0, &mut answer), 13)?;
                same(lent::check(b"N", &[], &table, 0, &mut answer), 5)?;
                same(lent::check(b"L,1,Z", &[], &table, 0, &mut answer), 10)?;
                same(answer, [77])
            },
        },
        Case {
            name: "a long answer keeps its other numbers",
            needs: &["payment"],
            run: || {
                let numbers = bare(0, 0);
                let table = numbers.table();
                let mut answer = [77, 78];
                let status = lent::payment(b"T,2,1", &[], &table, 0, 1, 2, 0, &mut answer);
                same((status, answer), (0, [-1, 78]))
            },
        },
        Case {
            name: "cut: exact size, one byte short, longer",
            needs: &["cut"],
            run: || {
                let payoff = b"F,0,1,2";
                let (mut out, mut answer) = (*b"-------*", [77]);
                same(lent::cut(payoff, &mut out[..6], &mut answer), 13)?;
                same(lent::cut(payoff, &mut out[..7], &mut []), 13)?;
                same((&out, answer), (b"-------*", [77]))?;
                same(lent::cut(payoff, &mut out[..7], &mut answer), 0)?;
                same((&out, answer), (b"H,0,1,2*", [7]))?;
                same(lent::cut(b"Z", &mut out, &mut answer), 0)?;
                same((&out, answer), (b"Z,0,1,2*", [1]))
            },
        },
        Case {
            name: "step: exact size, one byte short",
            needs: &["step"],
            run: || {
                let numbers = bare(0, 2);
                let table = numbers.table();
                let (mut out, mut answer) = (*b"-----*", [77, 78, 79]);
                let lend = |out: &mut [u8], answer: &mut [i64]| {
                    lent::step(b"L,2,Z", &[], &table, 0, 1, 2, out, answer)
                };
                same(lend(&mut out[..4], &mut answer), 13)?;
                same(lend(&mut out[..5], &mut answer[..1]), 13)?;
                same((&out, answer), (b"-----*", [77, 78, 79]))?;
                same(lend(&mut out[..5], &mut answer), 0)?;
                same((&out, answer), (b"L,1,Z*", [0, 5, 79]))
            },
        },
        Case {
            name: "step: a root that waits has one month less, to the byte",
            needs: &["step"],
            run: || {
                let numbers = bare(0, 600);
                let table = numbers.table();
                for d in [500, 100, 99, 10, 1] {
                    for (today, days, tomorrow) in [
                        (format!("L,{d},S,N,-5,T,1,2"), vec![], "S,N,-5,T,1,2"),
                        (format!("L,{d},L,P0,T,1,2"), vec![37], "L,37,T,1,2"),
                        (format!("L,{d},Z"), vec![1, 2], "Z"),
                        (
                            format!("W,{d},E,N,1,N,2,T,1,2,Z"),
                            vec![],
                            "E,N,1,N,2,T,1,2,Z",
                        ),
                    ] {
                        let next = format!("{},{},{tomorrow}", &today[..1], d - 1);
                        let told = (0, next.clone());
                        same_for(&today, step(&today, &days, &numbers, 0), Ok(told))?;
                        let (n, mut out, mut answer) = (next.len(), [b'-'; 64], [77, 78]);
                        let lend = |out: &mut [u8], answer: &mut [i64]| {
                            lent::step(today.as_bytes(), &days, &table, 0, 1, 2, out, answer)
                        };
                        same_for(&today, lend(&mut out[..n - 1], &mut answer), 13)?;
                        same_for(&today, (out, answer), ([b'-'; 64], [77, 78]))?;
                        same_for(&today, lend(&mut out[..n], &mut answer), 0)?;
                        same_for(
                            &today,
                            (&out[..n], answer),
                            (next.as_bytes(), [0, n as i64]),
                        )?;
                        same_for(&today, out[n], b'-')?;
                    }
                }
                Ok(())
            },
        },
        Case {
            name: "sheet: a refused sheet is written, or 13",
            needs: &["sheet"],
            run: || {
                let (mut out, mut answer) = (*b"----------*", [77]);
                same(lent::sheet(b"", &mut out[..9], &mut answer), 13)?;
                same((&out, answer), (b"----------*", [77]))?;
                same(lent::sheet(b"", &mut out[..10], &mut answer), 0)?;
                same((&out, answer), (b"refused,2\n*", [10]))
            },
        },
        Case {
            name: "a sheet of few bytes with many numbers, and of many bytes",
            needs: &["sheet"],
            run: || {
                // the last value of the last label is paid in the last month
                for (f, labels) in [(2, 1), (70, 1), (40, 4), (448, 3), (600, 7), (600, 8)] {
                    let last = labels - 1;
                    let index = |label| {
                        let paid = if label == last { 7 } else { 0 };
                        format!("index,{label},9{},{paid}\n", ",0".repeat(f))
                    };
                    let input = format!(
                        "plan,L,{f},S,O,{last},0,T,1,2\ndays\nspan,0,{f}\nfactors{}\npair,1,2\n{}",
                        ",1".repeat(f + 1),
                        (0..labels).map(index).collect::<String>()
                    );
                    let waiting: String = (0..f).map(|month| format!("{month},0,7\n")).collect();
                    let printed = format!("accepted,{f},9\n{waiting}{f},7,7\n");
                    same_for(&format!("{f}, {labels}"), sheet(&input), Ok(printed))?;
                }
                Ok(())
            },
        },
        Case {
            name: "as many nodes as so many bytes can have, in tables of every length",
            needs: &["check", "payment", "step", "compile", "evaluate", "sheet"],
            run: || {
                let numbers = bare(0, 0);
                for leaves in 1..=256 {
                    let plan = plans(leaves, "T,1,2");
                    let payoff = plans(leaves, "F,0,1,2");
                    let input = format!("plan,{plan}\ndays\nspan,0,0\nfactors,1000000\npair,1,2\n");
                    let printed = "accepted,0,1\n0,1,1000000\n";
                    let told = format!("{leaves} leaves");
                    same_for(&told, check(&plan, &[], &numbers, 0), Ok((0, 1)))?;
                    same_for(&told, payment(&plan, &[], &numbers, 0, 0), Ok(1))?;
                    let next = (1, plans(leaves, "Z"));
                    same_for(&told, step(&plan, &[], &numbers, 0), Ok(next))?;
                    same_for(&told, compile(&plan), Ok(payoff.clone()))?;
                    same_for(&told, evaluate(&payoff, &[], &numbers, 0), Ok(1_000_000))?;
                    same_for(&told, sheet(&input), Ok(printed.into()))?;
                }
                Ok(())
            },
        },
    ]
}

/// So many plans at once, all nothing but the last.
fn plans(leaves: usize, last: &str) -> String {
    match leaves {
        1 => last.into(),
        _ => {
            let (left, right) = (leaves / 2, leaves - leaves / 2);
            format!("B,{},{}", plans(left, "Z"), plans(right, last))
        }
    }
}
