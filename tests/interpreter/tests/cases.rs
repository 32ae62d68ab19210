//! Document 01's cases, starred and not.

mod common;
use common::*;

#[test]
fn the_sheet() {
    let printed = "accepted,2,5300\n0,0,4920600000\n1,5000,4920600000\n2,-30,-29400000\n";
    assert_eq!(sheet(SHEET), printed);
}

#[test]
fn its_plan_after_one_step_and_after_three() {
    let table = sheet_table();
    let (pence, one) = step(SHEET_PLAN, &[2], &table, 0).unwrap();
    assert_eq!(pence, 0);
    assert_eq!(
        one,
        "B,L,0,S,N,5000,T,1,2,W,1,G,N,100,O,0,0,S,U,O,0,0,N,100,T,2,1,Z"
    );
    let (pence, two) = step(&one, &[2], &table, 1).unwrap();
    assert_eq!(pence, 5000);
    let (pence, three) = step(&two, &[2], &table, 2).unwrap();
    assert_eq!(pence, -30);
    assert_eq!(three, "B,S,N,5000,Z,S,U,N,130,N,100,Z");
}

#[test]
fn its_payoff() {
    assert_eq!(
        compile(SHEET_PLAN).unwrap(),
        "B,S,N,5000,F,1,1,2,W,P0,G,N,100,O,0,0,S,U,O,0,0,N,100,F,0,2,1,Z"
    );
}

#[test]
fn known_in_time() {
    let table = indexed(0, 3, &[]);
    assert_eq!(check("S,O,0,3,L,3,T,1,2", &[], &table, 0), Ok((3, 1000)));
    assert_eq!(check("S,O,0,3,L,2,T,1,2", &[], &table, 0), Err(7));
}

#[test]
fn magnitude() {
    let table = bare(0, 0);
    let plan = "S,N,9000000000000,T,1,2";
    assert_eq!(check(plan, &[], &table, 0), Ok((0, 9_000_000_000_000)));
    let both = format!("B,{plan},T,1,2");
    assert_eq!(check(&both, &[], &table, 0), Err(6));
}

#[test]
fn length_and_reads() {
    assert_eq!(check("L,600,Z", &[], &bare(0, 600), 0), Ok((600, 0)));
    assert_eq!(check("L,600,Z", &[], &bare(0, 599), 0), Err(10));
    let table = indexed(0, 499, &[]);
    assert_eq!(check("S,O,0,500,Z", &[], &table, 0), Err(11));
}

#[test]
fn depth() {
    let table = bare(0, 0);
    let nested = |times| format!("{}Z", "L,0,".repeat(times));
    assert_eq!(check(&nested(31), &[], &table, 0), Ok((0, 0)));
    assert_eq!(check(&nested(32), &[], &table, 0), Err(4));
}

#[test]
fn form() {
    let table = bare(0, 7);
    assert_eq!(check("", &[], &table, 0), Err(2));
    assert_eq!(check("N,5", &[], &table, 0), Err(5));
    assert_eq!(check("L,07,Z", &[], &table, 0), Err(2));
}
