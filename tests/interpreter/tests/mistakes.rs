//! Document 01's "Mistakes near at hand", each told apart from what is right.

mod common;
use common::*;

/// "moving the offsets in a waiting `W` as in an `S`"
#[test]
fn offsets_in_a_waiting_w_stay() {
    let table = indexed(1, 3, &[0, 0, 0, 9, 9]);
    let plan = "W,2,G,N,5,O,0,-1,S,O,0,0,T,1,2,Z";
    let (_, next) = step(plan, &[], &table, 0).unwrap();
    assert_eq!(next, "W,1,G,N,5,O,0,-1,S,O,0,0,T,1,2,Z");
}

/// "a test that holds in the last month taken for a miss"
#[test]
fn a_hit_in_the_last_month_is_a_hit() {
    let table = indexed(0, 2, &[0, 0, 9]);
    let plan = "W,2,G,N,5,O,0,0,T,1,2,T,2,1";
    assert_eq!(payment(plan, &[], &table, 0, (1, 2), 2), Ok(1));
    let payoff = compile(plan).unwrap();
    assert_eq!(evaluate(&payoff, &[], &table, 0), Ok(1_000_000));
    let one = step(plan, &[], &table, 0).unwrap().1;
    let two = step(&one, &[], &table, 1).unwrap().1;
    assert_eq!(step(&two, &[], &table, 2), Ok((1, "Z".into())));
}

/// "cutting the payments of month now"
#[test]
fn payments_of_month_now_count() {
    let table = bare(0, 2);
    let payoff = "B,H,0,1,2,B,H,1,1,2,H,2,1,2";
    assert_eq!(evaluate(payoff, &[], &table, 0), Ok(3_000_000));
    assert_eq!(evaluate(payoff, &[], &table, 1), Ok(2_000_000));
    assert_eq!(evaluate(payoff, &[], &table, 2), Ok(1_000_000));
    assert_eq!(evaluate("F,0,1,2", &[], &table, 2), Ok(1_000_000));
}

/// "one more month of waiting at `W` with d = 0"
#[test]
fn no_waiting_with_d_0() {
    let table = indexed(0, 1, &[0, 9]);
    let plan = "W,0,G,N,5,O,0,0,T,1,2,T,2,1";
    assert_eq!(payment(plan, &[], &table, 0, (1, 2), 0), Ok(-1));
    assert_eq!(payment(plan, &[], &table, 0, (1, 2), 1), Ok(0));
    assert_eq!(step(plan, &[], &table, 0), Ok((-1, "Z".into())));
    assert_eq!(
        evaluate(&compile(plan).unwrap(), &[], &table, 0),
        Ok(-1_000_000)
    );
}

/// "replacing an `O` at offset 1 a month early"
#[test]
fn an_index_at_offset_1_is_replaced_a_month_later() {
    let table = indexed(1, 2, &[1, 2, 3, 4]);
    let plan = "S,A,O,0,1,A,O,0,0,O,0,-1,L,1,T,1,2";
    let (_, one) = step(plan, &[], &table, 0).unwrap();
    assert_eq!(one, "S,A,O,0,0,A,N,2,N,1,L,0,T,1,2");
    let (pence, two) = step(&one, &[], &table, 1).unwrap();
    assert_eq!((pence, two.as_str()), (6, "S,A,N,3,A,N,2,N,1,Z"));
}

/// "-1 by 3 is -1"
#[test]
fn quotients_round_down() {
    let table = bare(0, 0);
    for (n, by, is) in [
        (-1, 3, -1),
        (-3, 3, -1),
        (-4, 3, -2),
        (1, 3, 0),
        (4, 3, 1),
        (0, 3, 0),
        (-9_000_000_000_000i64, 9_000_000_000_000i64, -1),
    ] {
        let plan = format!("S,Q,{by},N,{n},T,1,2");
        assert_eq!(payment(&plan, &[], &table, 0, (1, 2), 0), Ok(is));
        let payoff = compile(&plan).unwrap();
        assert_eq!(evaluate(&payoff, &[], &table, 0), Ok(is * 1_000_000));
    }
}

/// "With p = q it pays nothing"; "always 0 for a pair of one party twice".
#[test]
fn pairs() {
    let table = bare(0, 0);
    let pays = |plan, pair| payment(plan, &[], &table, 0, pair, 0);
    assert_eq!(pays("T,1,2", (1, 2)), Ok(1));
    assert_eq!(pays("T,1,2", (2, 1)), Ok(-1));
    assert_eq!(pays("T,1,2", (1, 3)), Ok(0));
    assert_eq!(pays("T,1,1", (1, 1)), Ok(0));
    assert_eq!(pays("T,1,1", (1, 2)), Ok(0));
    assert_eq!(pays("T,1,2", (0, 2)), Err(12));
    assert_eq!(pays("T,1,2", (1, 10)), Err(12));
}

/// The root stands in month today, and amounts are worked out for their own node's month.
#[test]
fn months_count_from_today() {
    let table = indexed(0, 3, &[10, 20, 30, 40]);
    let plan = "L,1,S,O,0,0,L,1,S,O,0,-1,T,1,2";
    assert_eq!(payment(plan, &[], &table, 0, (1, 2), 2), Ok(20 * 20));
    assert_eq!(payment(plan, &[], &table, 1, (1, 2), 3), Ok(30 * 30));
    assert_eq!(payment(plan, &[], &table, 1, (1, 2), 0), Err(12));
    assert_eq!(payment(plan, &[], &table, 1, (1, 2), 4), Err(12));
    assert_eq!(payment(plan, &[], &table, 2, (1, 2), 3), Err(10));
}
