//! What the run is made of: single calls of each kind, payoffs from plan to value, and rolls.

use crate::calls::{Call, Calls, Kind};
use crate::generate::plans::{pair, plan};
use crate::generate::scenes::Scene;
use crate::generate::{damage, edges, payoffs, sheets, Budget};
use crate::harness::{Fault, Harness};
use crate::random::Random;
use crate::roll::{Event, Lend, Roll};
use interpreter::amounts::World;
use interpreter::calls::Room;
use interpreter::payoffs::compiled;
use interpreter::read::{PAYOFF_BYTES, PLAN_BYTES};
use interpreter::sheet::SHEET_BYTES;
use interpreter::traces::contract;
use interpreter::{print, Plan};

/// One scenario of the run; which one, the random numbers say.
pub fn run<C: Calls>(random: &mut Random, harness: &mut Harness<C>) -> Result<(), Fault> {
    type Play<C> = fn(&mut Random, &mut Harness<C>) -> Result<(), Fault>;
    let all: [(usize, &[Kind], Play<C>); 9] = [
        (18, &[Kind::Check], |r, h| on_plan(r, h, Kind::Check)),
        (18, &[Kind::Payment], |r, h| on_plan(r, h, Kind::Payment)),
        (22, &[Kind::Step], |r, h| on_plan(r, h, Kind::Step)),
        (10, &[Kind::Compile], |r, h| on_plan(r, h, Kind::Compile)),
        (18, &[Kind::Cut], |r, h| on_payoff(r, h, Kind::Cut)),
        (30, &[Kind::Evaluate], |r, h| {
            on_payoff(r, h, Kind::Evaluate)
        }),
        (26, &[Kind::Sheet], on_sheet),
        (10, &[Kind::Compile, Kind::Cut, Kind::Evaluate], valuation),
        (2, &Kind::ALL, roll),
    ];
    let open: Vec<(usize, Play<C>)> = all
        .into_iter()
        .filter(|(_, kinds, _)| kinds.iter().any(|kind| harness.compares(*kind)))
        .map(|(weight, _, play)| (weight, play))
        .collect();
    random.weighted(&open)(random, harness)
}

/// A call on a plan, sound or damaged in any part.
fn on_plan<C: Calls>(
    random: &mut Random,
    harness: &mut Harness<C>,
    kind: Kind,
) -> Result<(), Fault> {
    let scene = Scene::random(random);
    let budget = Budget::random(random);
    if random.chance(3) {
        let text = edges::corner(random);
        let mut call = call_in(random, &scene, kind, text);
        lend(random, &mut call);
        return harness.compare(&call).map(|_| ());
    }
    let tree = match random.below(100) {
        0..=4 => edges::plan(random),
        5..=8 => edges::timing(random, &scene),
        9..=11 => edges::delays(random, &scene),
        _ => plan(random, &scene, budget),
    };
    let mut call = call_in(random, &scene, kind, print::plan(&tree));
    if kind.takes_table() && random.chance(6) {
        // Another today than the plan was made for: its months may end or begin too far off.
        call.today = random.range(0, scene.table.f);
    }
    if kind == Kind::Payment {
        call.month = month_to_ask(random, &call, &tree);
    }
    spoil(random, &mut call, PLAN_BYTES);
    lend(random, &mut call);
    harness.compare(&call).map(|_| ())
}

/// A month from today to f, rather one in which the plan pays.
fn month_to_ask(random: &mut Random, call: &Call, tree: &Plan) -> i64 {
    let check = Call {
        kind: Kind::Check,
        answer: 2,
        ..call.clone()
    };
    if check.foretold().is_ok() && random.chance(70) {
        let world = World {
            table: &call.table,
            days: &call.days,
            month: call.today,
        };
        let trace = contract(tree, world, (call.p, call.q));
        let paying: Vec<i64> = (call.today..=call.table.f)
            .filter(|month| trace.at(month - call.today) != 0)
            .collect();
        if !paying.is_empty() {
            return *random.pick(&paying);
        }
    }
    random.range(call.today, call.table.f)
}

/// A call on a payoff as if written by hand, sound or damaged in any part.
fn on_payoff<C: Calls>(
    random: &mut Random,
    harness: &mut Harness<C>,
    kind: Kind,
) -> Result<(), Fault> {
    let mut scene = Scene::random(random);
    scene.bold = random.chance(35);
    let budget = Budget::random(random);
    let tree = if random.chance(8) {
        scene.table.factors[0] = 1_000_000 - random.range(0, 1);
        compiled(&edges::plan(random))
    } else {
        payoffs::payoff(random, &scene, budget)
    };
    let text = match random.chance(3) {
        true => edges::corner(random),
        false => print::payoff(&tree),
    };
    let mut call = call_in(random, &scene, kind, text);
    spoil(random, &mut call, PAYOFF_BYTES);
    lend(random, &mut call);
    harness.compare(&call).map(|_| ())
}

fn call_in(random: &mut Random, scene: &Scene, kind: Kind, text: Vec<u8>) -> Call {
    let (p, q) = pair(random);
    let mut call = Call {
        p,
        q,
        ..Call::of_text(kind, text)
    };
    if kind.takes_table() {
        call.days = scene.days.clone();
        call.table = scene.table.clone();
        call.today = scene.today;
    }
    call
}

/// Sometimes damages one part of a call or more.
fn spoil(random: &mut Random, call: &mut Call, limit: usize) {
    // Sometimes much is wrong at once, so that the order of refusals shows.
    let percent = if random.chance(6) { 40 } else { 4 };
    if random.chance(14 + percent) {
        damage::text(random, &mut call.text);
    }
    if random.below(1000) < 12 {
        damage::length(random, &mut call.text, limit);
    }
    let spoilt = |random: &mut Random, takes: bool| takes && random.chance(percent);
    if spoilt(random, call.kind.takes_table()) {
        damage::table(random, &mut call.table);
    }
    if spoilt(random, call.kind.takes_table()) {
        damage::days(random, &mut call.days);
    }
    if spoilt(random, call.kind.takes_table()) {
        call.today = damage::month(random, call.table.f);
    }
    if spoilt(random, call.kind.takes_pair()) {
        let party = damage::party(random);
        if random.chance(50) {
            call.p = party;
        } else {
            call.q = party;
        }
    }
    if spoilt(random, call.kind == Kind::Payment) {
        call.month = match random.below(3) {
            0 => call.today.saturating_sub(1),
            _ => damage::month(random, call.table.f),
        };
    }
}

/// Lends buffers: the exact size, one short, long, empty.
fn lend(random: &mut Random, call: &mut Call) {
    let needed = call.kind.numbers();
    call.answer = match random.below(20) {
        0 => needed - 1,
        1 => 0,
        2 | 3 => needed + random.below(4),
        _ => needed,
    };
    if !call.kind.writes() {
        return;
    }
    let enough = Room {
        out: usize::MAX,
        answer: usize::MAX,
    };
    let bytes = match call.foretold_with(enough) {
        Ok(answer) => answer.bytes.len(),
        Err(_) => random.below(40),
    };
    call.out = match random.below(20) {
        0 | 1 => bytes.saturating_sub(1),
        2 => 0,
        3 => random.below(bytes + 1),
        4..=9 => bytes + 1 + random.below(40),
        _ => bytes,
    };
}

/// From a plan to its payoff, cut and uncut, and to its values in a few months.
fn valuation<C: Calls>(random: &mut Random, harness: &mut Harness<C>) -> Result<(), Fault> {
    let scene = Scene {
        wild: random.weighted(&[(9, 0), (1, 3)]),
        ..Scene::tame(random)
    };
    let budget = Budget::random(random);
    let text = print::plan(&plan(random, &scene, budget));
    let Ok(payoff) = harness.compare(&Call::of_text(Kind::Compile, text))? else {
        return Ok(());
    };
    let cut = harness.compare(&Call::of_text(Kind::Cut, payoff.bytes.clone()))?;
    let cut = cut.expect("a compiled payoff can be cut");
    for _ in 0..4 {
        let text = random.pick(&[&cut.bytes, &payoff.bytes]).to_vec();
        let mut call = call_in(random, &scene, Kind::Evaluate, text);
        call.today = random.range(0, scene.table.f);
        harness.compare(&call)?.ok();
    }
    Ok(())
}

/// A sheet, sound or damaged in any part.
fn on_sheet<C: Calls>(random: &mut Random, harness: &mut Harness<C>) -> Result<(), Fault> {
    let mut scene = Scene::random(random);
    scene.today = 0;
    let budget = Budget::random(random);
    let mut text = print::plan(&plan(random, &scene, budget));
    let mut asked = pair(random);
    let percent = if random.chance(8) { 40 } else { 4 };
    if random.chance(8 + percent) {
        damage::text(random, &mut text);
    }
    if random.chance(1) {
        text = edges::corner(random);
    }
    if random.chance(1) {
        damage::length(random, &mut text, PLAN_BYTES);
    }
    if random.chance(percent) {
        damage::table(random, &mut scene.table);
    }
    if random.chance(percent) {
        damage::days(random, &mut scene.days);
    }
    if random.chance(percent) {
        asked.0 = damage::party(random);
    }
    let lines = sheets::lines(&text, &scene.days, &scene.table, asked);
    let mut sheet = if random.chance(25) {
        sheets::damaged(random, lines)
    } else {
        sheets::text(&lines)
    };
    if random.chance(1) {
        damage::length(random, &mut sheet, SHEET_BYTES);
    }
    let mut call = Call::of_text(Kind::Sheet, sheet);
    lend(random, &mut call);
    harness.compare(&call).map(|_| ())
}

/// A list of month steps with refused calls in between.
pub fn roll<C: Calls>(random: &mut Random, harness: &mut Harness<C>) -> Result<(), Fault> {
    let scene = Scene::tame(random);
    let budget = Budget::random(random);
    let text = print::plan(&plan(random, &scene, budget));
    let mut first = call_in(random, &scene, Kind::Step, text);
    first.today = 0;
    // Most lists end before a long table does; some go all the way.
    let most = if random.chance(10) { 600 } else { 24 };
    let months = scene.table.f.min(most) as usize + 2;
    let mut events = vec![];
    for _ in 0..months {
        while random.chance(15) {
            events.push(refused_event(random));
        }
        let (p, q) = pair(random);
        let lend = *random.pick(&[Lend::Exact, Lend::Exact, Lend::Long]);
        events.push(Event { p, q, lend });
    }
    Roll { first, events }.run(harness)
}

/// A bad pair or a short buffer, or both.
fn refused_event(random: &mut Random) -> Event {
    let (p, q) = pair(random);
    let short = *random.pick(&[
        Lend::OneShort,
        Lend::Empty,
        Lend::NoAnswer,
        Lend::ShortAnswer,
    ]);
    match random.below(3) {
        0 => Event {
            p: damage::party(random),
            q,
            lend: Lend::Exact,
        },
        1 => Event { p, q, lend: short },
        _ => Event {
            p,
            q: damage::party(random),
            lend: short,
        },
    }
}
