//! What the generators make is what they say.

use differential::generate::scenes::Scene;
use differential::generate::{payoffs, plans, sheets, Budget};
use differential::random::Random;
use interpreter::calls::{self, Given, Room};
use interpreter::sheet::read_sheet;
use interpreter::{print, read, Refusal};

const ENOUGH: Room = Room {
    out: usize::MAX,
    answer: usize::MAX,
};

/// Reading is the inverse of printing.
#[test]
fn texts_are_read_back() {
    for index in 0..3_000 {
        let random = &mut Random::of(1, index);
        let scene = Scene::random(random);
        let budget = Budget::random(random);
        let plan = plans::plan(random, &scene, budget);
        match read::plan(&print::plan(&plan)) {
            Ok(again) => assert_eq!(again, plan),
            Err(refusal) => assert!(matches!(refusal, Refusal::TooManyNodes | Refusal::TooDeep)),
        }
        let payoff = payoffs::payoff(random, &scene, budget);
        match read::payoff(&print::payoff(&payoff)) {
            Ok(again) => assert_eq!(again, payoff),
            Err(refusal) => assert!(matches!(refusal, Refusal::TooManyNodes | Refusal::TooDeep)),
        }
        let lines = sheets::lines(b"Z", &scene.days, &scene.table, (1, 2));
        if let Ok(sheet) = read_sheet(&sheets::text(&lines)) {
            assert_eq!((sheet.days, sheet.table), (scene.days, scene.table));
        }
    }
}

/// A tame scene's plans are accepted, unless they are too large.
#[test]
fn tame_plans_are_accepted() {
    for index in 0..3_000 {
        let random = &mut Random::of(2, index);
        let scene = Scene::tame(random);
        let budget = Budget::random(random);
        let text = print::plan(&plans::plan(random, &scene, budget));
        let given = Given {
            text: &text,
            days: &scene.days,
            table: &scene.table,
            today: 0,
        };
        let told = calls::check(given, ENOUGH).map_err(Refusal::number);
        assert!(
            matches!(told, Ok(_) | Err(3 | 4)),
            "{told:?} for {}",
            String::from_utf8_lossy(&text)
        );
    }
}
