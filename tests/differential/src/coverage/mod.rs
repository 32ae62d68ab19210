//! What the random inputs reached, counted.

mod walk;

use crate::calls::{Call, Kind};
use crate::tree::{Node, Place, Text};
use interpreter::amounts::World;
use interpreter::calls::{Answer, Room};
use interpreter::payoffs::Valuation;
use interpreter::{read, sheet, Refusal};
use std::collections::BTreeMap;

/// Counts by what was reached.
#[derive(Clone, Debug, Default)]
pub struct Coverage {
    counts: BTreeMap<String, u64>,
}

const PLAN_LETTERS: &str = "ZTSLBWNOAUKQIGEYVR";
const PAYOFF_LETTERS: &str = "ZSBWFHNOAUKQIGEYVR";

impl Coverage {
    /// Counts one thing.
    pub fn count(&mut self, what: &str) {
        *self.counts.entry(what.to_string()).or_insert(0) += 1;
    }

    /// Counts all that one call reached.
    pub fn record(&mut self, call: &Call, told: &Result<Answer, Refusal>) {
        let name = call.kind.name();
        match told {
            Ok(answer) => {
                self.count(&format!("{name}: accepted"));
                self.record_accepted(call, answer);
            }
            Err(refusal) => {
                self.count(&format!("{name}: refused {}", refusal.number()));
                self.count(&format!("cause: {refusal:?}"));
                self.record_corner(call, *refusal);
            }
        }
        self.record_room(call);
    }

    /// What stands in the place of the 513th node, or at depth 33, or both.
    fn record_corner(&mut self, call: &Call, refusal: Refusal) {
        if call.kind == Kind::Sheet || !(2..=5).contains(&refusal.number()) {
            return;
        }
        let letters = if call.kind.reads_payoff() {
            PAYOFF_LETTERS
        } else {
            PLAN_LETTERS
        };
        let known = |letter: &[u8]| letter.len() == 1 && letters.as_bytes().contains(&letter[0]);
        let tree = Text::read(&call.text).tree;
        let (nodes, depth) = refused_at(&tree, &|node, nodes, depth| match refusal {
            Refusal::UnknownLetter => !known(&node.letter),
            Refusal::WrongKind => node.place != place_of(&node.letter),
            Refusal::TooManyNodes => nodes > read::NODES,
            Refusal::TooDeep => depth > read::DEPTH,
            _ => false,
        });
        let place = match (nodes == read::NODES + 1, depth == read::DEPTH + 1) {
            (true, true) => "as 513th node at depth 33",
            (true, false) => "as 513th node",
            (false, true) => "at depth 33",
            (false, false) => return,
        };
        self.count(&format!("corner: refused {} {place}", refusal.number()));
    }

    /// The sizes of the lent buffers, where these alone decide.
    fn record_room(&mut self, call: &Call) {
        let enough = Room {
            out: usize::MAX,
            answer: usize::MAX,
        };
        let Ok(answer) = call.foretold_with(enough) else {
            return;
        };
        let name = call.kind.name();
        let sizes = |lent: usize, needed: usize| match lent {
            0 if needed > 1 => "empty",
            lent if lent == needed => "exact",
            lent if lent + 1 == needed => "one short",
            lent if lent < needed => "short",
            _ => "long",
        };
        if call.kind.writes() {
            let size = sizes(call.out, answer.bytes.len());
            self.count(&format!("{name}: out {size}"));
        }
        let size = sizes(call.answer, answer.numbers.len());
        self.count(&format!("{name}: answer {size}"));
    }

    fn record_accepted(&mut self, call: &Call, answer: &Answer) {
        let name = call.kind.name();
        let text = match call.kind {
            Kind::Sheet => match sheet::lines(&call.text) {
                Err(refusal) => {
                    self.count(&format!("{name}: prints refused,{}", refusal.number()));
                    self.count(&format!("cause: {refusal:?}"));
                    return;
                }
                Ok(_) => {
                    self.count(&format!("{name}: prints accepted"));
                    sheet::read_sheet(&call.text).expect("accepted").plan
                }
            },
            _ => call.text.clone(),
        };
        let tree = Text::read(&text).tree;
        for letter in letters(&tree) {
            self.count(&format!("{name}: letter {letter}"));
        }
        if tree.nodes() == read::NODES {
            self.count(&format!("{name}: 512 nodes"));
        }
        if depth(&tree) == read::DEPTH {
            self.count(&format!("{name}: depth 32"));
        }
        self.record_sizes(call, answer);
        self.record_walk(call);
    }

    /// Answers far from zero, on both sides.
    fn record_sizes(&mut self, call: &Call, answer: &Answer) {
        let name = call.kind.name();
        let limit = match call.kind {
            Kind::Payment | Kind::Step => interpreter::AMOUNT_LIMIT,
            Kind::Evaluate => interpreter::VALUE_LIMIT as i64,
            _ => return,
        };
        let number = answer.numbers[0];
        let size = match number {
            0 => "answers 0",
            n if n == limit || n == -limit => "answers the limit",
            n if n < 0 => "answers below 0",
            _ => "answers above 0",
        };
        self.count(&format!("{name}: {size}"));
    }

    /// Waits, tests and quotients met on the way.
    fn record_walk(&mut self, call: &Call) {
        let name = call.kind.name();
        let mut met = |what: &str| self.count(&format!("{name}: {what}"));
        let world = |today| World {
            table: &call.table,
            days: &call.days,
            month: today,
        };
        match call.kind {
            Kind::Payment => {
                let plan = read::plan(&call.text).expect("accepted");
                walk::plan(&plan, world(call.today), &mut met);
            }
            Kind::Step => {
                let plan = read::plan(&call.text).expect("accepted");
                walk::step(&plan, world(call.today), &mut met);
            }
            Kind::Sheet => {
                let sheet = sheet::read_sheet(&call.text).expect("accepted");
                let plan = read::plan(&sheet.plan).expect("accepted");
                let world = World {
                    table: &sheet.table,
                    days: &sheet.days,
                    month: 0,
                };
                walk::plan(&plan, world, &mut met);
            }
            Kind::Evaluate => {
                let payoff = read::payoff(&call.text).expect("accepted");
                let valuation = Valuation {
                    table: &call.table,
                    days: &call.days,
                    now: call.today,
                    pair: (call.p, call.q),
                    waited: 0,
                };
                walk::payoff(&payoff, valuation, &mut met);
            }
            Kind::Check | Kind::Compile | Kind::Cut => {}
        }
    }

    /// What a run has to reach.
    pub fn required(kinds: &[Kind]) -> Vec<String> {
        let mut all = vec![];
        for kind in kinds {
            let name = kind.name();
            let mut put = |what: String| all.push(format!("{name}: {what}"));
            put("accepted".into());
            for refusal in refusals(*kind) {
                put(format!("refused {refusal}"));
            }
            let letters = if kind.reads_payoff() {
                PAYOFF_LETTERS
            } else {
                PLAN_LETTERS
            };
            for letter in letters.chars() {
                put(format!("letter {letter}"));
            }
            put("512 nodes".into());
            put("depth 32".into());
            for size in ["exact", "one short", "long"] {
                put(format!("answer {size}"));
                if kind.writes() {
                    put(format!("out {size}"));
                }
            }
            if kind.writes() {
                put("out empty".into());
            }
            if *kind == Kind::Sheet {
                put("prints accepted".into());
                for refusal in 1..=12 {
                    put(format!("prints refused,{refusal}"));
                }
            }
            if matches!(kind, Kind::Payment | Kind::Step | Kind::Evaluate) {
                for size in ["0", "below 0", "above 0", "the limit"] {
                    put(format!("answers {size}"));
                }
            }
            for what in walk::required(*kind) {
                put(what.to_string());
            }
        }
        if kinds == Kind::ALL {
            for refusal in Refusal::ALL {
                all.push(format!("cause: {refusal:?}"));
            }
        }
        if kinds == Kind::ALL {
            for place in ["as 513th node at depth 33", "as 513th node", "at depth 33"] {
                for refusal in [2, 3, 4, 5] {
                    // Depth 33 is no fault of the 513th node elsewhere, and the other way round.
                    let other = match place {
                        "as 513th node at depth 33" | "as 513th node" => 4,
                        _ => 3,
                    };
                    if refusal != other {
                        all.push(format!("corner: refused {refusal} {place}"));
                    }
                }
            }
        }
        if kinds.contains(&Kind::Step) {
            for what in ["a month", "up to month f", "refused 12", "refused 13"] {
                all.push(format!("roll: {what}"));
            }
        }
        all
    }

    /// What a run had to reach and did not.
    pub fn missing(&self, kinds: &[Kind]) -> Vec<String> {
        Coverage::required(kinds)
            .into_iter()
            .filter(|what| !self.counts.contains_key(what))
            .collect()
    }

    /// The table, one line for each thing, also for those not reached.
    pub fn table(&self, kinds: &[Kind]) -> String {
        let mut counts = self.counts.clone();
        for what in self.missing(kinds) {
            counts.insert(what, 0);
        }
        counts
            .iter()
            .map(|(what, count)| format!("{count:>10}  {what}\n"))
            .collect()
    }
}

/// The refusals that a call can give.
fn refusals(kind: Kind) -> Vec<u8> {
    match kind {
        Kind::Check | Kind::Payment | Kind::Step => (1..=13).collect(),
        Kind::Compile | Kind::Cut => vec![1, 2, 3, 4, 5, 13],
        Kind::Evaluate => vec![1, 2, 3, 4, 5, 8, 9, 11, 12, 13, 14],
        Kind::Sheet => vec![13],
    }
}

/// How many nodes and levels the reader has seen at the first faulty node.
fn refused_at(tree: &Node, faulty: &dyn Fn(&Node, usize, usize) -> bool) -> (usize, usize) {
    fn walk(
        node: &Node,
        depth: usize,
        nodes: &mut usize,
        faulty: &dyn Fn(&Node, usize, usize) -> bool,
    ) -> Option<usize> {
        *nodes += 1;
        if faulty(node, *nodes, depth) {
            return Some(depth);
        }
        let mut children = node.children.iter();
        children.find_map(|child| walk(child, depth + 1, nodes, faulty))
    }
    let mut nodes = 0;
    match walk(tree, 1, &mut nodes, faulty) {
        Some(depth) => (nodes, depth),
        None => (0, 0),
    }
}

/// The place that a letter belongs to.
fn place_of(letter: &[u8]) -> Place {
    match letter {
        b"N" | b"O" | b"A" | b"U" | b"K" | b"Q" | b"I" => Place::Amount,
        b"G" | b"E" | b"Y" | b"V" | b"R" => Place::Test,
        _ => Place::Tree,
    }
}

fn letters(tree: &Node) -> std::collections::BTreeSet<char> {
    let mut all = std::collections::BTreeSet::from([char::from(tree.letter[0])]);
    for child in &tree.children {
        all.extend(letters(child));
    }
    all
}

fn depth(tree: &Node) -> usize {
    1 + tree.children.iter().map(depth).max().unwrap_or(0)
}
