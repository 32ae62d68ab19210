//! In which months each wait of an accepted plan is tried, and how it ends. The engine rolls the plan
//! forward month by month; what has become of a `W` in the plan for tomorrow tells.

use crate::plan::{self, Node};
use crate::sheet::Sheet;

pub struct Wait {
    /// The byte of the plan where the `W` stands, counted from 1.
    pub byte: usize,
    /// The first and the last month tried; none where the plan never comes to it.
    pub tried: Option<(i64, i64)>,
    /// Whether its test held in the last month tried; none where the table ends before that.
    pub held: Option<bool>,
}

struct Roll<'a> {
    sheet: &'a Sheet,
    month: i64,
    waits: Vec<Wait>,
}

pub fn of(sheet: &Sheet, root: &Node) -> Vec<Wait> {
    let mut waits = Vec::new();
    let mut held = set(root, &sheet.days, &mut waits);
    let mut text = sheet.plan.clone();
    let mut roll = Roll {
        sheet,
        month: 0,
        waits,
    };
    if roll.waits.is_empty() {
        return roll.waits;
    }
    for month in 0..=sheet.f {
        roll.month = month;
        let Ok((_, next)) =
            engine::step(&text, &sheet.days, &sheet.table(), month, sheet.p, sheet.q)
        else {
            break;
        };
        let Ok(mut tomorrow) = plan::read(&next) else {
            break;
        };
        roll.follow(&held, &mut tomorrow);
        held = tomorrow;
        text = next;
    }
    roll.waits
}

/// The plan with each `W` numbered and each open setting in place of its name.
fn set(node: &Node, days: &[i64], waits: &mut Vec<Wait>) -> Node {
    let mut node = node.clone();
    if node.letter == b'W' {
        node.tag = Some(waits.len());
        waits.push(Wait {
            byte: node.from + 1,
            tried: None,
            held: None,
        });
    }
    if matches!(node.letter, b'L' | b'W') {
        let open = node.fields[0]
            .strip_prefix('P')
            .and_then(|k| k.parse::<usize>().ok());
        if let Some(day) = open.and_then(|k| days.get(k)) {
            node.fields[0] = day.to_string();
        }
    }
    node.children = node
        .children
        .iter()
        .map(|child| set(child, days, waits))
        .collect();
    node
}

/// Numbers the waits of `to`, which has the shape of `from`, as those of `from`.
fn number(from: &Node, to: &mut Node) {
    to.tag = from.tag;
    for (from, to) in from.children.iter().zip(&mut to.children) {
        number(from, to);
    }
}

impl Roll<'_> {
    /// `tomorrow` is the step of `today`.
    fn follow(&mut self, today: &Node, tomorrow: &mut Node) {
        match today.letter {
            b'S' => self.follow(&today.children[1], &mut tomorrow.children[1]),
            b'B' => {
                self.follow(&today.children[0], &mut tomorrow.children[0]);
                self.follow(&today.children[1], &mut tomorrow.children[1]);
            }
            b'L' if today.fields[0] == "0" => self.follow(&today.children[0], tomorrow),
            b'L' => number(today, tomorrow),
            b'W' => self.wait(today, tomorrow),
            _ => {}
        }
    }

    fn wait(&mut self, today: &Node, tomorrow: &mut Node) {
        let holds = self.holds(&today.children[0]);
        let month = self.month;
        if let Some(wait) = today.tag.map(|tag| &mut self.waits[tag]) {
            let first = wait.tried.map_or(month, |(first, _)| first);
            wait.tried = Some((first, month));
            if holds || today.fields[0] == "0" {
                wait.held = Some(holds);
            }
        }
        if holds {
            self.follow(&today.children[1], tomorrow);
        } else if today.fields[0] == "0" {
            self.follow(&today.children[2], tomorrow);
        } else {
            number(today, tomorrow);
        }
    }

    /// Whether a test holds in this month: a plan that then pays a penny at once is asked about.
    fn holds(&self, test: &Node) -> bool {
        let plan = format!("W,0,{},T,1,2,Z", test.own_text());
        let (days, table) = (&self.sheet.days, self.sheet.table());
        engine::payment(plan.as_bytes(), days, &table, self.month, 1, 2, self.month) == Ok(1)
    }
}

impl Wait {
    pub fn words(&self) -> String {
        match (self.tried, self.held) {
            (None, _) => "never begun".into(),
            (Some((first, last)), Some(held)) if first == last => {
                format!(
                    "tried in month {first}, {}",
                    if held { "held" } else { "not held" }
                )
            }
            (Some((first, last)), Some(true)) => {
                format!("tried from month {first}, held in month {last}")
            }
            (Some((first, last)), Some(false)) => {
                format!("tried from month {first} to {last}, never held")
            }
            (Some((first, _)), None) => {
                format!("tried from month {first}, still open when the table ends")
            }
        }
    }
}
