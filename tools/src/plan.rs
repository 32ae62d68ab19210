//! The tool's own reading of a plan's text: which node stands where, and where the text stops being
//! of the form. The engine decides what is refused; this only finds the place.

use crate::number;

#[derive(Clone, Copy, PartialEq, Eq, Debug)]
pub enum Kind {
    Plan,
    Amount,
    Test,
}

#[derive(Clone, Debug)]
pub struct Node {
    pub letter: u8,
    pub fields: Vec<String>,
    pub children: Vec<Node>,
    /// The bytes of the node and everything beneath it.
    pub from: usize,
    pub to: usize,
    /// A name that the caller gives.
    pub tag: Option<usize>,
}

/// Where a text stops being of the form.
#[derive(Debug)]
pub struct Fault {
    pub number: i32,
    pub from: usize,
    pub to: usize,
    pub words: String,
}

#[derive(Clone, Copy)]
enum Class {
    Number,
    Label,
    Divisor,
    Offset,
    Party,
    Delay,
}

const LIMIT: i64 = 9_000_000_000_000;

fn shape(letter: u8) -> Option<(Kind, &'static [Class], &'static [Kind])> {
    use Class::*;
    use Kind::{Amount, Plan, Test};
    Some(match letter {
        b'Z' => (Plan, &[], &[]),
        b'T' => (Plan, &[Party, Party], &[]),
        b'S' => (Plan, &[], &[Amount, Plan]),
        b'L' => (Plan, &[Delay], &[Plan]),
        b'B' => (Plan, &[], &[Plan, Plan]),
        b'W' => (Plan, &[Delay], &[Test, Plan, Plan]),
        b'N' => (Amount, &[Number], &[]),
        b'O' => (Amount, &[Label, Offset], &[]),
        b'A' | b'U' | b'K' => (Amount, &[], &[Amount, Amount]),
        b'Q' => (Amount, &[Divisor], &[Amount]),
        b'I' => (Amount, &[], &[Test, Amount, Amount]),
        b'G' | b'E' => (Test, &[], &[Amount, Amount]),
        b'Y' | b'V' => (Test, &[], &[Test, Test]),
        b'R' => (Test, &[], &[Test]),
        _ => return None,
    })
}

pub fn kind(letter: u8) -> Kind {
    shape(letter).map_or(Kind::Plan, |(kind, _, _)| kind)
}

impl Class {
    fn words(self) -> &'static str {
        match self {
            Class::Number => "a number from -9000000000000 to 9000000000000",
            Class::Label => "a label from 0 to 7",
            Class::Divisor => "a divisor from 1 to 9000000000000",
            Class::Offset => "an offset from -60 to 600",
            Class::Party => "a party from 1 to 9",
            Class::Delay => "a delay from 0 to 600 or an open setting P0 to P7",
        }
    }

    fn fits(self, field: &[u8]) -> bool {
        let (least, most) = match self {
            Class::Number => (-LIMIT, LIMIT),
            Class::Label => (0, 7),
            Class::Divisor => (1, LIMIT),
            Class::Offset => (-60, 600),
            Class::Party => (1, 9),
            Class::Delay => {
                if let [b'P', b'0'..=b'7'] = field {
                    return true;
                }
                (0, 600)
            }
        };
        number(field).is_some_and(|n| (least..=most).contains(&n))
    }
}

fn named(kind: Kind) -> &'static str {
    match kind {
        Kind::Plan => "a plan (Z, T, S, L, B or W)",
        Kind::Amount => "an amount (N, O, A, U, K, Q or I)",
        Kind::Test => "a test (G, E, Y, V or R)",
    }
}

struct Reader<'a> {
    text: &'a [u8],
    fields: Vec<(usize, usize)>,
    next: usize,
    nodes: usize,
}

pub fn read(text: &[u8]) -> Result<Node, Fault> {
    let mut fields = Vec::new();
    let mut from = 0;
    for field in text.split(|byte| *byte == b',') {
        fields.push((from, from + field.len()));
        from += field.len() + 1;
    }
    let mut reader = Reader {
        text,
        fields,
        next: 0,
        nodes: 0,
    };
    let root = reader.node(Kind::Plan, 1)?;
    match reader.take() {
        None => Ok(root),
        Some((from, _)) => Err(Fault {
            number: 2,
            from,
            to: text.len(),
            words: "the plan is complete before this: nothing may stand behind it".into(),
        }),
    }
}

impl Reader<'_> {
    fn take(&mut self) -> Option<(usize, usize)> {
        let field = self.fields.get(self.next).copied();
        self.next += 1;
        field
    }

    fn missing(&self, what: &str) -> Fault {
        Fault {
            number: 2,
            from: self.text.len(),
            to: self.text.len(),
            words: format!("the text ends here, but {what} is wanted"),
        }
    }

    fn node(&mut self, wanted: Kind, depth: usize) -> Result<Node, Fault> {
        let Some((from, to)) = self.take() else {
            return Err(self.missing(named(wanted)));
        };
        let fault = |number, words: String| {
            Err(Fault {
                number,
                from,
                to,
                words,
            })
        };
        let field = &self.text[from..to];
        let known = match field {
            [letter] => shape(*letter).map(|shape| (*letter, shape)),
            _ => None,
        };
        let Some((letter, (kind, classes, kinds))) = known else {
            return fault(
                2,
                format!("no letter of a plan; {} is wanted here", named(wanted)),
            );
        };
        if kind != wanted {
            return fault(
                5,
                format!(
                    "{} is wanted here, and this begins {}",
                    named(wanted),
                    named(kind)
                ),
            );
        }
        if self.nodes == 512 {
            return fault(3, "this is the 513th node".into());
        }
        self.nodes += 1;
        if depth > 32 {
            return fault(4, "this node stands at depth 33".into());
        }
        let mut fields = Vec::new();
        let mut end = to;
        for class in classes {
            let Some((from, to)) = self.take() else {
                return Err(self.missing(class.words()));
            };
            if !class.fits(&self.text[from..to]) {
                return Err(Fault {
                    number: 2,
                    from,
                    to,
                    words: format!("{} is wanted here", class.words()),
                });
            }
            fields.push(String::from_utf8_lossy(&self.text[from..to]).into_owned());
            end = to;
        }
        let mut children = Vec::new();
        for kind in kinds {
            let child = self.node(*kind, depth + 1)?;
            end = child.to;
            children.push(child);
        }
        Ok(Node {
            letter,
            fields,
            children,
            from,
            to: end,
            tag: None,
        })
    }
}

impl Node {
    /// The node and all beneath it, outermost first.
    pub fn all(&self) -> Vec<&Node> {
        let mut nodes = vec![self];
        for child in &self.children {
            nodes.extend(child.all());
        }
        nodes
    }

    /// The text of the node, with what `change` gives in place of a node.
    pub fn text(&self, change: &dyn Fn(&Node) -> Option<String>) -> String {
        if let Some(text) = change(self) {
            return text;
        }
        let mut parts = vec![(self.letter as char).to_string()];
        parts.extend(self.fields.iter().cloned());
        parts.extend(self.children.iter().map(|child| child.text(change)));
        parts.join(",")
    }

    pub fn own_text(&self) -> String {
        self.text(&|_| None)
    }
}
