//! From text to tree: refusals 1 to 5, in document 01's order.

use crate::language::{Amount, Delay, Month, Offset, Payoff, Plan, Test};
use crate::refusal::Refusal;
use crate::{AMOUNT_LIMIT, EIGHT, MONTH_LIMIT};

/// "At most 512 nodes, nesting 32 deep (the root is 1), 8,704 bytes."
pub const NODES: usize = 512;
pub const DEPTH: usize = 32;
pub const PLAN_BYTES: usize = 8_704;
/// "Same node and depth limits, 53,760 bytes."
pub const PAYOFF_BYTES: usize = 53_760;

/// Reads a plan's text.
pub fn plan(text: &[u8]) -> Result<Plan, Refusal> {
    whole(text, PLAN_BYTES, b"ZTSLBW", plan_node)
}

/// Reads a payoff's text.
pub fn payoff(text: &[u8]) -> Result<Payoff, Refusal> {
    whole(text, PAYOFF_BYTES, b"ZSBWFH", payoff_node)
}

/// "A whole number has no plus, no leading zero, and zero has no minus." `None` where the field is
/// not of that form or the number lies outside `least` to `most`.
pub fn whole_number(field: &[u8], least: i64, most: i64) -> Option<i64> {
    let (negative, digits) = match field {
        [b'-', digits @ ..] => (true, digits),
        digits => (false, digits),
    };
    let well_formed = match digits {
        [] => false,
        [b'0'] => !negative,
        [b'0', ..] => false,
        all => all.iter().all(u8::is_ascii_digit),
    };
    // Nineteen digits and more are beyond every limit; fewer fit an i64.
    if !well_formed || digits.len() > 18 {
        return None;
    }
    let size = digits
        .iter()
        .fold(0i64, |n, digit| n * 10 + i64::from(digit - b'0'));
    let number = if negative { -size } else { size };
    (least..=most).contains(&number).then_some(number)
}

/// "Order: 1; then reading left to right, .. and last leftover bytes 2".
fn whole<Tree>(
    text: &[u8],
    limit: usize,
    trees: &'static [u8],
    root: fn(&mut Reader, usize) -> Result<Tree, Refusal>,
) -> Result<Tree, Refusal> {
    if text.len() > limit {
        return Err(Refusal::TextTooLong);
    }
    let mut fields = text.split(is_comma as fn(&u8) -> bool);
    let mut reader = Reader {
        fields: &mut fields,
        trees,
        nodes: 0,
    };
    let tree = root(&mut reader, 1)?;
    match fields.next() {
        None => Ok(tree),
        Some(_) => Err(Refusal::LeftoverBytes),
    }
}

fn is_comma(byte: &u8) -> bool {
    *byte == b','
}

/// What may stand in a place.
#[derive(Clone, Copy, PartialEq, Eq)]
enum Kind {
    /// A plan in a plan's text, a payoff in a payoff's.
    Tree,
    Amount,
    Test,
}

/// The fields not yet read, and the nodes read so far.
struct Reader<'text, 'fields> {
    fields: &'fields mut std::slice::Split<'text, u8, fn(&u8) -> bool>,
    /// The letters of plans, or those of payoffs.
    trees: &'static [u8],
    nodes: usize,
}

impl Reader<'_, '_> {
    /// "at each node unknown letter 2, wrong kind 5, 3, 4". "A letter that only the other kind of
    /// text has is unknown, and so is anything but a single letter up to the next comma or the end."
    fn letter(&mut self, place: Kind, depth: usize) -> Result<u8, Refusal> {
        let field = self.fields.next().ok_or(Refusal::NodeMissing)?;
        let letter = match field {
            [letter] => *letter,
            _ => return Err(Refusal::UnknownLetter),
        };
        let kind = match letter {
            b'N' | b'O' | b'A' | b'U' | b'K' | b'Q' | b'I' => Kind::Amount,
            b'G' | b'E' | b'Y' | b'V' | b'R' => Kind::Test,
            tree if self.trees.contains(&tree) => Kind::Tree,
            _ => return Err(Refusal::UnknownLetter),
        };
        if kind != place {
            return Err(Refusal::WrongKind);
        }
        self.nodes += 1;
        if self.nodes > NODES {
            return Err(Refusal::TooManyNodes);
        }
        if depth > DEPTH {
            return Err(Refusal::TooDeep);
        }
        Ok(letter)
    }

    /// The next field, read by `parse`: "its fields 2".
    fn field<T>(&mut self, parse: impl Fn(&[u8]) -> Option<T>) -> Result<T, Refusal> {
        let field = self.fields.next().ok_or(Refusal::FieldMissing)?;
        parse(field).ok_or(Refusal::FieldMalformed)
    }

    fn number(&mut self, least: i64, most: i64) -> Result<i64, Refusal> {
        self.field(|field| whole_number(field, least, most))
    }

    /// "parties 1 to 9"
    fn party(&mut self) -> Result<i64, Refusal> {
        self.number(1, 9)
    }

    /// "d is 0 to 600, or an open setting `P0` to `P7`"
    fn delay(&mut self) -> Result<Delay, Refusal> {
        self.field(|field| match setting(field) {
            Some(open) => Some(Delay::Setting(open)),
            None => whole_number(field, 0, MONTH_LIMIT).map(Delay::Months),
        })
    }
}

/// `P0` to `P7`.
fn setting(field: &[u8]) -> Option<usize> {
    match field {
        [b'P', digit @ b'0'..=b'7'] => Some(usize::from(digit - b'0')),
        _ => None,
    }
}

/// When an index is read, in the one kind of text and in the other.
trait When: Sized {
    fn parse(field: &[u8]) -> Option<Self>;
}

impl When for Offset {
    /// "i months from the node's month (-60 to 600)"
    fn parse(field: &[u8]) -> Option<Offset> {
        whole_number(field, -60, 600).map(Offset)
    }
}

impl When for Month {
    /// "A month is a number (-60 to 19,200) followed by up to 31 settings with `+`, lowest first,
    /// as `12+P0+P3+P3`".
    fn parse(field: &[u8]) -> Option<Month> {
        let mut parts = field.split(|byte| *byte == b'+');
        let number = whole_number(parts.next()?, -60, 19_200)?;
        let settings = parts.map(setting).collect::<Option<Vec<usize>>>()?;
        let lowest_first = settings.windows(2).all(|pair| pair[0] <= pair[1]);
        (settings.len() <= 31 && lowest_first).then_some(Month { number, settings })
    }
}

fn plan_node(reader: &mut Reader, depth: usize) -> Result<Plan, Refusal> {
    let child = |reader: &mut Reader| plan_node(reader, depth + 1).map(Box::new);
    Ok(match reader.letter(Kind::Tree, depth)? {
        b'T' => Plan::Transfer {
            from: reader.party()?,
            to: reader.party()?,
        },
        b'S' => Plan::Scale(amount_node(reader, depth + 1)?, child(reader)?),
        b'L' => Plan::Later(reader.delay()?, child(reader)?),
        b'B' => Plan::Both(child(reader)?, child(reader)?),
        b'W' => Plan::Wait(
            reader.delay()?,
            test_node(reader, depth + 1)?,
            child(reader)?,
            child(reader)?,
        ),
        _ => Plan::Nothing,
    })
}

fn payoff_node(reader: &mut Reader, depth: usize) -> Result<Payoff, Refusal> {
    let child = |reader: &mut Reader| payoff_node(reader, depth + 1).map(Box::new);
    Ok(match reader.letter(Kind::Tree, depth)? {
        leaf @ (b'F' | b'H') => Payoff::Leaf {
            cut: leaf == b'H',
            month: reader.field(Month::parse)?,
            from: reader.party()?,
            to: reader.party()?,
        },
        b'S' => Payoff::Scale(amount_node(reader, depth + 1)?, child(reader)?),
        b'B' => Payoff::Both(child(reader)?, child(reader)?),
        b'W' => Payoff::Wait(
            reader.delay()?,
            test_node(reader, depth + 1)?,
            child(reader)?,
            child(reader)?,
        ),
        _ => Payoff::Nothing,
    })
}

fn amount_node<At: When>(reader: &mut Reader, depth: usize) -> Result<Amount<At>, Refusal> {
    let child = |reader: &mut Reader| amount_node(reader, depth + 1).map(Box::new);
    Ok(match reader.letter(Kind::Amount, depth)? {
        b'O' => Amount::Index {
            label: reader.number(0, EIGHT as i64 - 1)? as usize,
            at: reader.field(At::parse)?,
        },
        b'A' => Amount::Sum(child(reader)?, child(reader)?),
        b'U' => Amount::Difference(child(reader)?, child(reader)?),
        b'K' => Amount::Product(child(reader)?, child(reader)?),
        b'Q' => Amount::Quotient(reader.number(1, AMOUNT_LIMIT)?, child(reader)?),
        b'I' => Amount::Choice(
            Box::new(test_node(reader, depth + 1)?),
            child(reader)?,
            child(reader)?,
        ),
        _ => Amount::Number(reader.number(-AMOUNT_LIMIT, AMOUNT_LIMIT)?),
    })
}

fn test_node<At: When>(reader: &mut Reader, depth: usize) -> Result<Test<At>, Refusal> {
    let amount = |reader: &mut Reader| amount_node(reader, depth + 1);
    let child = |reader: &mut Reader| test_node(reader, depth + 1).map(Box::new);
    Ok(match reader.letter(Kind::Test, depth)? {
        b'G' => Test::Less(amount(reader)?, amount(reader)?),
        b'E' => Test::Equal(amount(reader)?, amount(reader)?),
        b'Y' => Test::And(child(reader)?, child(reader)?),
        b'V' => Test::Or(child(reader)?, child(reader)?),
        _ => Test::Not(child(reader)?),
    })
}
