//! The smallest input that still shows a fault.
//!
//! An input has places, one after the other; at each of them a few smaller inputs are tried. Where
//! one of these still fails it is taken and the same place is tried again. Rounds over all places
//! are made until one changes nothing.

mod sheets;
mod tables;
mod texts;

use self::sheets::{sheet_at, sheet_places};
use self::tables::{list_at, list_places, shorter_tables, table_at, table_places};
use self::texts::{text_at, text_places};
use crate::calls::{Call, Kind};
use crate::generate::sheets::{lines, text};
use crate::roll::Roll;
use crate::tree::smaller_number;
use interpreter::calls::Room;
use interpreter::sheet::read_sheet;
use interpreter::Table;

/// The work that is done at most: one unit a try, more for a long text.
const WORK: usize = 60_000;

/// Makes a call smaller as long as it fails.
pub fn smallest_call(call: Call, fails: &dyn Fn(&Call) -> bool) -> Call {
    smallest(call, &fitting_call_at, &weight, fails)
}

/// Makes a roll smaller as long as it fails.
pub fn smallest_roll(roll: Roll, fails: &dyn Fn(&Roll) -> bool) -> Roll {
    let weigh = |roll: &Roll| {
        let (parts, bits) = weight(&roll.first);
        (parts + roll.events.len(), bits)
    };
    smallest(roll, &roll_at, &weigh, fails)
}

fn smallest<T>(
    mut input: T,
    at: &dyn Fn(&T, usize) -> Option<Vec<T>>,
    weigh: &dyn Fn(&T) -> (usize, u64),
    fails: &dyn Fn(&T) -> bool,
) -> T {
    let mut work = 0;
    loop {
        let before = weigh(&input);
        let mut place = 0;
        while let Some(smaller) = at(&input, place) {
            let weight = weigh(&input);
            let effort = 1 + weight.0 / 50 + weight.1 as usize / 1000;
            work += effort;
            let next = smaller.into_iter().find(|next| {
                work += effort;
                weigh(next) < weight && fails(next)
            });
            match next {
                Some(next) => input = next,
                None => place += 1,
            }
            if work > WORK {
                return input;
            }
        }
        if weigh(&input) == before {
            return input;
        }
    }
}

/// How many parts a call has, then how large its numbers are.
fn weight(call: &Call) -> (usize, u64) {
    let bits = |number: i64| {
        let size = number.unsigned_abs();
        let length = u64::from(64 - size.leading_zeros());
        8 * length + 2 * size.min(3) + u64::from(number < 0)
    };
    let fields = call.text.split(|byte| matches!(byte, b',' | b'\n' | b'+'));
    let field_bits = |field: &[u8]| match std::str::from_utf8(field).map(str::parse::<i64>) {
        Ok(Ok(number)) => bits(number),
        // `P5` is more than `P0`, and both are more than a small number.
        _ => field.len() as u64 * 16 + field.last().map_or(0, |last| u64::from(last % 16)),
    };
    let table = &call.table;
    let lists = [&call.days, &table.factors, &table.bounds, &table.values];
    let parts = fields.clone().count() + lists.iter().map(|list| list.len()).sum::<usize>();
    let numbers = lists.iter().copied().flatten().copied();
    let own = [
        table.h,
        table.f,
        call.today,
        call.p,
        call.q,
        call.month,
        call.out as i64,
        call.answer as i64,
    ];
    let total = fields.map(field_bits).sum::<u64>()
        + call.text.len() as u64
        + numbers.chain(own).map(bits).sum::<u64>();
    (parts, total)
}

/// The places of a roll: its calls, then those of its first plan.
fn roll_at(roll: &Roll, place: usize) -> Option<Vec<Roll>> {
    if let Some(place) = place.checked_sub(roll.events.len()) {
        let firsts = call_at(&roll.first, place)?;
        let with = |first| Roll {
            first,
            events: roll.events.clone(),
        };
        return Some(firsts.into_iter().map(with).collect());
    }
    let mut changed = roll.clone();
    changed.events.remove(roll.events.len() - 1 - place);
    Some(vec![changed])
}

/// The places of a call. Where its `out` has the exact size of the answer, or one byte more or less,
/// the smaller calls are tried with that too.
fn fitting_call_at(call: &Call, place: usize) -> Option<Vec<Call>> {
    let smaller = call_at(call, place)?;
    let spare = match answer_bytes(call) {
        Some(bytes) if call.out.abs_diff(bytes) <= 1 => call.out as i64 - bytes as i64,
        _ => return Some(smaller),
    };
    let fitted = smaller.iter().filter_map(|next| {
        let out = answer_bytes(next)? as i64 + spare;
        Some(Call {
            out: usize::try_from(out).ok()?,
            ..next.clone()
        })
    });
    Some(smaller.iter().cloned().chain(fitted).collect())
}

/// How many bytes the call writes, given room enough.
fn answer_bytes(call: &Call) -> Option<usize> {
    let enough = Room {
        out: usize::MAX,
        answer: usize::MAX,
    };
    if !call.kind.writes() {
        return None;
    }
    let answer = call.foretold_with(enough).ok()?;
    Some(answer.bytes.len())
}

/// The places of a call: those of text and table together, of its text, its table, its settings and
/// its own numbers.
fn call_at(call: &Call, place: usize) -> Option<Vec<Call>> {
    let Some(place) = place.checked_sub(1) else {
        return Some(shorter_calls(call));
    };
    let texts = |texts: Vec<Vec<u8>>| {
        let with = |text| Call {
            text,
            ..call.clone()
        };
        texts.into_iter().map(with).collect()
    };
    let places = match call.kind {
        Kind::Sheet => sheet_places(&call.text),
        _ => text_places(&call.text),
    };
    let Some(place) = place.checked_sub(places) else {
        return Some(texts(match call.kind {
            Kind::Sheet => sheet_at(&call.text, place),
            _ => text_at(&call.text, place),
        }));
    };
    let Some(place) = place.checked_sub(table_places(&call.table)) else {
        let with = |table| Call {
            table,
            ..call.clone()
        };
        let tables = table_at(&call.table, place);
        return Some(tables.into_iter().map(with).collect());
    };
    let Some(place) = place.checked_sub(list_places(&call.days)) else {
        let with = |days| Call {
            days,
            ..call.clone()
        };
        let lists = list_at(&call.days, place);
        return Some(lists.into_iter().map(with).collect());
    };
    own_at(call, place)
}

/// Calls whose table has fewer months and whose text has the new f where it had the old one; today
/// and the month asked as they were, or as much earlier.
fn shorter_calls(call: &Call) -> Vec<Call> {
    let shorter = |table: &Table, text: &[u8]| -> Vec<(Table, Vec<u8>)> {
        let with = |smaller: Table| {
            let fewer = table.f - smaller.f;
            let field = |field: &[u8]| {
                let number = std::str::from_utf8(field).ok().and_then(|n| n.parse().ok());
                match number {
                    Some(number) if (table.f - 1..=table.f + 1).contains(&number) => {
                        (number - fewer).max(0).to_string().into_bytes()
                    }
                    _ => field.to_vec(),
                }
            };
            let fields: Vec<Vec<u8>> = text.split(|byte| *byte == b',').map(field).collect();
            (smaller, fields.join(&b','))
        };
        shorter_tables(table).into_iter().map(with).collect()
    };
    match (call.kind, read_sheet(&call.text)) {
        (Kind::Sheet, Ok(sheet)) => shorter(&sheet.table, &sheet.plan)
            .into_iter()
            .map(|(table, plan)| Call {
                text: text(&lines(&plan, &sheet.days, &table, sheet.pair)),
                ..call.clone()
            })
            .collect(),
        _ => shorter(&call.table, &call.text)
            .into_iter()
            .flat_map(|(table, text)| {
                let fewer = call.table.f - table.f;
                let kept = Call {
                    table,
                    text,
                    ..call.clone()
                };
                let earlier = Call {
                    today: call.today.saturating_sub(fewer),
                    month: call.month.saturating_sub(fewer),
                    ..kept.clone()
                };
                [kept, earlier]
            })
            .collect(),
    }
}

/// The numbers of a call that stand alone.
fn own_at(call: &Call, place: usize) -> Option<Vec<Call>> {
    type Own = fn(&mut Call) -> &mut i64;
    let own: [Own; 4] = [
        |call| &mut call.today,
        |call| &mut call.month,
        |call| &mut call.p,
        |call| &mut call.q,
    ];
    if let Some(field) = own.get(place) {
        let with = |number| {
            let mut changed = call.clone();
            *field(&mut changed) = number;
            changed
        };
        let numbers = smaller_number(*field(&mut call.clone()));
        return Some(numbers.into_iter().map(with).collect());
    }
    type Room = fn(&mut Call) -> &mut usize;
    let rooms: [Room; 2] = [|call| &mut call.out, |call| &mut call.answer];
    let field = rooms.get(place - own.len())?;
    let with = |number: i64| {
        let mut changed = call.clone();
        *field(&mut changed) = number as usize;
        changed
    };
    let numbers = smaller_number(*field(&mut call.clone()) as i64);
    Some(numbers.into_iter().map(with).collect())
}
