//! A plan's payoff, as a copy of the plan's text with the changes in it.

use super::number;
use super::pieces::copy;
use super::reader::{read, EDITS};
use super::table::Sight;

pub fn compiled(plan: &[u8]) -> Result<Vec<u8>, u8> {
    let (reader, _) = read::<false, EDITS>(plan, &Sight::NONE, 0);
    if reader.refusal != 0 {
        return Err(reader.refusal);
    }
    let mut out = Vec::with_capacity(plan.len() + 8 * reader.edits.len());
    let mut from = 0;
    for edit in &reader.edits {
        let (at, to) = (edit.from as usize, edit.to as usize);
        copy(&mut out, plan, from, at);
        from = to;
        let ending = &reader.endings[edit.ending as usize];
        match edit.letter {
            b'F' => {
                out.extend_from_slice(b"F,");
                number::write(&mut out, edit.month as i64);
                out.extend_from_slice(ending);
                // The parties, with the comma in front of each.
                out.extend_from_slice(&plan[to - 4..to]);
            }
            b'O' => {
                out.extend_from_slice(&plan[at..at + 4]);
                number::write(&mut out, edit.month as i64);
                out.extend_from_slice(ending);
            }
            _ => {}
        }
    }
    out.extend_from_slice(&plan[from..]);
    Ok(out)
}
