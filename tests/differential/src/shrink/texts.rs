//! The places of a text.

use crate::tree::{smaller_field, Text};

/// The places of a text: what is left over behind its tree, the tree's nodes, and bytes.
pub fn text_places(text: &[u8]) -> usize {
    let read = Text::read(text);
    row_places(&read.rest) + read.tree.nodes() + byte_places(text)
}

pub fn text_at(text: &[u8], place: usize) -> Vec<Vec<u8>> {
    let read = Text::read(text);
    let Some(place) = place.checked_sub(row_places(&read.rest)) else {
        let with = |rest| Text {
            rest,
            tree: read.tree.clone(),
        };
        let rows = row_at(&read.rest, place);
        return rows.into_iter().map(|rest| with(rest).bytes()).collect();
    };
    let Some(place) = place.checked_sub(read.tree.nodes()) else {
        let with = |tree| Text {
            tree,
            rest: read.rest.clone(),
        };
        let trees = read.tree.smaller_at(place);
        return trees.into_iter().map(|tree| with(tree).bytes()).collect();
    };
    vec![[&text[..place], &text[place + 1..]].concat()]
}

/// Bytes of a short text can be left out one by one.
fn byte_places(text: &[u8]) -> usize {
    match text.len() {
        short @ 0..=200 => short,
        _ => 0,
    }
}

/// Pieces of a row of `count` parts: halves, quarters and so on, down to single parts.
fn pieces(count: usize) -> Vec<(usize, usize)> {
    let mut found = vec![];
    let mut length = count.div_ceil(2);
    while length > 0 {
        found.extend((0..count).step_by(length).map(|from| (from, length)));
        length = match length {
            1 => 0,
            longer => longer.div_ceil(2),
        };
    }
    found
}

fn row_places(fields: &[Vec<u8>]) -> usize {
    pieces(fields.len()).len() + fields.len()
}

/// A row with a piece cut out or a field made smaller.
fn row_at(fields: &[Vec<u8>], place: usize) -> Vec<Vec<Vec<u8>>> {
    let pieces = pieces(fields.len());
    let Some(place) = place.checked_sub(pieces.len()) else {
        let (from, length) = pieces[place];
        let to = (from + length).min(fields.len());
        return vec![[&fields[..from], &fields[to..]].concat()];
    };
    let with = |smaller: Vec<u8>| {
        let mut changed = fields.to_vec();
        changed[place] = smaller;
        changed
    };
    smaller_field(&fields[place])
        .into_iter()
        .map(with)
        .collect()
}
