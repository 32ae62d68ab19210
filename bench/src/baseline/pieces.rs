//! Short pieces of text, appended by moves of a fixed size.

/// Appends the first bytes of a piece whose whole length is known when compiling.
#[inline(always)]
pub fn append(out: &mut Vec<u8>, piece: &[u8], count: usize) {
    let end = out.len() + count;
    out.extend_from_slice(piece);
    out.truncate(end);
}

/// Appends the bytes of a text from `from` to `to`; most pieces between two changes are short.
#[inline(always)]
pub fn copy(out: &mut Vec<u8>, text: &[u8], from: usize, to: usize) {
    let count = to - from;
    match text[from..].first_chunk::<16>() {
        Some(piece) if count <= 16 => append(out, piece, count),
        _ => out.extend_from_slice(&text[from..to]),
    }
}
