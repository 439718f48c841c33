//! Section "Rows": reading rows back; their words may be anything.

/// Offset and length of row `i`'s body in the stream, where the row exists.
fn row(stream: &[u8], rows: &[u32], i: u64) -> Option<(usize, usize)> {
    let index = usize::try_from(i).ok()?;
    let words = rows.chunks_exact(3).nth(index)?;
    let start = u64::from(words[1]) + 4;
    let length = u64::from(words[2]);
    if start + length > stream.len() as u64 {
        return None;
    }
    Some((usize::try_from(start).ok()?, usize::try_from(length).ok()?))
}

/// Whether the rows lent hold row `i` and its body lies within the stream.
pub fn row_exists(stream: &[u8], rows: &[u32], i: u64) -> bool {
    row(stream, rows, i).is_some()
}

/// Offset and length of row `i`'s body in the stream; (0, 0) for no row.
pub fn row_body(stream: &[u8], rows: &[u32], i: u64) -> (usize, usize) {
    row(stream, rows, i).unwrap_or((0, 0))
}
