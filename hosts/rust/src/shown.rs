//! The beginning of a text that somebody wrote.

/// At most 40 letters.
pub(crate) fn shown(text: &str) -> String {
    const MOST: usize = 40;
    match text.char_indices().nth(MOST) {
        Some((end, _)) => text.get(..end).unwrap_or(text).to_string() + "...",
        None => text.to_string(),
    }
}
