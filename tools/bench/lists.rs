//! Lists that the archive and rustc's lexer are both lent.

/// The pairs of what belongs to a class, but for what no list may hold.
pub fn pairs(member: impl Fn(char) -> bool) -> Vec<u32> {
    let mut list: Vec<u32> = Vec::new();
    for c in '\u{80}'..=char::MAX {
        if !member(c) || rustc_lexer::is_whitespace(c) {
            continue;
        }
        let point = u32::from(c);
        match list.last_mut() {
            Some(high) if *high + 1 == point => *high = point,
            _ => list.extend([point, point]),
        }
    }
    list
}
