//! The hidden direction marks, by name.

/// The nine, with the names that Unicode gives them.
const MARKS: [(&str, &str); 9] = [
    ("\u{202a}", "U+202A LEFT-TO-RIGHT EMBEDDING"),
    ("\u{202b}", "U+202B RIGHT-TO-LEFT EMBEDDING"),
    ("\u{202c}", "U+202C POP DIRECTIONAL FORMATTING"),
    ("\u{202d}", "U+202D LEFT-TO-RIGHT OVERRIDE"),
    ("\u{202e}", "U+202E RIGHT-TO-LEFT OVERRIDE"),
    ("\u{2066}", "U+2066 LEFT-TO-RIGHT ISOLATE"),
    ("\u{2067}", "U+2067 RIGHT-TO-LEFT ISOLATE"),
    ("\u{2068}", "U+2068 FIRST STRONG ISOLATE"),
    ("\u{2069}", "U+2069 POP DIRECTIONAL ISOLATE"),
];

/// The number and the name of the hidden direction mark that begins at a byte of a text; `None` where none
/// does.
///
/// Beside refusal 11 stands where the first one is ([`Refusal::HiddenMark`](crate::Refusal::HiddenMark)). Show
/// its name: the mark itself cannot be seen, and changes how a line is shown.
///
/// ```
/// use lovemudarn::{Lists, Refusal, key, mark_name};
///
/// let text = "x = 5; // \u{202e}";
/// assert_eq!(key(text, &Lists::EMPTY), Err(Refusal::HiddenMark { at: 10 }));
/// assert_eq!(mark_name(text, 10), Some("U+202E RIGHT-TO-LEFT OVERRIDE"));
/// ```
pub fn mark_name(text: impl AsRef<[u8]>, at: usize) -> Option<&'static str> {
    let rest = text.as_ref().get(at..)?;
    MARKS.iter().find(|(mark, _)| rest.starts_with(mark.as_bytes())).map(|&(_, name)| name)
}

#[cfg(test)]
mod tests {
    use super::*;

    #[test]
    fn nine_have_a_name() {
        let mut named = Vec::new();
        for c in '\0'..=char::MAX {
            let text = format!("é{c}é");
            if let Some(name) = mark_name(&text, 2) {
                assert_eq!(name.split(' ').next(), Some(&*format!("U+{:04X}", u32::from(c))));
                named.push(c);
            }
            // Not inside a character, not at its neighbours, not at the end, not past it.
            for at in [0, 1, 3, 4, text.len() - 2, text.len(), text.len() + 1, usize::MAX] {
                assert!(at == 2 || mark_name(&text, at).is_none(), "{c:?} {at}");
            }
        }
        assert!(named.iter().copied().eq(('\u{202a}'..='\u{202e}').chain('\u{2066}'..='\u{2069}')));
        // A mark that is cut has none, and bytes that are not UTF-8 elsewhere do not matter.
        assert_eq!(mark_name(b"\xe2\x80", 0), None);
        assert_eq!(mark_name(b"\xff\xe2\x81\xa9\xff", 1), Some("U+2069 POP DIRECTIONAL ISOLATE"));
    }
}
