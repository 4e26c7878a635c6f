//! The replaced text, of which a key is: each CR LF is LF in it.

/// The bytes of a text that its replaced text has too, with their places: all but a CR that LF follows.
fn kept(text: &[u8]) -> impl Iterator<Item = (usize, u8)> {
    let next = text.iter().skip(1).map(Some).chain([None]);
    text.iter()
        .zip(next)
        .enumerate()
        .filter(|&(_, two)| two != (&b'\r', Some(&b'\n')))
        .map(|(at, (&byte, _))| (at, byte))
}

/// The replaced text, or `None` where it is the text itself.
pub(crate) fn replaced(text: &[u8]) -> Option<Vec<u8>> {
    let has = text.windows(2).any(|two| two == b"\r\n");
    has.then(|| kept(text).map(|(_, byte)| byte).collect())
}

/// The place in a text of a place in its replaced text, in which each CR LF is LF. The text's length at the
/// end of the replaced text, and past it.
///
/// The place beside refusal 6 is one in the replaced text ([`Refusal::Broken`](crate::Refusal::Broken)). Its
/// line and its column are the same in both.
///
/// ```
/// use lovemudarn::{Lists, Refusal, key, lent_place};
///
/// let text = "a;\r\nb = \"";
/// assert_eq!(key(text, &Lists::EMPTY), Err(Refusal::Broken { at: 7 }));
/// assert_eq!(lent_place(text, 7), 8);
/// assert_eq!(&text[8..], "\"");
/// ```
pub fn lent_place(text: impl AsRef<[u8]>, at: usize) -> usize {
    let text = text.as_ref();
    kept(text).nth(at).map_or(text.len(), |(place, _)| place)
}

#[cfg(test)]
mod tests {
    use super::*;

    #[test]
    fn each_cr_lf_is_lf() {
        let texts: [(&[u8], &[u8], &[usize]); 12] = [
            (b"\r\n", b"\n", &[1]),
            (b"a\r\nb\r\n", b"a\nb\n", &[0, 2, 3, 5]),
            (b"\r\n\r\n", b"\n\n", &[1, 3]),
            // Each byte is used once.
            (b"\r\r\n", b"\r\n", &[0, 2]),
            (b"\r\r\r\n\n", b"\r\r\n\n", &[0, 1, 3, 4]),
            (b"\n\r\n\r", b"\n\n\r", &[0, 2, 3]),
            (b"\xff\r\n\xff", b"\xff\n\xff", &[0, 2, 3]),
            // A CR alone stays.
            (b"", b"", &[]),
            (b"\r", b"\r", &[0]),
            (b"\n\r", b"\n\r", &[0, 1]),
            (b"a\rb\r\rc\n", b"a\rb\r\rc\n", &[0, 1, 2, 3, 4, 5, 6]),
            (b"ab", b"ab", &[0, 1]),
        ];
        for (text, right, places) in texts {
            let replaced = replaced(text);
            assert_eq!(replaced.is_some(), text != right, "{text:x?}");
            assert_eq!(replaced.as_deref().unwrap_or(text), right, "{text:x?}");
            assert_eq!(places.len(), right.len());
            for (at, &place) in places.iter().enumerate() {
                assert_eq!(lent_place(text, at), place, "{text:x?} {at}");
            }
            for past in [right.len(), right.len() + 1, usize::MAX] {
                assert_eq!(lent_place(text, past), text.len(), "{text:x?} {past}");
            }
        }
    }
}
