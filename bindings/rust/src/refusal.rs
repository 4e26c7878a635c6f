//! What the library says where it gives no answer.

use std::error::Error;
use std::fmt;

/// The three lists that a caller lends.
#[derive(Clone, Copy, Debug, PartialEq, Eq, Hash)]
pub enum ListName {
    /// [`Lists::id_start`](crate::Lists::id_start)
    IdStart,
    /// [`Lists::id_continue`](crate::Lists::id_continue)
    IdContinue,
    /// [`Lists::emoji`](crate::Lists::emoji)
    Emoji,
}

impl ListName {
    /// The list of a number of the archive.
    fn of(number: usize) -> Option<ListName> {
        match number {
            0 => Some(ListName::IdStart),
            1 => Some(ListName::IdContinue),
            2 => Some(ListName::Emoji),
            _ => None,
        }
    }
}

impl fmt::Display for ListName {
    fn fmt(&self, f: &mut fmt::Formatter<'_>) -> fmt::Result {
        f.write_str(match self {
            ListName::IdStart => "id start",
            ListName::IdContinue => "id continue",
            ListName::Emoji => "emoji",
        })
    }
}

/// Why bytes are not UTF-8. The bytes of a sequence are judged from the left: the first that is wrong
/// decides, or the end of the text where it comes before that.
#[derive(Clone, Copy, Debug, PartialEq, Eq, Hash)]
pub enum Cause {
    /// 1: the first byte cannot start a sequence (80 to C1, F5 to FF).
    Start,
    /// 2: the text ends inside the sequence.
    Cut,
    /// 3: a following byte is wrong. It is not 80 to BF; or it is the second, and makes an overlong form
    /// (after E0, F0), a surrogate (ED) or a value past U+10FFFF (F4).
    Follow,
}

impl Cause {
    /// The cause's number, in the order above.
    pub fn number(self) -> u32 {
        match self {
            Cause::Start => 1,
            Cause::Cut => 2,
            Cause::Follow => 3,
        }
    }

    /// The cause of a number of the archive.
    fn of(number: usize) -> Option<Cause> {
        match number {
            1 => Some(Cause::Start),
            2 => Some(Cause::Cut),
            3 => Some(Cause::Follow),
            _ => None,
        }
    }
}

impl fmt::Display for Cause {
    fn fmt(&self, f: &mut fmt::Formatter<'_>) -> fmt::Result {
        f.write_str(match self {
            Cause::Start => "no character begins with this byte",
            Cause::Cut => "the text ends inside a character",
            Cause::Follow => "a character begins, and a later byte of it is wrong",
        })
    }
}

/// Why a call gave no answer. Where it did not, nothing was written to a lent buffer.
#[derive(Clone, Copy, Debug, PartialEq, Eq, Hash)]
#[non_exhaustive]
pub enum Refusal {
    /// 1: the text has more than 4,294,967,295 bytes.
    TooLong,
    /// 2: the text is not UTF-8.
    NotUtf8 {
        /// Where the first ill-formed sequence starts.
        at: usize,
        /// Why it is ill-formed.
        cause: Cause,
    },
    /// 3: a list breaks a rule.
    List {
        /// The first list that does.
        list: ListName,
        /// The index of the pair that does; [`MAX_PAIRS`](crate::MAX_PAIRS) where there are more pairs
        /// than that.
        pair: usize,
    },
    /// 4: the position is past the end of the text, or inside a character.
    Position {
        /// The position.
        at: usize,
    },
    /// 5: the buffer has room for fewer tokens than the text has.
    Slots {
        /// The tokens of the text.
        needed: usize,
    },
    /// 6: the text has no key, for a token of the replaced text is broken: of the text in which each
    /// CR LF is LF (see [`key`](crate::key)).
    Broken {
        /// Where the first broken token starts, in the replaced text. [`lent_place`](crate::lent_place)
        /// gives the same place in the text that was lent.
        at: usize,
    },
    /// 7: the buffer has fewer bytes than the key, or than the file of lists.
    Room {
        /// The bytes of the key or the file.
        needed: usize,
    },
    /// 7: the buffer for a list has fewer numbers than the file has for it.
    ListRoom {
        /// The first list for which it is so.
        list: ListName,
        /// The numbers of the list.
        needed: usize,
    },
    /// 8: the prefix of the raw string is not 1 with `r`, nor 2 with `br` or `cr`.
    Prefix,
    /// 9: a line of a file of lists is bad.
    Line {
        /// The number of the first that is, counted from 0.
        line: usize,
    },
    /// 10: the text has no key, for CR CR LF stands in it. It would leave a CR LF in the key, which a
    /// second keying would change.
    DoubleReturn {
        /// Where the first one starts, in the text that was lent. Of CR CR CR LF it is the second CR.
        at: usize,
    },
    /// 11: the text has no key, for a hidden direction mark stands in it, in a comment or a string maybe: one
    /// of U+202A to U+202E and U+2066 to U+2069. An editor may show a line with such a mark in another order
    /// than it is read.
    HiddenMark {
        /// Where the first one starts, in the text that was lent. [`mark_name`](crate::mark_name) tells which
        /// it is.
        at: usize,
    },
    /// The archive gave an answer that this crate does not know: the two are of different
    /// versions.
    Unknown {
        /// The number of the answer.
        number: u32,
        /// The number beside it.
        beside: usize,
        /// The second number beside it.
        second: usize,
    },
}

impl Refusal {
    /// The refusal's number in the table of refusals.
    pub fn number(self) -> u32 {
        match self {
            Refusal::TooLong => 1,
            Refusal::NotUtf8 { .. } => 2,
            Refusal::List { .. } => 3,
            Refusal::Position { .. } => 4,
            Refusal::Slots { .. } => 5,
            Refusal::Broken { .. } => 6,
            Refusal::Room { .. } | Refusal::ListRoom { .. } => 7,
            Refusal::Prefix => 8,
            Refusal::Line { .. } => 9,
            Refusal::DoubleReturn { .. } => 10,
            Refusal::HiddenMark { .. } => 11,
            Refusal::Unknown { number, .. } => number,
        }
    }

    /// The place in the text, in bytes from its beginning, where the refusal names one (2, 4, 6, 10, 11).
    /// That of 6 is one in the replaced text, in which each CR LF is one byte:
    /// [`lent_place`](crate::lent_place) gives the same place in the text that was lent.
    pub fn place(self) -> Option<usize> {
        match self {
            Refusal::NotUtf8 { at, .. }
            | Refusal::Position { at }
            | Refusal::Broken { at }
            | Refusal::DoubleReturn { at }
            | Refusal::HiddenMark { at } => Some(at),
            _ => None,
        }
    }

    /// Why the bytes at that place are not UTF-8 (2).
    pub fn cause(self) -> Option<Cause> {
        match self {
            Refusal::NotUtf8 { cause, .. } => Some(cause),
            _ => None,
        }
    }

    /// The tokens (5), or the bytes or numbers (7), that a buffer has to have room for.
    pub fn needed(self) -> Option<usize> {
        match self {
            Refusal::Slots { needed }
            | Refusal::Room { needed }
            | Refusal::ListRoom { needed, .. } => Some(needed),
            _ => None,
        }
    }

    /// The refusal of three numbers of the archive; the first is not 0.
    pub(crate) fn of(number: u32, beside: usize, second: usize) -> Refusal {
        let unknown = Refusal::Unknown { number, beside, second };
        match number {
            1 => Refusal::TooLong,
            2 => match Cause::of(second) {
                Some(cause) => Refusal::NotUtf8 { at: beside, cause },
                None => unknown,
            },
            3 => match ListName::of(beside) {
                Some(list) => Refusal::List { list, pair: second },
                None => unknown,
            },
            4 => Refusal::Position { at: beside },
            5 => Refusal::Slots { needed: beside },
            6 => Refusal::Broken { at: beside },
            7 => Refusal::Room { needed: beside },
            8 => Refusal::Prefix,
            9 => Refusal::Line { line: beside },
            10 => Refusal::DoubleReturn { at: beside },
            11 => Refusal::HiddenMark { at: beside },
            _ => unknown,
        }
    }

    /// The same of the call that reads a file of lists: its 7 has a list beside it, and then what is
    /// needed.
    pub(crate) fn of_reader(number: u32, beside: usize, second: usize) -> Refusal {
        match (number, ListName::of(beside)) {
            (7, Some(list)) => Refusal::ListRoom { list, needed: second },
            (7, None) => Refusal::Unknown { number, beside, second },
            _ => Refusal::of(number, beside, second),
        }
    }
}

impl fmt::Display for Refusal {
    fn fmt(&self, f: &mut fmt::Formatter<'_>) -> fmt::Result {
        write!(f, "refusal {}: ", self.number())?;
        match *self {
            Refusal::TooLong => {
                write!(f, "the text is longer than {} bytes; split it", u32::MAX)
            }
            Refusal::NotUtf8 { at, cause } => {
                let advice = match cause {
                    Cause::Start | Cause::Follow => {
                        "the file may be in another encoding, or damaged: save it as UTF-8"
                    }
                    Cause::Cut => "the file may be cut off: fetch it again",
                };
                write!(
                    f,
                    "the text is not UTF-8 from byte {at} on (counted from 0): {cause}; {advice}"
                )
            }
            Refusal::List { list, pair } => write!(
                f,
                "pair {pair} (counted from 0) of the list `{list}` of code points breaks a rule; \
                 make the list anew from the Unicode files"
            ),
            Refusal::Position { at } => write!(
                f,
                "no character of the text begins at byte {at}: it is past the end or inside a character"
            ),
            Refusal::Slots { needed } => {
                write!(f, "the buffer is too short: the text has {needed} tokens")
            }
            Refusal::Broken { at } => write!(
                f,
                "the text has no key: the comment or literal that begins at byte {at} (counted from 0, \
                 each CR LF as one byte) is not closed, or is a raw string that begins wrong or has more \
                 than 255 hashes"
            ),
            Refusal::Room { needed } => {
                write!(f, "the buffer is too short: {needed} bytes are needed")
            }
            Refusal::ListRoom { list, needed } => {
                write!(f, "the buffer for the list `{list}` is too short: it has {needed} numbers")
            }
            Refusal::Prefix => {
                write!(f, "the text does not begin with `r` (prefix 1), or `br` or `cr` (prefix 2)")
            }
            Refusal::Line { line } => write!(
                f,
                "line {line} (counted from 0) of the file of lists is out of form or out of order, or is \
                 cut off; make the file anew from the Unicode files"
            ),
            Refusal::DoubleReturn { at } => write!(
                f,
                "the text has no key: at byte {at} (counted from 0) stands CR CR LF; write this line end as \
                 LF or CR LF"
            ),
            Refusal::HiddenMark { at } => write!(
                f,
                "the text has no key: at byte {at} (counted from 0) stands a hidden direction mark (U+202A to \
                 U+202E, U+2066 to U+2069), and a line with it may be shown in another order than it is read; \
                 delete it, or write it as an escape in a string"
            ),
            Refusal::Unknown { number: _, beside, second } => write!(
                f,
                "this version of the crate does not know the answer (beside it: {beside}, {second}); \
                 build the archive and the crate from the same sources"
            ),
        }
    }
}

impl Error for Refusal {}

#[cfg(test)]
mod tests {
    use super::*;

    #[test]
    fn numbers_go_both_ways() {
        for number in 1..=11 {
            for (beside, second) in [(0, 1), (1, 2), (2, 3)] {
                for of in [Refusal::of, Refusal::of_reader] {
                    let refusal = of(number, beside, second);
                    assert_eq!(refusal.number(), number);
                    assert!(!matches!(refusal, Refusal::Unknown { .. }), "{refusal}");
                }
            }
        }
        for pair in [0, 7, crate::MAX_PAIRS] {
            assert_eq!(Refusal::of(3, 2, pair), Refusal::List { list: ListName::Emoji, pair });
        }
        for (number, beside) in [(0, 0), (3, 3), (12, 1), (u32::MAX, usize::MAX)] {
            for of in [Refusal::of, Refusal::of_reader] {
                let refusal = of(number, beside, 1);
                assert!(matches!(refusal, Refusal::Unknown { .. }));
                assert_eq!(refusal.number(), number);
            }
        }
    }

    /// What is needed stands beside 7; in the reader's, the list does.
    #[test]
    fn seven_has_two_meanings() {
        for (number, list) in
            [ListName::IdStart, ListName::IdContinue, ListName::Emoji].into_iter().enumerate()
        {
            let refusal = Refusal::of_reader(7, number, 41);
            assert_eq!(refusal, Refusal::ListRoom { list, needed: 41 });
            assert_eq!((refusal.number(), refusal.needed()), (7, Some(41)));
            assert_eq!(Refusal::of(7, number, 0), Refusal::Room { needed: number });
        }
        for beside in [3, 0x1_0000_0000, usize::MAX] {
            let unknown = Refusal::Unknown { number: 7, beside, second: 41 };
            assert_eq!(Refusal::of_reader(7, beside, 41), unknown);
        }
    }

    #[test]
    fn causes_go_both_ways() {
        for (second, cause) in [(1, Cause::Start), (2, Cause::Cut), (3, Cause::Follow)] {
            assert_eq!(Refusal::of(2, 41, second), Refusal::NotUtf8 { at: 41, cause });
            assert_eq!(cause.number() as usize, second);
        }
        // An archive from before there were causes gives 0; and no number is cut.
        for second in [0, 4, 0x101, 0x1_0000_0001, usize::MAX] {
            let unknown = Refusal::Unknown { number: 2, beside: 41, second };
            assert_eq!(Refusal::of(2, 41, second), unknown);
            assert_eq!((unknown.number(), unknown.cause()), (2, None));
        }
    }

    #[test]
    fn places() {
        for number in 1..=11 {
            let refusal = Refusal::of(number, 1, 3);
            assert_eq!(refusal.place(), [2, 4, 6, 10, 11].contains(&number).then_some(1));
            assert_eq!(refusal.needed(), [5, 7].contains(&number).then_some(1));
            assert_eq!(refusal.cause(), (number == 2).then_some(Cause::Follow));
        }
    }

    #[test]
    fn each_says_its_number() {
        for number in 1..=12 {
            for of in [Refusal::of, Refusal::of_reader] {
                let said = of(number, 2, 17).to_string();
                assert!(said.starts_with(&format!("refusal {number}: ")), "{said}");
            }
        }
        let said = Refusal::of(6, 41, 0).to_string();
        assert!(said.contains("byte 41 (counted from 0, each CR LF as one byte)"), "{said}");
        let said = Refusal::of(10, 41, 0).to_string();
        assert!(said.contains("at byte 41 (counted from 0) stands CR CR LF; "), "{said}");
        assert!(said.ends_with("write this line end as LF or CR LF"), "{said}");
        assert_eq!(Refusal::of(10, 41, 0), Refusal::DoubleReturn { at: 41 });
        let said = Refusal::of(11, 41, 0).to_string();
        assert!(
            said.contains(
                "at byte 41 (counted from 0) stands a hidden direction mark (U+202A to U+202E, U+2066 to \
                 U+2069), "
            ),
            "{said}"
        );
        assert!(said.ends_with("; delete it, or write it as an escape in a string"), "{said}");
        assert_eq!(Refusal::of(11, 41, 0), Refusal::HiddenMark { at: 41 });
        assert!(
            Refusal::of(3, 2, 17)
                .to_string()
                .contains("pair 17 (counted from 0) of the list `emoji`")
        );
        assert!(Refusal::of(7, 41, 0).to_string().contains(": 41 bytes "));
        assert!(Refusal::of(9, 41, 0).to_string().contains("line 41 (counted from 0) of the file"));
        let said = Refusal::of_reader(7, 1, 41).to_string();
        assert!(said.contains("the list `id continue`") && said.contains("41 numbers"), "{said}");
    }

    #[test]
    fn each_cause_has_its_words() {
        for (cause, wrong, advice) in [
            (Cause::Start, "no character begins with this byte", "save it as UTF-8"),
            (Cause::Cut, "the text ends inside a character", "cut off: fetch it again"),
            (Cause::Follow, "a later byte of it is wrong", "save it as UTF-8"),
        ] {
            assert!(cause.to_string().ends_with(wrong), "{cause}");
            let said = Refusal::NotUtf8 { at: 41, cause }.to_string();
            assert!(
                said.starts_with("refusal 2: the text is not UTF-8 from byte 41 on "),
                "{said}"
            );
            assert!(said.contains(&format!(": {cause}; ")) && said.ends_with(advice), "{said}");
        }
    }
}
