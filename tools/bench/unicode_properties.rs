//! Stands in for the crate `unicode_properties`: the emoji property comes from a lent list, which is
//! searched by halving, as the crate's table is.

use std::cmp::Ordering;
use std::sync::OnceLock;

/// 000 only asks that both Unicode crates name the same version.
pub const UNICODE_VERSION: (u64, u64, u64) = (0, 0, 0);

static EMOJI: OnceLock<Vec<[u32; 2]>> = OnceLock::new();

/// The list for the whole run: pairs of low and high code point, as numbers in turn.
pub fn lend(emoji: &[u32]) {
    EMOJI.get_or_init(|| emoji.chunks(2).map(|pair| [pair[0], pair[1]]).collect());
}

pub trait UnicodeEmoji {
    fn is_emoji_char(self) -> bool;
}

impl UnicodeEmoji for char {
    #[inline]
    fn is_emoji_char(self) -> bool {
        let point = self as u32;
        let place = |&[low, high]: &[u32; 2]| {
            if high < point {
                Ordering::Less
            } else if point < low {
                Ordering::Greater
            } else {
                Ordering::Equal
            }
        };
        !self.is_ascii() && EMOJI.get().is_some_and(|list| list.binary_search_by(place).is_ok())
    }
}
