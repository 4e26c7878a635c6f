//! Stands in for the crate `unicode_properties`: the emoji property comes from
//! a list that the program lends at run time, in place of the crate's table.

use std::sync::RwLock;

/// 000 only asks that both Unicode crates name the same version.
pub const UNICODE_VERSION: (u64, u64, u64) = (0, 0, 0);

/// Pairs of low and high code point, both included.
pub type List = Vec<(u32, u32)>;

static EMOJI: RwLock<List> = RwLock::new(Vec::new());

pub fn lend_emoji(list: List) {
    *EMOJI.write().unwrap() = list;
}

pub trait UnicodeEmoji {
    fn is_emoji_char(self) -> bool;
}

impl UnicodeEmoji for char {
    // 000 asks about characters outside ASCII only; below 0x80 nothing is emoji.
    fn is_emoji_char(self) -> bool {
        let point = self as u32;
        !self.is_ascii()
            && EMOJI.read().unwrap().iter().any(|&(low, high)| low <= point && point <= high)
    }
}
