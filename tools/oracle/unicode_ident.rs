//! Stands in for the crate `unicode_ident`: from 0x80 on the answers come from
//! lists that the program lends at run time, in place of the crate's tables.

use std::sync::RwLock;

/// 000 only asks that both Unicode crates name the same version.
pub const UNICODE_VERSION: (u8, u8, u8) = (0, 0, 0);

/// Pairs of low and high code point, both included.
pub type List = Vec<(u32, u32)>;

static START: RwLock<List> = RwLock::new(Vec::new());
static CONTINUE: RwLock<List> = RwLock::new(Vec::new());

pub fn lend_start(list: List) {
    *START.write().unwrap() = list;
}

pub fn lend_continue(list: List) {
    *CONTINUE.write().unwrap() = list;
}

pub fn is_xid_start(c: char) -> bool {
    if c.is_ascii() { c.is_ascii_alphabetic() } else { listed(&START, c) }
}

pub fn is_xid_continue(c: char) -> bool {
    if c.is_ascii() { c.is_ascii_alphanumeric() || c == '_' } else { listed(&CONTINUE, c) }
}

// A plain walk: the oracle is to be seen right, not to be fast.
fn listed(list: &RwLock<List>, c: char) -> bool {
    let point = c as u32;
    list.read().unwrap().iter().any(|&(low, high)| low <= point && point <= high)
}
