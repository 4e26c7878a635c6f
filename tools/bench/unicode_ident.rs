//! Stands in for the crate `unicode_ident`: from 0x80 on the answers come from lent lists, by the same
//! kind of table as the crate's, a bit for each code point in blocks of 512, equal blocks kept once.

use std::sync::OnceLock;

/// 000 only asks that both Unicode crates name the same version.
pub const UNICODE_VERSION: (u8, u8, u8) = (0, 0, 0);

const BLOCK: u32 = 512;

struct Table {
    block_of: Vec<u8>,
    blocks: Vec<[u8; BLOCK as usize / 8]>,
}

static START: OnceLock<Table> = OnceLock::new();
static CONTINUE: OnceLock<Table> = OnceLock::new();

/// The lists for the whole run: pairs of low and high code point, as numbers in turn.
pub fn lend(id_start: &[u32], id_continue: &[u32]) {
    START.get_or_init(|| table(id_start));
    CONTINUE.get_or_init(|| table(id_continue));
}

fn table(list: &[u32]) -> Table {
    let mut table = Table { block_of: Vec::new(), blocks: Vec::new() };
    for first in (0..0x110000).step_by(BLOCK as usize) {
        let mut block = [0; BLOCK as usize / 8];
        for pair in list.chunks(2) {
            for point in pair[0].max(first)..=pair[1].min(first + BLOCK - 1) {
                block[(point - first) as usize / 8] |= 1 << (point % 8);
            }
        }
        let known = table.blocks.iter().position(|other| *other == block).unwrap_or_else(|| {
            table.blocks.push(block);
            table.blocks.len() - 1
        });
        table.block_of.push(u8::try_from(known).expect("at most 256 different blocks"));
    }
    table
}

#[inline]
fn listed(table: &OnceLock<Table>, c: char) -> bool {
    let point = c as u32;
    let Some(table) = table.get() else { return false };
    let Some(&block) = table.block_of.get((point / BLOCK) as usize) else { return false };
    let bits = table.blocks[block as usize][(point % BLOCK) as usize / 8];
    bits >> (point % 8) & 1 == 1
}

#[inline]
pub fn is_xid_start(c: char) -> bool {
    if c.is_ascii() { c.is_ascii_alphabetic() } else { listed(&START, c) }
}

#[inline]
pub fn is_xid_continue(c: char) -> bool {
    if c.is_ascii() { c.is_ascii_alphanumeric() || c == '_' } else { listed(&CONTINUE, c) }
}
