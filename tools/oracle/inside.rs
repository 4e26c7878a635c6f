//! Source document 000 as a module of this crate, unchanged. The frontmatter flag of its
//! cursor is shared with its own crate only; here that is this crate, which tells the flag.

#[path = "lexer.rs"]
mod lexer;

pub use lexer::*;

/// Whether the next token may be frontmatter.
pub fn allows_frontmatter(cursor: &Cursor) -> bool {
    matches!(cursor.frontmatter_allowed, FrontmatterAllowed::Yes)
}
