//! The functions of the archive, as `bindings/c/lovemudarn.h` declares them for C. A slice goes in
//! as a pointer and a count.

/// An answer by number: the refusal's number, 0 for done, and the two numbers beside it.
#[repr(C)]
#[derive(Clone, Copy)]
pub struct Answer {
    pub number: u32,
    pub beside: usize,
    pub second: usize,
}

#[repr(C)]
#[derive(Clone, Copy)]
pub struct TokenAnswer {
    pub number: u32,
    pub beside: usize,
    pub second: usize,
    pub kind: u32,
    pub suffix_start: u32,
    pub len: u32,
    pub start: usize,
    pub line: u32,
    pub next: usize,
    pub on: bool,
}

#[repr(C)]
#[derive(Clone, Copy)]
pub struct RunAnswer {
    pub number: u32,
    pub beside: usize,
    pub second: usize,
    pub tokens: usize,
    pub next: usize,
    pub on: bool,
}

#[repr(C)]
#[derive(Clone, Copy)]
pub struct RawStrAnswer {
    pub number: u32,
    pub beside: usize,
    pub second: usize,
    pub check: u32,
    pub bad_char: u32,
    pub expected: u32,
    pub found: u32,
    pub has_offset: bool,
    pub offset: u32,
}

#[repr(C)]
#[derive(Clone, Copy)]
pub struct GuardedStrAnswer {
    pub number: u32,
    pub beside: usize,
    pub second: usize,
    pub found: bool,
    pub n_hashes: u32,
    pub terminated: bool,
    pub token_len: u32,
    pub next: usize,
}

#[repr(C)]
#[derive(Clone, Copy)]
pub struct ListsAnswer {
    pub number: u32,
    pub beside: usize,
    pub second: usize,
    pub major: u32,
    pub minor: u32,
    pub update: u32,
    pub starts: usize,
    pub continues: usize,
    pub emoji: usize,
}

unsafe extern "C" {
    pub fn lovemudarn_token(
        text: *const u8,
        text_len: usize,
        starts: *const u32,
        starts_len: usize,
        continues: *const u32,
        continues_len: usize,
        emoji: *const u32,
        emoji_len: usize,
        at: usize,
        on: bool,
    ) -> TokenAnswer;

    pub fn lovemudarn_tokens(
        text: *const u8,
        text_len: usize,
        starts: *const u32,
        starts_len: usize,
        continues: *const u32,
        continues_len: usize,
        emoji: *const u32,
        emoji_len: usize,
        on: bool,
        slots: *mut u32,
        slots_len: usize,
    ) -> Answer;

    pub fn lovemudarn_tokens_from(
        text: *const u8,
        text_len: usize,
        starts: *const u32,
        starts_len: usize,
        continues: *const u32,
        continues_len: usize,
        emoji: *const u32,
        emoji_len: usize,
        at: usize,
        on: bool,
        slots: *mut u32,
        slots_len: usize,
    ) -> RunAnswer;

    pub fn lovemudarn_key(
        text: *const u8,
        text_len: usize,
        starts: *const u32,
        starts_len: usize,
        continues: *const u32,
        continues_len: usize,
        emoji: *const u32,
        emoji_len: usize,
        out: *mut u8,
        out_len: usize,
    ) -> Answer;

    pub fn lovemudarn_read_lists(
        file: *const u8,
        file_len: usize,
        starts: *mut u32,
        starts_len: usize,
        continues: *mut u32,
        continues_len: usize,
        emoji: *mut u32,
        emoji_len: usize,
    ) -> ListsAnswer;

    pub fn lovemudarn_write_lists(
        major: u32,
        minor: u32,
        update: u32,
        starts: *const u32,
        starts_len: usize,
        continues: *const u32,
        continues_len: usize,
        emoji: *const u32,
        emoji_len: usize,
        out: *mut u8,
        out_len: usize,
    ) -> Answer;

    pub fn lovemudarn_check(
        text: *const u8,
        text_len: usize,
        starts: *const u32,
        starts_len: usize,
        continues: *const u32,
        continues_len: usize,
        emoji: *const u32,
        emoji_len: usize,
    ) -> Answer;

    pub fn lovemudarn_is_ident(
        text: *const u8,
        text_len: usize,
        starts: *const u32,
        starts_len: usize,
        continues: *const u32,
        continues_len: usize,
    ) -> Answer;

    pub fn lovemudarn_strip_shebang(text: *const u8, text_len: usize) -> Answer;

    pub fn lovemudarn_validate_raw_str(
        text: *const u8,
        text_len: usize,
        prefix: usize,
    ) -> RawStrAnswer;

    pub fn lovemudarn_guarded(
        text: *const u8,
        text_len: usize,
        starts: *const u32,
        starts_len: usize,
        continues: *const u32,
        continues_len: usize,
        at: usize,
    ) -> GuardedStrAnswer;

    // These two take a number and give a truth value: no pointer, so nothing is asked of a caller.
    pub safe fn lovemudarn_is_whitespace(c: u32) -> bool;
    pub safe fn lovemudarn_is_horizontal_whitespace(c: u32) -> bool;

    pub fn lovemudarn_is_id_start(c: u32, starts: *const u32, starts_len: usize) -> Answer;
    pub fn lovemudarn_is_id_continue(c: u32, continues: *const u32, continues_len: usize)
    -> Answer;
    pub fn lovemudarn_is_emoji_char(c: u32, emoji: *const u32, emoji_len: usize) -> Answer;
}
