//! The oracle: answers of source document 000 and of Rust's own UTF-8 decoder.
//!
//! It reads one request a line from standard input and writes one line for each.
//! Numbers are hexadecimal without a prefix. TEXT is bytes as pairs of hexadecimal
//! digits; where it is missing the text is empty.
//!
//! | request                   | answer                                                     |
//! |---------------------------|------------------------------------------------------------|
//! | `list WHICH LOW HIGH ..`  | `ok`; lends the list; WHICH is `start`, `continue`, `emoji` |
//! | `utf8 TEXT`               | `good`, or `bad PLACE CAUSE`: the first ill-formed sequence |
//! | `utf8-after TEXT`         | 256 numbers, for TEXT and then byte 0, 1, ..: 0 or PLACE + 64 * CAUSE |
//! | `class NAME NUMBER`       | `yes`, `no`, or `none` where NUMBER is no scalar value     |
//! | `runs NAME`               | `LOW-HIGH=yes` or `LOW-HIGH=no`, separated by spaces          |
//! | `ident TEXT`              | `yes` or `no`                                              |
//! | `tokens ALLOWED TEXT`     | all tokens but Eof, separated by spaces; `-` where there is none |
//! | `steps ALLOWED TEXT`      | all tokens, Eof too, each with the flag after it           |
//! | `one ALLOWED PLACE TEXT`  | the token of a lexer that starts at PLACE, with the flag after it |
//! | `shebang TEXT`            | `none`, or the length of the shebang                       |
//! | `raw PREFIX TEXT`         | `ok`, or the error as below                                |
//! | `guarded PLACE TEXT`      | `none STANDS`, or `found HASHES TERMINATED LENGTH STANDS`  |
//!
//! NAME is `whitespace`, `horizontal`, `start`, `continue` or `emoji`. The runs are
//! the longest of equal answers, over all scalar values in order; none crosses the
//! surrogates. A request that is not understood is answered `error` and why.
//!
//! From `ident` on, a text that is not UTF-8 is answered `bad PLACE CAUSE` as `utf8` says; from
//! `tokens` on, a panic of 000 is answered `panic`.
//!
//! CAUSE is 2 where Rust's decoder says that the text ends too early. Else it is 3 where the decoder says so
//! of the sequence's first byte alone, which then starts a sequence, and 1 where it does not.
//!
//! ALLOWED says whether frontmatter is: `on` or `off`. A token is its kind, what the kind
//! holds in the order of 000's fields, and its length, separated by commas. What is missing
//! is `none`; a doc style is `outer` or `inner`: `Plus,1`, `Lifetime,false,2`,
//! `BlockComment,outer,true,6`, `Literal,RawStr,none,4,4`, `Literal,Int,Decimal,false,3,5`.
//! The flag after a token, `on` or `off`, follows its length: `Plus,1,off`, `Eof,0,on`.
//!
//! PREFIX counts characters. The errors are `InvalidStarter CHARACTER`, `NoTerminator
//! EXPECTED FOUND OFFSET` (OFFSET may be `none`) and `TooManyDelimiters FOUND`.
//!
//! PLACE is where the cursor starts in TEXT, and STANDS where it stands afterwards; both
//! count bytes from the start of TEXT. A PLACE that is no boundary of a character is an
//! `error`. LENGTH counts from PLACE.
//!
//! The lists are believed: a caller lends only lists that obey the rules.

mod tokens;

use std::io::{self, BufRead, Write};
use std::str::Utf8Error;

use rustc_lexer::FrontmatterAllowed;
use unicode_properties::UnicodeEmoji;

type Answer = Result<String, String>;

/// The first ill-formed sequence of a text: where it starts, and why it is none.
struct Ill {
    place: usize,
    cause: u8,
}

fn main() -> io::Result<()> {
    let mut out = io::stdout().lock();
    for line in io::stdin().lock().lines() {
        let line = line?;
        let words: Vec<&str> = line.split_ascii_whitespace().collect();
        let answer = answer(&words).unwrap_or_else(|why| format!("error {why}"));
        writeln!(out, "{answer}")?;
        // A caller may wait for each answer before it asks again.
        out.flush()?;
    }
    Ok(())
}

fn answer(words: &[&str]) -> Answer {
    match words {
        ["list", which, numbers @ ..] => lend(which, numbers),
        ["utf8", text @ ..] => Ok(match utf8(&bytes(text)?) {
            Ok(_) => "good".to_string(),
            Err(ill) => bad(ill),
        }),
        ["utf8-after", text @ ..] => Ok(utf8_after(&bytes(text)?)),
        ["class", name, point] => {
            let class = class(name)?;
            Ok(match char::from_u32(number(point)?) {
                Some(c) => yes_no(class(c)).to_string(),
                None => "none".to_string(),
            })
        }
        ["runs", name] => Ok(runs(class(name)?)),
        ["ident", text @ ..] => {
            about(text, |text| Ok(yes_no(rustc_lexer::is_ident(text)).to_string()))
        }
        ["tokens", allowed, text @ ..] => {
            let allowed = frontmatter(allowed)?;
            about(text, |text| Ok(tokens::tokens(text, allowed)))
        }
        ["steps", allowed, text @ ..] => {
            let allowed = frontmatter(allowed)?;
            about(text, |text| Ok(tokens::steps(text, allowed)))
        }
        ["one", allowed, place, text @ ..] => {
            let (allowed, place) = (frontmatter(allowed)?, number(place)? as usize);
            about(text, |text| boundary(text, place).map(|()| tokens::one(text, place, allowed)))
        }
        ["shebang", text @ ..] => about(text, |text| Ok(tokens::shebang(text))),
        ["raw", prefix, text @ ..] => {
            let prefix = number(prefix)?;
            about(text, |text| Ok(tokens::raw(text, prefix)))
        }
        ["guarded", place, text @ ..] => {
            let place = number(place)? as usize;
            about(text, |text| boundary(text, place).map(|()| tokens::guarded(text, place)))
        }
        _ => Err("unknown request".to_string()),
    }
}

/// The answer about a text, or where and why it ceases to be UTF-8.
fn about(words: &[&str], call: impl FnOnce(&str) -> Answer) -> Answer {
    match utf8(&bytes(words)?) {
        Ok(text) => call(text),
        Err(ill) => Ok(bad(ill)),
    }
}

fn boundary(text: &str, place: usize) -> Result<(), String> {
    if text.is_char_boundary(place) { Ok(()) } else { Err(format!("no boundary: {place:x}")) }
}

fn frontmatter(word: &str) -> Result<FrontmatterAllowed, String> {
    match word {
        "on" => Ok(FrontmatterAllowed::Yes),
        "off" => Ok(FrontmatterAllowed::No),
        _ => Err(format!("neither on nor off: {word}")),
    }
}

fn yes_no(answer: bool) -> &'static str {
    if answer { "yes" } else { "no" }
}

fn number(word: &str) -> Result<u32, String> {
    u32::from_str_radix(word, 16).map_err(|_| format!("no number: {word}"))
}

fn bytes(words: &[&str]) -> Result<Vec<u8>, String> {
    let digits = match words {
        [] => "",
        [digits] => digits,
        _ => return Err("more than one text".to_string()),
    };
    if !digits.is_ascii() || digits.len() % 2 != 0 {
        return Err("no text".to_string());
    }
    (0..digits.len())
        .step_by(2)
        .map(|at| u8::from_str_radix(&digits[at..at + 2], 16).map_err(|_| "no text".to_string()))
        .collect()
}

fn lend(which: &str, numbers: &[&str]) -> Answer {
    if numbers.len() % 2 != 0 {
        return Err("half a pair".to_string());
    }
    let mut list = Vec::new();
    for pair in numbers.chunks(2) {
        list.push((number(pair[0])?, number(pair[1])?));
    }
    match which {
        "start" => unicode_ident::lend_start(list),
        "continue" => unicode_ident::lend_continue(list),
        "emoji" => unicode_properties::lend_emoji(list),
        _ => return Err(format!("no list: {which}")),
    }
    Ok("ok".to_string())
}

/// The text, or its first ill-formed sequence.
fn utf8(text: &[u8]) -> Result<&str, Ill> {
    std::str::from_utf8(text).map_err(|error| {
        let place = error.valid_up_to();
        Ill { place, cause: cause(&error, text[place]) }
    })
}

/// Why a sequence with that first byte is none, as the decoder says it.
fn cause(error: &Utf8Error, first: u8) -> u8 {
    let ends_early = |error: &Utf8Error| error.error_len().is_none();
    if ends_early(error) {
        return 2;
    }
    match std::str::from_utf8(&[first]) {
        Err(alone) if ends_early(&alone) => 3,
        _ => 1,
    }
}

fn bad(ill: Ill) -> String {
    format!("bad {:x} {}", ill.place, ill.cause)
}

fn utf8_after(prefix: &[u8]) -> String {
    let mut text = prefix.to_vec();
    text.push(0);
    let last = prefix.len();
    let verdicts: Vec<String> = (0..=255u8)
        .map(|byte| {
            text[last] = byte;
            match utf8(&text) {
                Ok(_) => "0".to_string(),
                Err(ill) => format!("{:x}", ill.place + 64 * usize::from(ill.cause)),
            }
        })
        .collect();
    verdicts.join(" ")
}

fn class(name: &str) -> Result<fn(char) -> bool, String> {
    match name {
        "whitespace" => Ok(rustc_lexer::is_whitespace),
        "horizontal" => Ok(rustc_lexer::is_horizontal_whitespace),
        "start" => Ok(rustc_lexer::is_id_start),
        "continue" => Ok(rustc_lexer::is_id_continue),
        "emoji" => Ok(is_emoji),
        _ => Err(format!("no class: {name}")),
    }
}

// The guard that 000 writes wherever it asks about emoji.
fn is_emoji(c: char) -> bool {
    !c.is_ascii() && c.is_emoji_char()
}

fn runs(class: fn(char) -> bool) -> String {
    let mut runs: Vec<(u32, u32, bool)> = Vec::new();
    for c in '\0'..=char::MAX {
        let point = c as u32;
        let answer = class(c);
        match runs.last_mut() {
            Some((_, high, same)) if *high + 1 == point && *same == answer => *high = point,
            _ => runs.push((point, point, answer)),
        }
    }
    let words: Vec<String> = runs
        .iter()
        .map(|&(low, high, answer)| format!("{low:x}-{high:x}={}", yes_no(answer)))
        .collect();
    words.join(" ")
}
