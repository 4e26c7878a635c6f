//! Times the archive beside rustc's lexer ("000") in one process, on the same texts and lists, in turn. Where
//! it is built with `--cfg before`, a second archive is timed in the same turns: the one of another checkout.
//!
//!     bench [--rounds N]                     the table
//!     bench profile WORK SIDE TEXT KIB N     one of them N times, for a profiler
//!
//!     bench text KIB TEXT                    the text itself
//!
//! WORK is key, tokens or check; SIDE is rattle, 000 or before; TEXT is ascii, mixed, names or crlf.
//!
//! All sides take bytes. "key" is the key into a lent buffer; 000 has none, so there it is 000's
//! `tokenize` and, in the same pass, the key by the scope paper's words, in plain Rust. It is the key of the
//! text with each CR LF as LF: a text without a CR is read as it is, another is first written so into a
//! buffer that is kept. A text with a hidden direction mark has no key: 000 does not look for them, so there a
//! search comes first. (Another checkout may key the text as it stands: then it does less.) "tokens" is the
//! kind, suffix, length, start and line of every token into a lent buffer; 000 has no lines, so there the
//! LFs of each token are counted, in plain Rust. (Another checkout may have records without lines: then it
//! does less.) "check" is what comes before the tokens: UTF-8 and the rules of the lists, for 000
//! `from_utf8`, and it is part of the other two.

mod lists;
mod source;

use std::env;
use std::hint::black_box;
use std::process::ExitCode;
use std::time::Instant;

use lists::pairs;
use lovemudarn::{Lists, Record};
use memchr::memchr;
use rustc_lexer::{LiteralKind, TokenKind};
use source::{Choice, source};

// ---- 000's side ----

fn is_trivia(kind: TokenKind) -> bool {
    matches!(
        kind,
        TokenKind::Whitespace
            | TokenKind::LineComment { doc_style: None }
            | TokenKind::BlockComment { doc_style: None, .. }
    )
}

fn is_broken(kind: TokenKind) -> bool {
    match kind {
        TokenKind::BlockComment { terminated, .. } => !terminated,
        TokenKind::Literal { kind, .. } => match kind {
            LiteralKind::Int { .. } | LiteralKind::Float { .. } => false,
            LiteralKind::Char { terminated }
            | LiteralKind::Byte { terminated }
            | LiteralKind::Str { terminated }
            | LiteralKind::ByteStr { terminated }
            | LiteralKind::CStr { terminated } => !terminated,
            LiteralKind::RawStr { n_hashes }
            | LiteralKind::RawByteStr { n_hashes }
            | LiteralKind::RawCStr { n_hashes } => n_hashes.is_none(),
        },
        _ => false,
    }
}

/// Whether one of the nine hidden direction marks stands in the text. Each has three bytes, of which the first is E2.
fn has_hidden(text: &str) -> bool {
    let mut rest = text.as_bytes();
    while let Some(at) = memchr(0xE2, rest) {
        if matches!(rest[at + 1..at + 3], [0x80, 0xAA..=0xAE] | [0x81, 0xA6..=0xA9]) {
            return true;
        }
        rest = &rest[at + 3..];
    }
    false
}

/// The text with each CR LF as LF, in the buffer where that is not the text itself. `None` where it has CR CR LF.
fn replaced<'a>(text: &'a str, buffer: &'a mut String) -> Option<&'a str> {
    let Some(mut at) = memchr(b'\r', text.as_bytes()) else {
        return Some(text);
    };
    buffer.clear();
    let mut rest = text;
    loop {
        let after = &rest[at + 1..];
        if after.starts_with("\r\n") {
            return None;
        }
        // The CR goes where LF follows, and stays elsewhere.
        let kept = if after.starts_with('\n') { at } else { at + 1 };
        buffer.push_str(&rest[..kept]);
        rest = after;
        let Some(next) = memchr(b'\r', rest.as_bytes()) else {
            break;
        };
        at = next;
    }
    buffer.push_str(rest);
    Some(buffer)
}

/// The bytes of the key. `None` where there is none, or where it has no room.
fn their_key(bytes: &[u8], buffer: &mut String, out: &mut [u8]) -> Option<usize> {
    let text = std::str::from_utf8(bytes).ok()?;
    if has_hidden(text) {
        return None;
    }
    let text = replaced(text, buffer)?;
    let (mut at, mut used, mut gap) = (0, 0, false);
    for token in rustc_lexer::tokenize(text, rustc_lexer::FrontmatterAllowed::No) {
        let next = at + token.len as usize;
        if is_broken(token.kind) {
            return None;
        }
        let trivia = is_trivia(token.kind);
        if !trivia {
            let piece = &text.as_bytes()[at..next];
            out.get_mut(used..used + piece.len())?.copy_from_slice(piece);
            used += piece.len();
        } else if !gap {
            *out.get_mut(used)? = b'\n';
            used += 1;
        }
        gap = trivia;
        at = next;
    }
    Some(used)
}

#[derive(Clone, Copy)]
struct Theirs {
    kind: TokenKind,
    len: u32,
    start: u32,
    line: u32,
}

fn their_tokens(bytes: &[u8], out: &mut [Theirs]) -> Option<usize> {
    let text = std::str::from_utf8(bytes).ok()?;
    let (mut start, mut line, mut count) = (0, 0, 0);
    for token in rustc_lexer::tokenize(text, rustc_lexer::FrontmatterAllowed::No) {
        *out.get_mut(count)? = Theirs { kind: token.kind, len: token.len, start, line };
        let piece = &bytes[start as usize..(start + token.len) as usize];
        line += piece.iter().filter(|&&byte| byte == b'\n').count() as u32;
        start += token.len;
        count += 1;
    }
    Some(count)
}

// ---- lists ----

fn is_picture(c: char) -> bool {
    matches!(c, '\u{2600}'..='\u{27bf}' | '\u{1f300}'..='\u{1f64f}' | '\u{1f680}'..='\u{1f6ff}' | '\u{1f900}'..='\u{1f9ff}')
}

// ---- the archive's side ----

/// A work on the text of a bench, by a crate over an archive: this one's or the one before, whose records
/// may have another width.
macro_rules! archive {
    ($lib:ident, $bench:ident, $records:ident, $work:ident, $text:ident) => {{
        let Lists { id_start, id_continue, emoji } = $bench.lists;
        let lists = $lib::Lists { id_start, id_continue, emoji };
        let (off, out) = ($lib::FrontmatterAllowed::No, &mut $bench.ours);
        match $work {
            Work::Key => $lib::key_into($text, &lists, out).ok(),
            Work::KeyCleared => {
                black_box(&mut *out).fill(0);
                $lib::key_into($text, &lists, out).ok()
            }
            Work::Tokens => $lib::tokenize_into($text, off, &lists, &mut $bench.$records).ok(),
            Work::Check => $lib::check($text, &lists).ok().map(|()| 0),
        }
    }};
}

/// Whether the records that a crate over an archive wrote are 000's tokens, but for the lines.
macro_rules! same_tokens {
    ($lib:ident, $bench:ident, $records:ident, $tokens:ident) => {
        $bench.$records[..$tokens].iter().zip(&$bench.their_records).all(|(&ours, theirs)| {
            // The kinds have the same names and fields.
            $lib::token_of(ours).is_ok_and(|token| {
                (token.len, token.start) == (theirs.len, theirs.start as usize)
                    && format!("{:?}", token.kind) == format!("{:?}", theirs.kind)
            })
        })
    };
}

/// Records of an archive before a work, of whatever width.
fn blank<const N: usize>(count: usize) -> Vec<[u32; N]> {
    vec![[1; N]; count]
}

// ---- one text, with the buffers of the archive's side and of 000's ----

struct Bench<'a> {
    text: Vec<u8>,
    lists: Lists<'a>,
    ours: Vec<u8>,
    theirs: Vec<u8>,
    their_replaced: String,
    our_records: Vec<Record>,
    #[cfg(before)]
    before_records: Vec<before::Record>,
    their_records: Vec<Theirs>,
}

#[derive(Clone, Copy, PartialEq)]
enum Work {
    Key,
    KeyCleared,
    Tokens,
    Check,
}

#[derive(Clone, Copy, PartialEq)]
enum Side {
    Rattle,
    Rust,
    #[cfg(before)]
    Before,
}

const SIDES: &[(Side, &str)] = &[
    (Side::Rattle, "Rattle"),
    (Side::Rust, "000"),
    #[cfg(before)]
    (Side::Before, "before"),
];

fn archives() -> impl Iterator<Item = &'static (Side, &'static str)> {
    SIDES.iter().filter(|(side, _)| *side != Side::Rust)
}

impl Bench<'_> {
    fn new<'a>(text: String, lists: Lists<'a>) -> Bench<'a> {
        let text = text.into_bytes();
        let (bytes, tokens) = (text.len(), text.len() / 2);
        let eof = Theirs { kind: TokenKind::Eof, len: 0, start: 0, line: 0 };
        Bench {
            text,
            lists,
            ours: vec![1; bytes],
            theirs: vec![1; bytes],
            their_replaced: String::with_capacity(bytes),
            our_records: blank(tokens),
            #[cfg(before)]
            before_records: blank(tokens),
            their_records: vec![eof; tokens],
        }
    }

    /// Does the work once and gives a number that depends on it.
    fn run(&mut self, work: Work, side: Side) -> Option<usize> {
        let text = black_box(&self.text[..]);
        match (side, work) {
            (Side::Rattle, work) => archive!(lovemudarn, self, our_records, work, text),
            #[cfg(before)]
            (Side::Before, work) => archive!(before, self, before_records, work, text),
            (Side::Rust, Work::Key) => their_key(text, &mut self.their_replaced, &mut self.theirs),
            (Side::Rust, Work::KeyCleared) => {
                black_box(&mut self.theirs).fill(0);
                their_key(text, &mut self.their_replaced, &mut self.theirs)
            }
            (Side::Rust, Work::Tokens) => their_tokens(text, &mut self.their_records),
            (Side::Rust, Work::Check) => std::str::from_utf8(text).ok().map(str::len).map(|_| 0),
        }
    }

    /// The bytes of the key and the tokens, where every archive gives those of 000.
    fn agree(&mut self) -> Option<(usize, usize)> {
        #[cfg(before)]
        self.agrees(Side::Before)?;
        self.agrees(Side::Rattle)
    }

    fn agrees(&mut self, side: Side) -> Option<(usize, usize)> {
        // Nothing is left of what another archive wrote.
        self.ours.fill(1);
        let key = self.run(Work::Key, side)?;
        let theirs = self.run(Work::Key, Side::Rust)?;
        // Another checkout may key the text as it stands.
        let compared = side == Side::Rattle || !self.text.contains(&b'\r');
        if compared && self.ours[..key] != self.theirs[..theirs] {
            return None;
        }
        let tokens = self.run(Work::Tokens, side)?;
        if self.run(Work::Tokens, Side::Rust)? != tokens {
            return None;
        }
        let same = match side {
            Side::Rattle => {
                same_tokens!(lovemudarn, self, our_records, tokens) && self.same_lines(tokens)
            }
            #[cfg(before)]
            Side::Before => same_tokens!(before, self, before_records, tokens),
            Side::Rust => true,
        };
        same.then_some((key, tokens))
    }

    /// Whether the lines of the archive's records are those that were counted beside 000.
    fn same_lines(&self, tokens: usize) -> bool {
        self.our_records[..tokens].iter().zip(&self.their_records).all(|(&ours, theirs)| {
            lovemudarn::token_of(ours).is_ok_and(|token| token.line == theirs.line)
        })
    }

    fn time(&mut self, work: Work, side: Side) -> f64 {
        let began = Instant::now();
        black_box(self.run(work, side));
        began.elapsed().as_secs_f64() * 1e6
    }
}

/// The middle, and what nine of ten are below.
fn middle_and_most(mut times: Vec<f64>) -> (f64, f64) {
    times.sort_by(f64::total_cmp);
    (times[times.len() / 2], times[times.len() * 9 / 10])
}

/// The heads of the columns of a table, and the line below them.
fn heads() -> String {
    let mut heads = vec!["text".to_string(), "KiB".into(), "work".into(), "buffer".into()];
    for (_, name) in SIDES {
        heads.extend([format!("{name} µs"), "p90".into(), "ns/byte".into()]);
    }
    heads.extend(archives().map(|(_, name)| format!("{name} / 000")));
    format!("| {} |\n|{}", heads.join(" | "), "---|".repeat(heads.len()))
}

fn table(rounds: usize, lists: Lists) -> Result<(), String> {
    println!("{}", heads());
    for (name, choice) in TEXTS {
        let once = choice == Choice::Names || choice == Choice::CrLf;
        let sizes: &[usize] = if once { &[64] } else { &[16, 32, 64, 128] };
        for &kib in sizes {
            let text = source(kib * 1024, choice);
            let mut bench = Bench::new(text, lists);
            bench.agree().ok_or(format!("{name}, {kib} KiB: the sides differ"))?;
            let mut work = vec![(Work::Key, "key", "as left")];
            if kib == 64 && !once {
                work.push((Work::KeyCleared, "key", "cleared"));
                work.push((Work::Check, "check", "none"));
            }
            work.push((Work::Tokens, "tokens", "as left"));
            let mut times = vec![vec![Vec::new(); SIDES.len()]; work.len()];
            for round in 0..rounds + 5 {
                for (at, &(work, _, _)) in work.iter().enumerate() {
                    // Each side goes first in its turn.
                    for turn in 0..SIDES.len() {
                        let (side, _) = SIDES[(round + turn) % SIDES.len()];
                        let took = bench.time(work, side);
                        // The first rounds warm up.
                        if round >= 5 {
                            times[at][side as usize].push(took);
                        }
                    }
                }
            }
            for ((_, what, buffer), times) in work.into_iter().zip(times) {
                let times: Vec<(f64, f64)> = times.into_iter().map(middle_and_most).collect();
                print!("| {name} | {kib} | {what} | {buffer} |");
                for (middle, most) in &times {
                    let a_byte = middle * 1000.0 / (kib * 1024) as f64;
                    print!(" {middle:.0} | {most:.0} | {a_byte:.1} |");
                }
                for &(side, _) in archives() {
                    print!(" {:.1} |", times[side as usize].0 / times[Side::Rust as usize].0);
                }
                println!();
            }
        }
    }
    println!();
    for (name, choice) in TEXTS {
        let text = source(64 * 1024, choice);
        let past = text.bytes().filter(|byte| !byte.is_ascii()).count();
        let mut bench = Bench::new(text, lists);
        let (key, tokens) = bench.agree().ok_or("the sides differ")?;
        println!(
            "{name}, 64 KiB: {tokens} tokens, a key of {key} bytes, {past} bytes outside ASCII"
        );
    }
    println!(
        "lists: {}, {} and {} pairs; {rounds} rounds, the sides in turn",
        lists.id_start.len() / 2,
        lists.id_continue.len() / 2,
        lists.emoji.len() / 2
    );
    Ok(())
}

const TEXTS: [(&str, Choice); 4] = [
    ("ASCII", Choice::Ascii),
    ("mixed", Choice::Mixed),
    ("names", Choice::Names),
    ("CRLF", Choice::CrLf),
];

fn choice(word: &str) -> Result<Choice, String> {
    let named = TEXTS.iter().find(|(name, _)| name.eq_ignore_ascii_case(word));
    named.map(|&(_, choice)| choice).ok_or(format!("no text: {word}"))
}

fn profile(words: &[&str], lists: Lists) -> Result<(), String> {
    let &[work, side, text, kib, count] = words else {
        return Err("usage: bench profile WORK SIDE TEXT KIB N".to_string());
    };
    let work = match work {
        "key" => Work::Key,
        "tokens" => Work::Tokens,
        "check" => Work::Check,
        _ => return Err(format!("no work: {work}")),
    };
    let named = SIDES.iter().find(|(_, name)| name.eq_ignore_ascii_case(side));
    let &(side, _) = named.ok_or(format!("no side: {side}"))?;
    let number = |word: &str| word.parse::<usize>().map_err(|_| format!("no number: {word}"));
    let mut bench = Bench::new(source(number(kib)? * 1024, choice(text)?), lists);
    let count = number(count)?;
    if count == 0 {
        return Err("0 times is nothing".to_string());
    }
    for _ in 0..count {
        black_box(bench.run(work, side)).ok_or("refused")?;
    }
    Ok(())
}

fn start() -> Result<(), String> {
    let words: Vec<String> = env::args().skip(1).collect();
    let words: Vec<&str> = words.iter().map(String::as_str).collect();
    if let ["text", kib, text] = words[..] {
        let kib: usize = kib.parse().map_err(|_| format!("no number: {kib}"))?;
        print!("{}", source(kib * 1024, choice(text)?));
        return Ok(());
    }
    let (id_start, id_continue, emoji) =
        (pairs(char::is_alphabetic), pairs(char::is_alphanumeric), pairs(is_picture));
    unicode_ident::lend(&id_start, &id_continue);
    unicode_properties::lend(&emoji);
    let lists = Lists { id_start: &id_start, id_continue: &id_continue, emoji: &emoji };
    match words[..] {
        [] => table(300, lists),
        ["--rounds", rounds] => {
            let rounds: usize = rounds.parse().map_err(|_| format!("no number: {rounds}"))?;
            table(rounds.max(1), lists)
        }
        ["profile", ref rest @ ..] => profile(rest, lists),
        _ => Err(
            "usage: bench [--rounds N] | bench profile WORK SIDE TEXT KIB N | bench text KIB TEXT"
                .to_string(),
        ),
    }
}

fn main() -> ExitCode {
    match start() {
        Ok(()) => ExitCode::SUCCESS,
        Err(why) => {
            eprintln!("bench: {why}");
            ExitCode::FAILURE
        }
    }
}
