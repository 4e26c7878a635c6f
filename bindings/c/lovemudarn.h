/* Lovemudarn for C99: the calls of the archive liblovemudarn.a, for Linux on x86-64 or on Arm. tools/native-archive makes it.
 * The promises of these calls are proved: crates/exports, whose definitions this page puts into words.
 *
 * SLICES. A slice goes in as two arguments: a pointer to its first element, and the number of its elements (bytes of a text or a buffer, numbers of a
 * list or a run). A count may be 0. Nothing is then read or written through the pointer, but it must not be NULL, and must be aligned as an element is: the
 * address of any variable of the element's type will do. Where the count is not 0 the elements must be there, and those of a slice that is not const must
 * lie apart from those of every other slice of the call. A call keeps no pointer, allocates nothing, and calls no function outside the archive.
 *
 * TEXT. The bytes of the text; no 0 ends them, and a byte 0 is a character like others. Positions and lengths count bytes.
 *
 * LINES. The line of a token is the number of bytes 0A (LF) before its start, so that the first line is line 0. Nothing else ends a line: a CR alone does not,
 * nor does U+2028. A token that goes on over LFs is in the line in which it starts.
 *
 * LINE ENDS. THE KEY IS OF THE REPLACED TEXT: from the left, each CR LF (0D 0A) becomes LF, each byte used once. A CR alone stays. So a text and the same text
 * with CR LF line ends have one key, and no key has a CR LF. The calls on tokens, shebangs and strings read the text as it was lent, CR and all.
 *
 * HIDDEN MARKS. Nine characters set the direction of what follows them and cannot be seen: U+202A LEFT-TO-RIGHT EMBEDDING, U+202B RIGHT-TO-LEFT EMBEDDING, U+202C
 * POP DIRECTIONAL FORMATTING, U+202D LEFT-TO-RIGHT OVERRIDE, U+202E RIGHT-TO-LEFT OVERRIDE, U+2066 LEFT-TO-RIGHT ISOLATE, U+2067 RIGHT-TO-LEFT ISOLATE, U+2068
 * FIRST STRONG ISOLATE, U+2069 POP DIRECTIONAL ISOLATE. A line with such a mark may be shown in another order than it is read. A TEXT WITH ONE HAS NO KEY,
 * wherever the mark stands, in a comment or a string too; and no key has one. The other calls read a mark as any other character.
 *
 * LISTS. `starts`, `continues` and `emoji` are the code points from 0x80 on that start an identifier, go on in one, and are emoji: a low and a high code
 * point in turn, both included. Rules: at most LOVEMUDARN_MAX_PAIRS pairs; an even count of numbers; low <= high <= 0x10FFFF; low >= 0x80; each low above
 * the high before it; no pair covers a surrogate, U+0085, U+200E, U+200F, U+2028 or U+2029. AN EMPTY LIST (count 0) is a good list: then no character from
 * 0x80 on is in that class. Below 0x80 the lists have no say. Pairs may adjoin: lists that hold the same code points give the same tokens and keys.
 * lovemudarn_read_lists reads the three from a file.
 *
 * FLAGS. A `bool` that goes in must be true or false (1 or 0). `on` says whether frontmatter may stand at the position: true at the start of a file, false
 * in the middle of one.
 *
 * ANSWERS. Every answer begins with three numbers: `number` is 0 (done) or the number of the refusal, `beside` and `second` are the numbers beside it.
 * A number that is not named below is 0. The refusals are checked in this order: 1, 9, 3, 2, 4, 8, 10, 11, 6, 5, 7, and the first that holds is given; a call
 * checks what it uses and nothing else. A REFUSAL WRITES NOTHING: a run or buffer that was lent keeps every element. After success the elements past the
 * answer keep their values.
 */
#ifndef LOVEMUDARN_H
#define LOVEMUDARN_H

#include <stdbool.h>
#include <stddef.h>
#include <stdint.h>

#ifdef __cplusplus
extern "C" {
#endif

/* ---- `number`, and what is beside it */

#define LOVEMUDARN_DONE 0u         /* as the call says */
#define LOVEMUDARN_TOO_LONG 1u     /* the text has more than 4,294,967,295 bytes; beside: 0 */
#define LOVEMUDARN_NOT_UTF8 2u     /* the text is not UTF-8; beside: the start of the first ill-formed sequence; second: the cause */
#define LOVEMUDARN_BAD_LIST 3u     /* a list breaks a rule; beside: the list (0 starts, 1 continues, 2 emoji); second: the index of the pair, of a half
                                      pair too; LOVEMUDARN_MAX_PAIRS where there are more pairs than that */
#define LOVEMUDARN_BAD_POSITION 4u /* the position is past the end of the text or inside a character; beside: the position */
#define LOVEMUDARN_FEW_SLOTS 5u    /* the run has fewer slots than the text has tokens; beside: the tokens, each of which needs
                                      LOVEMUDARN_NUMBERS_OF_A_TOKEN numbers */
#define LOVEMUDARN_BROKEN_TOKEN 6u /* the replaced text (LINE ENDS) has a broken token, and so no key: a literal that does not end or has no hash count, or a
                                      block comment that does not end; beside: the start of the first, in the replaced text: every CR LF before it is one
                                      byte there */
#define LOVEMUDARN_SHORT_BUFFER 7u /* the buffer is shorter than the key, or than the file of lists; beside: the bytes of the key or the file. Where lists are
                                      read: a run is shorter than its list; beside: the first such list; second: its numbers */
#define LOVEMUDARN_BAD_PREFIX 8u   /* the raw check's prefix is not 1 with r, or 2 with br or cr; beside: 0 */
#define LOVEMUDARN_BAD_LINE 9u     /* a line of the file of lists is bad; beside: the number of the first, from 0 */
#define LOVEMUDARN_DOUBLE_RETURN 10u /* the text has CR CR LF (0D 0D 0A) somewhere, and so no key: it would leave a CR LF in the key, which a second keying would
                                        change. Beside: the start of the first, in the text as it was lent; of CR CR CR LF it is that of the second CR */
#define LOVEMUDARN_HIDDEN_MARK 11u   /* the text has a hidden direction mark (HIDDEN MARKS) somewhere, and so no key: a line with it may be shown in another order
                                        than it is read. Beside: the start of the first, in the text as it was lent; the character there tells which it is */

/* The cause beside LOVEMUDARN_NOT_UTF8. The bytes of the sequence are judged from the left: the first that is wrong decides, or the end of the text where it
 * comes before that. */
#define LOVEMUDARN_CAUSE_START 1u  /* the first byte cannot start a sequence: 80 to C1, F5 to FF */
#define LOVEMUDARN_CAUSE_CUT 2u    /* the text ends inside the sequence */
#define LOVEMUDARN_CAUSE_FOLLOW 3u /* a following byte is wrong: it is not 80 to BF; or it is the second, and makes an overlong form (after E0, F0), a surrogate
                                      (ED) or a value past U+10FFFF (F4) */

#define LOVEMUDARN_LIST_STARTS 0u
#define LOVEMUDARN_LIST_CONTINUES 1u
#define LOVEMUDARN_LIST_EMOJI 2u
#define LOVEMUDARN_MAX_PAIRS 8192u /* of each list */

/* ---- the code of a kind
 *
 * code = kind + 64 * detail. The code and the start of the suffix tell the whole kind. The detail is 0 but for these:
 *   LINE_COMMENT   doc style: 0 none, 1 outer, 2 inner
 *   BLOCK_COMMENT  doc style + 4 * terminated
 *   FRONTMATTER    has_invalid_preceding_whitespace + 2 * invalid_infostring
 *   LIFETIME       starts_with_number
 *   LITERAL        literal + 16 * what the literal holds:
 *     INT                         base + 4 * empty_int          (base: 0 binary, 1 octal, 2 decimal, 3 hexadecimal)
 *     FLOAT                       base + 4 * empty_exponent
 *     CHAR BYTE STR BYTE_STR C_STR          terminated
 *     RAW_STR RAW_BYTE_STR RAW_C_STR        0 where there is no hash count, else the hashes + 1
 */

#define LOVEMUDARN_KIND_OF(code) ((code) & 63u)
#define LOVEMUDARN_DETAIL_OF(code) ((code) >> 6)
#define LOVEMUDARN_LITERAL_OF(code) (((code) >> 6) & 15u)      /* of a LITERAL */
#define LOVEMUDARN_LITERAL_DETAIL_OF(code) ((code) >> 10)      /* of a LITERAL */

#define LOVEMUDARN_KIND_LINE_COMMENT 0u
#define LOVEMUDARN_KIND_BLOCK_COMMENT 1u
#define LOVEMUDARN_KIND_WHITESPACE 2u
#define LOVEMUDARN_KIND_FRONTMATTER 3u
#define LOVEMUDARN_KIND_IDENT 4u
#define LOVEMUDARN_KIND_INVALID_IDENT 5u
#define LOVEMUDARN_KIND_RAW_IDENT 6u
#define LOVEMUDARN_KIND_FORCED_KEYWORD_IDENT 7u
#define LOVEMUDARN_KIND_UNKNOWN_PREFIX 8u
#define LOVEMUDARN_KIND_UNKNOWN_PREFIX_LIFETIME 9u
#define LOVEMUDARN_KIND_RAW_LIFETIME 10u
#define LOVEMUDARN_KIND_GUARDED_STR_PREFIX 11u
#define LOVEMUDARN_KIND_LITERAL 12u
#define LOVEMUDARN_KIND_LIFETIME 13u
#define LOVEMUDARN_KIND_SEMI 14u          /* ; */
#define LOVEMUDARN_KIND_COMMA 15u         /* , */
#define LOVEMUDARN_KIND_DOT 16u           /* . */
#define LOVEMUDARN_KIND_OPEN_PAREN 17u    /* ( */
#define LOVEMUDARN_KIND_CLOSE_PAREN 18u   /* ) */
#define LOVEMUDARN_KIND_OPEN_BRACE 19u    /* { */
#define LOVEMUDARN_KIND_CLOSE_BRACE 20u   /* } */
#define LOVEMUDARN_KIND_OPEN_BRACKET 21u  /* [ */
#define LOVEMUDARN_KIND_CLOSE_BRACKET 22u /* ] */
#define LOVEMUDARN_KIND_AT 23u            /* @ */
#define LOVEMUDARN_KIND_POUND 24u         /* # */
#define LOVEMUDARN_KIND_TILDE 25u         /* ~ */
#define LOVEMUDARN_KIND_QUESTION 26u      /* ? */
#define LOVEMUDARN_KIND_COLON 27u         /* : */
#define LOVEMUDARN_KIND_DOLLAR 28u        /* $ */
#define LOVEMUDARN_KIND_EQ 29u            /* = */
#define LOVEMUDARN_KIND_BANG 30u          /* ! */
#define LOVEMUDARN_KIND_LT 31u            /* < */
#define LOVEMUDARN_KIND_GT 32u            /* > */
#define LOVEMUDARN_KIND_MINUS 33u         /* - */
#define LOVEMUDARN_KIND_AND 34u           /* & */
#define LOVEMUDARN_KIND_OR 35u            /* | */
#define LOVEMUDARN_KIND_PLUS 36u          /* + */
#define LOVEMUDARN_KIND_STAR 37u          /* * */
#define LOVEMUDARN_KIND_SLASH 38u         /* / */
#define LOVEMUDARN_KIND_CARET 39u         /* ^ */
#define LOVEMUDARN_KIND_PERCENT 40u       /* % */
#define LOVEMUDARN_KIND_UNKNOWN 41u
#define LOVEMUDARN_KIND_EOF 42u           /* the end of the text, of length 0: lovemudarn_token alone gives it */

#define LOVEMUDARN_DOC_NONE 0u
#define LOVEMUDARN_DOC_OUTER 1u
#define LOVEMUDARN_DOC_INNER 2u

#define LOVEMUDARN_LITERAL_INT 0u
#define LOVEMUDARN_LITERAL_FLOAT 1u
#define LOVEMUDARN_LITERAL_CHAR 2u
#define LOVEMUDARN_LITERAL_BYTE 3u
#define LOVEMUDARN_LITERAL_STR 4u
#define LOVEMUDARN_LITERAL_BYTE_STR 5u
#define LOVEMUDARN_LITERAL_C_STR 6u
#define LOVEMUDARN_LITERAL_RAW_STR 7u
#define LOVEMUDARN_LITERAL_RAW_BYTE_STR 8u
#define LOVEMUDARN_LITERAL_RAW_C_STR 9u

#define LOVEMUDARN_BASE_BINARY 0u
#define LOVEMUDARN_BASE_OCTAL 1u
#define LOVEMUDARN_BASE_DECIMAL 2u
#define LOVEMUDARN_BASE_HEXADECIMAL 3u

/* ---- the numbers of a token in a run: a slot */

#define LOVEMUDARN_NUMBERS_OF_A_TOKEN 5u
#define LOVEMUDARN_CODE 0u         /* the code of its kind */
#define LOVEMUDARN_SUFFIX_START 1u /* of a literal, where its suffix starts, in bytes from the token's start (its length where it has none); else 0 */
#define LOVEMUDARN_LEN 2u          /* its bytes */
#define LOVEMUDARN_START 3u        /* its first byte, in bytes from the text's start */
#define LOVEMUDARN_LINE 4u         /* the LFs before it, from the text's start on */

/* ---- the cases of the raw check */

#define LOVEMUDARN_RAW_GOOD 0u
#define LOVEMUDARN_RAW_INVALID_STARTER 1u     /* bad_char */
#define LOVEMUDARN_RAW_NO_TERMINATOR 2u       /* expected, found, has_offset, offset */
#define LOVEMUDARN_RAW_TOO_MANY_DELIMITERS 3u /* found */

/* ---- answers */

struct lovemudarn_answer {
    uint32_t number;
    size_t beside;
    size_t second;
};

/* Done: beside is next, and second is on as 1 or 0. Refused: every number past the third is 0. */
struct lovemudarn_token_answer {
    uint32_t number;
    size_t beside;
    size_t second;
    uint32_t kind;         /* the code */
    uint32_t suffix_start; /* of a literal; else 0 */
    uint32_t len;
    size_t start;          /* the position that was handed in */
    uint32_t line;         /* the LFs before it, from the text's start on */
    size_t next;           /* the position past the token */
    bool on;               /* whether frontmatter may stand there */
};

/* Done: beside is tokens, and second is next. Refused: every number past the third is 0. */
struct lovemudarn_run_answer {
    uint32_t number;
    size_t beside;
    size_t second;
    size_t tokens; /* how many were written */
    size_t next;   /* the position past the last of them; where none was written, the position that was handed in */
    bool on;       /* whether frontmatter may stand there */
};

/* Done: beside is check, and second the first number of the case. Refused: every number past the third is 0. */
struct lovemudarn_raw_str_answer {
    uint32_t number;
    size_t beside;
    size_t second;
    uint32_t check;    /* the case */
    uint32_t bad_char; /* the code point where a quote had to be; 0 at the end of the text */
    uint32_t expected; /* hashes before the string */
    uint32_t found;    /* the most hashes after a quote in it; of the last case, the hashes before it */
    bool has_offset;
    uint32_t offset;   /* where the string may have been meant to end, in bytes from the text's start; 0 where has_offset is false */
};

/* Done: beside is next, and second is found as 1 or 0. Refused: every number past the third is 0. */
struct lovemudarn_guarded_str_answer {
    uint32_t number;
    size_t beside;
    size_t second;
    bool found;         /* where it is false, the next three are 0 */
    uint32_t n_hashes;
    bool terminated;
    uint32_t token_len; /* from the first hash on */
    size_t next;        /* past the string; past the hashes where none is found */
};

/* Done: beside and second are 0. Refused: every number past the third is 0. */
struct lovemudarn_lists_answer {
    uint32_t number;
    size_t beside;
    size_t second;
    uint32_t major; /* the Unicode version that the file names */
    uint32_t minor;
    uint32_t update;
    size_t starts; /* how many numbers each run now begins with */
    size_t continues;
    size_t emoji;
};

/* ---- the calls */

/* What the calls on tokens check: 1, 3, 2, or 0. */
struct lovemudarn_answer lovemudarn_check(const uint8_t *text, size_t text_len, const uint32_t *starts, size_t starts_len, const uint32_t *continues,
                                          size_t continues_len, const uint32_t *emoji, size_t emoji_len);

/* The token at a position: 1, 3, 2, 4, or 0. The text's length is a position too: EOF stands there. To read on, hand `next` and `on` back in. */
struct lovemudarn_token_answer lovemudarn_token(const uint8_t *text, size_t text_len, const uint32_t *starts, size_t starts_len,
                                                const uint32_t *continues, size_t continues_len, const uint32_t *emoji, size_t emoji_len, size_t at,
                                                bool on);

/* The tokens of a text, without EOF, in a run of numbers: 1, 3, 2, 5, or 0 with the number of tokens beside it. Where w is LOVEMUDARN_NUMBERS_OF_A_TOKEN, token i
 * has w numbers from slots[w * i] on. `slots_len` counts numbers: it makes slots_len / w slots, and n bytes have at most n tokens. */
struct lovemudarn_answer lovemudarn_tokens(const uint8_t *text, size_t text_len, const uint32_t *starts, size_t starts_len, const uint32_t *continues,
                                           size_t continues_len, const uint32_t *emoji, size_t emoji_len, bool on, uint32_t *slots, size_t slots_len);

/* The tokens from a position on, without EOF, as many as the run has slots for: 1, 3, 2, 4, or 0. They are written as lovemudarn_tokens writes them; a start
 * and a line count from the text's beginning. To go on, hand `next` and `on` back in; the text is at its end where `next` is `text_len`. Two calls, the second from
 * where the first ended, give what one call with the slots of both gives. Each call checks the whole text and the lists first: for a text of n bytes lend n / 8 + 256
 * slots or more, and at most eight calls go through it, in time that grows as n does. */
struct lovemudarn_run_answer lovemudarn_tokens_from(const uint8_t *text, size_t text_len, const uint32_t *starts, size_t starts_len,
                                                    const uint32_t *continues, size_t continues_len, const uint32_t *emoji, size_t emoji_len, size_t at,
                                                    bool on, uint32_t *slots, size_t slots_len);

/* The key of a text: 1, 3, 2, 10, 11, 6, 7, or 0 with the bytes of the key beside it. It is the key of the replaced text (LINE ENDS), and at most as long as that;
 * 6 has a place in the replaced text beside it, 2, 10 and 11 one in the text as it was lent. A key that is keyed again comes out as it is. */
struct lovemudarn_answer lovemudarn_key(const uint8_t *text, size_t text_len, const uint32_t *starts, size_t starts_len, const uint32_t *continues,
                                        size_t continues_len, const uint32_t *emoji, size_t emoji_len, uint8_t *out, size_t out_len);

/* The Unicode version and the lists of a file, the lists in three runs, as the calls above take them: 9, 3, 7 with the first list for which the run is too short and
 * the numbers that it has, or 0 with the version and the numbers of each list in the other fields. 2 * LOVEMUDARN_MAX_PAIRS numbers in each run are always enough.
 *
 * The file: `unicode`, major, minor and update in its first line, as decimal numbers of 0 to 65,535; then a line a pair: `start`, `continue` or `emoji`, low and
 * high, in hexadecimal of lower case and at most six digits; all pairs of `start`, then those of `continue`, then those of `emoji`. One tab stands between two
 * fields, every line ends with LF, no number has leading zeros, and nothing else is there. An empty file is bad in line 0, and a last line without LF is bad.
 * data/unicode-15.0.0.lists is such a file, and tools/unicode-lists makes that of another Unicode version. */
struct lovemudarn_lists_answer lovemudarn_read_lists(const uint8_t *file, size_t file_len, uint32_t *starts, size_t starts_len, uint32_t *continues,
                                                     size_t continues_len, uint32_t *emoji, size_t emoji_len);

/* The file of a version and three lists: 9 with 0 where a number of the version is over 65,535, for then the first line would be bad; 3, 7, or 0 with the bytes of
 * the file beside it. Version and lists have one file, to the byte: reading it gives them back, and what is read from a file has that file. It has at most 26
 * bytes, and 23 more for each pair. */
struct lovemudarn_answer lovemudarn_write_lists(uint32_t major, uint32_t minor, uint32_t update, const uint32_t *starts, size_t starts_len,
                                                const uint32_t *continues, size_t continues_len, const uint32_t *emoji, size_t emoji_len, uint8_t *out,
                                                size_t out_len);

/* Whether a text is an identifier: 1, 3, 2, or 0 with 1 (yes) or 0 (no) beside it. */
struct lovemudarn_answer lovemudarn_is_ident(const uint8_t *text, size_t text_len, const uint32_t *starts, size_t starts_len, const uint32_t *continues,
                                             size_t continues_len);

/* Where a shebang ends: 1, 2, or 0 with the place beside it, which is at least 2, or with 0 where there is no shebang. */
struct lovemudarn_answer lovemudarn_strip_shebang(const uint8_t *text, size_t text_len);

/* The raw check of a literal with a prefix of `prefix` bytes: 1, 2, 8, or 0. */
struct lovemudarn_raw_str_answer lovemudarn_validate_raw_str(const uint8_t *text, size_t text_len, size_t prefix);

/* The guarded string at a position: 1, 3, 2, 4, or 0. */
struct lovemudarn_guarded_str_answer lovemudarn_guarded(const uint8_t *text, size_t text_len, const uint32_t *starts, size_t starts_len,
                                                        const uint32_t *continues, size_t continues_len, size_t at);

/* The classes take any number; one that is no Unicode scalar value is in no class. Those with a list: 3, or 0 with 1 (yes) or 0 (no) beside it. */
bool lovemudarn_is_whitespace(uint32_t c);
bool lovemudarn_is_horizontal_whitespace(uint32_t c);
struct lovemudarn_answer lovemudarn_is_id_start(uint32_t c, const uint32_t *starts, size_t starts_len);
struct lovemudarn_answer lovemudarn_is_id_continue(uint32_t c, const uint32_t *continues, size_t continues_len);
struct lovemudarn_answer lovemudarn_is_emoji_char(uint32_t c, const uint32_t *emoji, size_t emoji_len);

#ifdef __cplusplus
}
#endif

#endif
