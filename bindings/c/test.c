/* Calls every export, and compares what comes back with what documents 01 and 02 and the Rust say: every number below is written by hand,
 * but for the header's most pairs of a list, which is held against what the archive refuses, and for lines where they are many, which are counted here.
 * It is built without a header of the system; the last line says how many checks there were, and how many failed. */
#include "lovemudarn.h"

extern int printf(const char *, ...);
extern void *mmap(void *, size_t, int, int, int, long);
extern int mprotect(void *, size_t, int);

static unsigned long checks, failed;

/* the text that a check is about, where the same is checked of many; else nothing */
static const char *of = "";

/* one check: two numbers are the same */
static void same(const char *what, const char *part, unsigned long is, unsigned long right) {
    checks += 1;
    if (is != right) {
        failed += 1;
        printf("FAILED: %s%s: %s is %lu, not %lu\n", of, what, part, is, right);
    }
}

/* a text of C, without its 0 */
#define TEXT(s) (const uint8_t *)(s), sizeof(s) - 1

/* no list: a pointer to some number, and 0 of them */
static const uint32_t some[1] = {7};
#define NONE some, 0
#define NO_LISTS NONE, NONE, NONE
#define LIST(l) l, sizeof(l) / sizeof(l[0])

/* good lists: e with an acute accent is a letter, U+1F600 to U+1F64F are emoji */
static const uint32_t letters[2] = {0xE9, 0xE9};
static const uint32_t faces[2] = {0x1F600, 0x1F64F};

/* lists that break a rule */
static const uint32_t low[2] = {0x41, 0x5A};
static const uint32_t half[3] = {0x100, 0x200, 0x300};
static const uint32_t meeting[4] = {0x1F600, 0x1F64F, 0x1F64F, 0x1F700};
static const uint32_t surrogate[4] = {0x100, 0x100, 0xD700, 0xD800};

/* good pairs, but one too many: the header's limit is held against what the archive refuses */
static uint32_t many[2 * LOVEMUDARN_MAX_PAIRS + 2];

static void answer(const char *what, struct lovemudarn_answer a, unsigned long number, unsigned long beside, unsigned long second) {
    same(what, "number", a.number, number);
    same(what, "beside", a.beside, beside);
    same(what, "second", a.second, second);
}

static void test_check(void) {
    answer("check: nothing", lovemudarn_check(TEXT(""), NO_LISTS), LOVEMUDARN_DONE, 0, 0);
    answer("check: a text and lists", lovemudarn_check(TEXT("caf\303\251"), LIST(letters), LIST(letters), LIST(faces)), LOVEMUDARN_DONE, 0, 0);
    answer("check: a surrogate in the text", lovemudarn_check(TEXT("caf\303\251 \355\240\200"), NO_LISTS), LOVEMUDARN_NOT_UTF8, 6, 3);
    answer("check: a byte that starts nothing", lovemudarn_check(TEXT("a\300\200"), NO_LISTS), LOVEMUDARN_NOT_UTF8, 1, 1);
    answer("check: a cut sequence", lovemudarn_check(TEXT("a\342\202"), NO_LISTS), LOVEMUDARN_NOT_UTF8, 1, 2);
    answer("check: below 0x80", lovemudarn_check(TEXT("a"), LIST(low), NONE, NONE), LOVEMUDARN_BAD_LIST, LOVEMUDARN_LIST_STARTS, 0);
    answer("check: a half pair", lovemudarn_check(TEXT("a"), NONE, LIST(half), NONE), LOVEMUDARN_BAD_LIST, LOVEMUDARN_LIST_CONTINUES, 1);
    answer("check: not above", lovemudarn_check(TEXT("a"), NONE, NONE, LIST(meeting)), LOVEMUDARN_BAD_LIST, LOVEMUDARN_LIST_EMOJI, 1);
    answer("check: a surrogate in a list", lovemudarn_check(TEXT("a"), NONE, LIST(surrogate), NONE), LOVEMUDARN_BAD_LIST, LOVEMUDARN_LIST_CONTINUES, 1);
    answer("check: lists in order", lovemudarn_check(TEXT("a"), NONE, LIST(half), LIST(meeting)), LOVEMUDARN_BAD_LIST, LOVEMUDARN_LIST_CONTINUES, 1);
    answer("check: 3 before 2", lovemudarn_check(TEXT("\377"), NONE, NONE, LIST(low)), LOVEMUDARN_BAD_LIST, LOVEMUDARN_LIST_EMOJI, 0);
}

static void test_many(void) {
    const uint32_t first = 0x10000, most = 2 * LOVEMUDARN_MAX_PAIRS;
    for (uint32_t i = 0; i < most + 2; i += 1) many[i] = first + i;
    answer("many: the most pairs", lovemudarn_check(TEXT("a"), many, most, many, most, many, most), LOVEMUDARN_DONE, 0, 0);
    answer("many: a half more", lovemudarn_check(TEXT("a"), many, most + 1, NONE, NONE), LOVEMUDARN_BAD_LIST, LOVEMUDARN_LIST_STARTS, LOVEMUDARN_MAX_PAIRS);
    answer("many: one more", lovemudarn_check(TEXT("a"), NONE, LIST(many), NONE), LOVEMUDARN_BAD_LIST, LOVEMUDARN_LIST_CONTINUES, LOVEMUDARN_MAX_PAIRS);
    /* the last pair counts, and the one after it would hold another character */
    answer("many: the last point", lovemudarn_is_id_start(first + most - 1, many, most), LOVEMUDARN_DONE, 1, 0);
    answer("many: the next point", lovemudarn_is_id_start(first + most, many, most), LOVEMUDARN_DONE, 0, 0);
    /* more pairs than may be, the first of them bad: the count comes first */
    many[0] = 0x41;
    answer("many: the count first", lovemudarn_check(TEXT("a"), NONE, NONE, LIST(many)), LOVEMUDARN_BAD_LIST, LOVEMUDARN_LIST_EMOJI, LOVEMUDARN_MAX_PAIRS);
    answer("many: the first pair bad", lovemudarn_check(TEXT("a"), many, most, NONE, NONE), LOVEMUDARN_BAD_LIST, LOVEMUDARN_LIST_STARTS, 0);
}

static void given(const char *what, struct lovemudarn_token_answer a, unsigned long kind, unsigned long suffix, unsigned long len, unsigned long start,
                  unsigned long line, bool on) {
    same(what, "number", a.number, LOVEMUDARN_DONE);
    same(what, "beside", a.beside, start + len);
    same(what, "second", a.second, on);
    same(what, "kind", a.kind, kind);
    same(what, "suffix_start", a.suffix_start, suffix);
    same(what, "len", a.len, len);
    same(what, "start", a.start, start);
    same(what, "line", a.line, line);
    same(what, "next", a.next, start + len);
    same(what, "on", a.on, on);
}

static void no_token(const char *what, struct lovemudarn_token_answer a, unsigned long number, unsigned long beside, unsigned long second) {
    same(what, "number", a.number, number);
    same(what, "beside", a.beside, beside);
    same(what, "second", a.second, second);
    same(what, "kind", a.kind, 0);
    same(what, "suffix_start", a.suffix_start, 0);
    same(what, "len", a.len, 0);
    same(what, "start", a.start, 0);
    same(what, "line", a.line, 0);
    same(what, "next", a.next, 0);
    same(what, "on", a.on, 0);
}

/* the first token of a text; suffix: 0 where it is no literal */
#define FIRST(s, kind, suffix, len) given(s, lovemudarn_token(TEXT(s), NO_LISTS, 0, false), kind, suffix, len, 0, 0, false)
/* the same with good lists */
#define LISTED(s, kind, len) given(s, lovemudarn_token(TEXT(s), LIST(letters), LIST(letters), LIST(faces), 0, false), kind, 0, len, 0, 0, false)
/* frontmatter */
#define FRONT(s, code, len, after) given(s, lovemudarn_token(TEXT(s), NO_LISTS, 0, true), code, 0, len, 0, 0, after)

#define LITERAL(literal, detail) (LOVEMUDARN_KIND_LITERAL + 64 * (literal + 16 * (detail)))

static void test_token(void) {
    /* the rows of document 01 */
    FIRST("/*/*/", LOVEMUDARN_KIND_BLOCK_COMMENT, 0, 5);
    FIRST("/***/", LOVEMUDARN_KIND_BLOCK_COMMENT + 64 * 4, 0, 5);
    FIRST("/**a*/", LOVEMUDARN_KIND_BLOCK_COMMENT + 64 * (LOVEMUDARN_DOC_OUTER + 4), 0, 6);
    FIRST("////", LOVEMUDARN_KIND_LINE_COMMENT, 0, 4);
    FIRST("r##~x", LITERAL(LOVEMUDARN_LITERAL_RAW_STR, 0), 4, 4);
    FIRST("'ab'c", LITERAL(LOVEMUDARN_LITERAL_CHAR, 1), 4, 4);
    FIRST("'a'c", LITERAL(LOVEMUDARN_LITERAL_CHAR, 1), 3, 4);
    FIRST("'''", LITERAL(LOVEMUDARN_LITERAL_CHAR, 1), 3, 3);
    FIRST("1.foo", LITERAL(LOVEMUDARN_LITERAL_INT, LOVEMUDARN_BASE_DECIMAL), 1, 1);
    FIRST("1.", LITERAL(LOVEMUDARN_LITERAL_FLOAT, LOVEMUDARN_BASE_DECIMAL), 2, 2);
    FIRST("12_u8", LITERAL(LOVEMUDARN_LITERAL_INT, LOVEMUDARN_BASE_DECIMAL), 3, 5);
    FIRST("0b2", LITERAL(LOVEMUDARN_LITERAL_INT, LOVEMUDARN_BASE_BINARY), 3, 3);
    FIRST("0x1e3", LITERAL(LOVEMUDARN_LITERAL_INT, LOVEMUDARN_BASE_HEXADECIMAL), 5, 5);
    FRONT("---\nx\n---\n", LOVEMUDARN_KIND_FRONTMATTER, 9, false);
    FRONT("---\n----x\n", LOVEMUDARN_KIND_FRONTMATTER, 9, false);
    FRONT("----\nx\n---\ny", LOVEMUDARN_KIND_FRONTMATTER, 10, false);
    FRONT("--- a\nb---  ---\nz", LOVEMUDARN_KIND_FRONTMATTER, 15, false);

    /* one of each kind, and what its code holds */
    FIRST("/// a\nb", LOVEMUDARN_KIND_LINE_COMMENT + 64 * LOVEMUDARN_DOC_OUTER, 0, 5);
    FIRST("//! a", LOVEMUDARN_KIND_LINE_COMMENT + 64 * LOVEMUDARN_DOC_INNER, 0, 5);
    FIRST("/*! a", LOVEMUDARN_KIND_BLOCK_COMMENT + 64 * LOVEMUDARN_DOC_INNER, 0, 5);
    FIRST("/**/", LOVEMUDARN_KIND_BLOCK_COMMENT + 64 * 4, 0, 4);
    FIRST(" \t\nx", LOVEMUDARN_KIND_WHITESPACE, 0, 3);
    FIRST("---\n", LOVEMUDARN_KIND_MINUS, 0, 1);
    FRONT(" ---\nx\n---\n", LOVEMUDARN_KIND_FRONTMATTER + 64 * 1, 10, false);
    FRONT("---!\nx\n---\n", LOVEMUDARN_KIND_FRONTMATTER + 64 * 2, 10, false);
    FRONT(" ---!\nx\n---\n", LOVEMUDARN_KIND_FRONTMATTER + 64 * 3, 11, false);
    FRONT("\n\nx", LOVEMUDARN_KIND_WHITESPACE, 2, true);
    FRONT("", LOVEMUDARN_KIND_EOF, 0, true);
    FRONT("x", LOVEMUDARN_KIND_IDENT, 1, false);
    FIRST("ab_1+", LOVEMUDARN_KIND_IDENT, 0, 4);
    LISTED("a\303\251b", LOVEMUDARN_KIND_IDENT, 4);
    LISTED("a\360\237\230\200", LOVEMUDARN_KIND_INVALID_IDENT, 5);
    FIRST("r#ab", LOVEMUDARN_KIND_RAW_IDENT, 0, 4);
    FIRST("k#ab", LOVEMUDARN_KIND_FORCED_KEYWORD_IDENT, 0, 4);
    FIRST("z\"a\"", LOVEMUDARN_KIND_UNKNOWN_PREFIX, 0, 1);
    FIRST("'zz#a", LOVEMUDARN_KIND_UNKNOWN_PREFIX_LIFETIME, 0, 3);
    FIRST("'r#ab", LOVEMUDARN_KIND_RAW_LIFETIME, 0, 5);
    FIRST("#\"a\"", LOVEMUDARN_KIND_GUARDED_STR_PREFIX, 0, 2);
    FIRST("'ab ", LOVEMUDARN_KIND_LIFETIME, 0, 3);
    FIRST("'1b ", LOVEMUDARN_KIND_LIFETIME + 64 * 1, 0, 3);
    FIRST(";", LOVEMUDARN_KIND_SEMI, 0, 1);
    FIRST(",", LOVEMUDARN_KIND_COMMA, 0, 1);
    FIRST(".", LOVEMUDARN_KIND_DOT, 0, 1);
    FIRST("(", LOVEMUDARN_KIND_OPEN_PAREN, 0, 1);
    FIRST(")", LOVEMUDARN_KIND_CLOSE_PAREN, 0, 1);
    FIRST("{", LOVEMUDARN_KIND_OPEN_BRACE, 0, 1);
    FIRST("}", LOVEMUDARN_KIND_CLOSE_BRACE, 0, 1);
    FIRST("[", LOVEMUDARN_KIND_OPEN_BRACKET, 0, 1);
    FIRST("]", LOVEMUDARN_KIND_CLOSE_BRACKET, 0, 1);
    FIRST("@", LOVEMUDARN_KIND_AT, 0, 1);
    FIRST("#", LOVEMUDARN_KIND_POUND, 0, 1);
    FIRST("~", LOVEMUDARN_KIND_TILDE, 0, 1);
    FIRST("?", LOVEMUDARN_KIND_QUESTION, 0, 1);
    FIRST(":", LOVEMUDARN_KIND_COLON, 0, 1);
    FIRST("$", LOVEMUDARN_KIND_DOLLAR, 0, 1);
    FIRST("=", LOVEMUDARN_KIND_EQ, 0, 1);
    FIRST("!", LOVEMUDARN_KIND_BANG, 0, 1);
    FIRST("<", LOVEMUDARN_KIND_LT, 0, 1);
    FIRST(">", LOVEMUDARN_KIND_GT, 0, 1);
    FIRST("-", LOVEMUDARN_KIND_MINUS, 0, 1);
    FIRST("&", LOVEMUDARN_KIND_AND, 0, 1);
    FIRST("|", LOVEMUDARN_KIND_OR, 0, 1);
    FIRST("+", LOVEMUDARN_KIND_PLUS, 0, 1);
    FIRST("*", LOVEMUDARN_KIND_STAR, 0, 1);
    FIRST("/", LOVEMUDARN_KIND_SLASH, 0, 1);
    FIRST("^", LOVEMUDARN_KIND_CARET, 0, 1);
    FIRST("%", LOVEMUDARN_KIND_PERCENT, 0, 1);
    FIRST("\303\251", LOVEMUDARN_KIND_UNKNOWN, 0, 2);
    FIRST("\0", LOVEMUDARN_KIND_UNKNOWN, 0, 1);
    FIRST("", LOVEMUDARN_KIND_EOF, 0, 0);

    /* the literals */
    FIRST("0o7", LITERAL(LOVEMUDARN_LITERAL_INT, LOVEMUDARN_BASE_OCTAL), 3, 3);
    FIRST("0x", LITERAL(LOVEMUDARN_LITERAL_INT, LOVEMUDARN_BASE_HEXADECIMAL + 4), 2, 2);
    FIRST("1e", LITERAL(LOVEMUDARN_LITERAL_FLOAT, LOVEMUDARN_BASE_DECIMAL + 4), 2, 2);
    FIRST("'", LITERAL(LOVEMUDARN_LITERAL_CHAR, 0), 1, 1);
    FIRST("b'a'", LITERAL(LOVEMUDARN_LITERAL_BYTE, 1), 4, 4);
    FIRST("\"a\"u8", LITERAL(LOVEMUDARN_LITERAL_STR, 1), 3, 5);
    FIRST("\"a", LITERAL(LOVEMUDARN_LITERAL_STR, 0), 2, 2);
    FIRST("b\"a\"", LITERAL(LOVEMUDARN_LITERAL_BYTE_STR, 1), 4, 4);
    FIRST("c\"a\"", LITERAL(LOVEMUDARN_LITERAL_C_STR, 1), 4, 4);
    FIRST("r\"a\"", LITERAL(LOVEMUDARN_LITERAL_RAW_STR, 1), 4, 4);
    FIRST("r#\"a\"#", LITERAL(LOVEMUDARN_LITERAL_RAW_STR, 1 + 1), 6, 6);
    FIRST("br##\"a\"##", LITERAL(LOVEMUDARN_LITERAL_RAW_BYTE_STR, 2 + 1), 9, 9);
    FIRST("cr\"a", LITERAL(LOVEMUDARN_LITERAL_RAW_C_STR, 0), 4, 4);

    /* the parts of a code */
    same("a code", "its kind", LOVEMUDARN_KIND_OF(LITERAL(LOVEMUDARN_LITERAL_RAW_BYTE_STR, 3)), LOVEMUDARN_KIND_LITERAL);
    same("a code", "its literal", LOVEMUDARN_LITERAL_OF(LITERAL(LOVEMUDARN_LITERAL_RAW_BYTE_STR, 3)), LOVEMUDARN_LITERAL_RAW_BYTE_STR);
    same("a code", "what the literal holds", LOVEMUDARN_LITERAL_DETAIL_OF(LITERAL(LOVEMUDARN_LITERAL_RAW_BYTE_STR, 3)), 3);
    same("a code", "its detail", LOVEMUDARN_DETAIL_OF(LOVEMUDARN_KIND_BLOCK_COMMENT + 64 * 5), 5);

    /* positions */
    given("a+1 at 1", lovemudarn_token(TEXT("a+1"), NO_LISTS, 1, false), LOVEMUDARN_KIND_PLUS, 0, 1, 1, 0, false);
    given("a+1 at its end", lovemudarn_token(TEXT("a+1"), NO_LISTS, 3, false), LOVEMUDARN_KIND_EOF, 0, 0, 3, 0, false);
    given("past a character", lovemudarn_token(TEXT("\303\251 x"), NO_LISTS, 2, true), LOVEMUDARN_KIND_WHITESPACE, 0, 1, 2, 0, true);
    no_token("past the end", lovemudarn_token(TEXT("a+1"), NO_LISTS, 4, false), LOVEMUDARN_BAD_POSITION, 4, 0);
    no_token("inside a character", lovemudarn_token(TEXT("\303\251"), NO_LISTS, 1, true), LOVEMUDARN_BAD_POSITION, 1, 0);
    no_token("the last position", lovemudarn_token(TEXT(""), NO_LISTS, (size_t)-1, false), LOVEMUDARN_BAD_POSITION, (size_t)-1, 0);
    no_token("2 before 4", lovemudarn_token(TEXT("a\377"), NO_LISTS, 9, false), LOVEMUDARN_NOT_UTF8, 1, LOVEMUDARN_CAUSE_START);
    no_token("3 before 2", lovemudarn_token(TEXT("a\377"), NONE, NONE, LIST(meeting), 0, false), LOVEMUDARN_BAD_LIST, LOVEMUDARN_LIST_EMOJI, 1);
}

/* a run for twelve tokens, each of its numbers one that no token has in its place */
static uint32_t run[60];
#define UNTOUCHED 0xA5A5A5A5u

static void fill_run(void) {
    for (size_t i = 0; i < 60; i += 1) run[i] = UNTOUCHED;
}

/* what the run holds: n numbers, and past them what was there */
static void holds(const char *what, const uint32_t *right, size_t count) {
    for (size_t i = 0; i < 60; i += 1) same(what, "a number of the run", run[i], i < count ? right[i] : UNTOUCHED);
}

#define INT_1 LITERAL(LOVEMUDARN_LITERAL_INT, LOVEMUDARN_BASE_DECIMAL)

static void test_tokens(void) {
    static const uint32_t sum[15] = {
        LOVEMUDARN_KIND_IDENT, 0, 1, 0, 0, LOVEMUDARN_KIND_PLUS, 0, 1, 1, 0, INT_1, 1, 1, 2, 0,
    };
    same("a slot", "its numbers", LOVEMUDARN_NUMBERS_OF_A_TOKEN, 5);
    same("a slot", "the place of the code", LOVEMUDARN_CODE, 0);
    same("a slot", "the place of the suffix start", LOVEMUDARN_SUFFIX_START, 1);
    same("a slot", "the place of the length", LOVEMUDARN_LEN, 2);
    same("a slot", "the place of the start", LOVEMUDARN_START, 3);
    same("a slot", "the place of the line", LOVEMUDARN_LINE, 4);
    fill_run();
    answer("a+1", lovemudarn_tokens(TEXT("a+1"), NO_LISTS, false, run, 60), LOVEMUDARN_DONE, 3, 0);
    holds("a+1", sum, 15);
    fill_run();
    answer("a+1, just room", lovemudarn_tokens(TEXT("a+1"), NO_LISTS, false, run, 15), LOVEMUDARN_DONE, 3, 0);
    holds("a+1, just room", sum, 15);
    fill_run();
    answer("a+1, one number short", lovemudarn_tokens(TEXT("a+1"), NO_LISTS, false, run, 14), LOVEMUDARN_FEW_SLOTS, 3, 0);
    holds("a+1, one number short", sum, 0);
    answer("a+1, no slot", lovemudarn_tokens(TEXT("a+1"), NO_LISTS, false, run, 0), LOVEMUDARN_FEW_SLOTS, 3, 0);
    holds("a+1, no slot", sum, 0);
    answer("nothing, no slot", lovemudarn_tokens(TEXT(""), NO_LISTS, true, run, 0), LOVEMUDARN_DONE, 0, 0);
    holds("nothing, no slot", sum, 0);
    answer("ill-formed, no slot", lovemudarn_tokens(TEXT("a+\377"), NO_LISTS, false, run, 0), LOVEMUDARN_NOT_UTF8, 2, LOVEMUDARN_CAUSE_START);
    answer("ill-formed", lovemudarn_tokens(TEXT("a+\377"), NO_LISTS, false, run, 60), LOVEMUDARN_NOT_UTF8, 2, LOVEMUDARN_CAUSE_START);
    holds("ill-formed", sum, 0);
    answer("a bad list", lovemudarn_tokens(TEXT("a+\377"), NONE, LIST(low), NONE, false, run, 60), LOVEMUDARN_BAD_LIST, LOVEMUDARN_LIST_CONTINUES, 0);
    holds("a bad list", sum, 0);

    /* starts, and the text of document 01's key */
    static const uint32_t mixed[50] = {
        LOVEMUDARN_KIND_BLOCK_COMMENT + 64 * 4, 0, 7, 0, 0,
        LOVEMUDARN_KIND_IDENT, 0, 1, 7, 0,
        LOVEMUDARN_KIND_WHITESPACE, 0, 1, 8, 0,
        LOVEMUDARN_KIND_EQ, 0, 1, 9, 0,
        LOVEMUDARN_KIND_WHITESPACE, 0, 1, 10, 0,
        INT_1, 1, 1, 11, 0,
        LOVEMUDARN_KIND_SEMI, 0, 1, 12, 0,
        LOVEMUDARN_KIND_WHITESPACE, 0, 1, 13, 0,
        LOVEMUDARN_KIND_LINE_COMMENT, 0, 4, 14, 0,
        LOVEMUDARN_KIND_WHITESPACE, 0, 1, 18, 0,
    };
    fill_run();
    answer("a mixed text", lovemudarn_tokens(TEXT("/* a */x = 1; // b\n"), NO_LISTS, true, run, 54), LOVEMUDARN_DONE, 10, 0);
    holds("a mixed text", mixed, 50);

    /* frontmatter, and what stands after it; a suffix that is not at the end */
    static const uint32_t fronted[15] = {
        LOVEMUDARN_KIND_FRONTMATTER, 0, 9, 0, 0, LOVEMUDARN_KIND_WHITESPACE, 0, 1, 9, 2, INT_1, 3, 5, 10, 3,
    };
    fill_run();
    answer("frontmatter", lovemudarn_tokens(TEXT("---\nx\n---\n12_u8"), NO_LISTS, true, run, 60), LOVEMUDARN_DONE, 3, 0);
    holds("frontmatter", fronted, 15);
    answer("frontmatter off", lovemudarn_tokens(TEXT("---\nx\n---\n12_u8"), NO_LISTS, false, run, 0), LOVEMUDARN_FEW_SLOTS, 11, 0);
    fill_run();
    static const uint32_t lettered[10] = {
        LOVEMUDARN_KIND_IDENT, 0, 4, 0, 0, LOVEMUDARN_KIND_UNKNOWN, 0, 4, 4, 0,
    };
    answer("a list's letters", lovemudarn_tokens(TEXT("a\303\251b\360\237\230\200"), LIST(letters), LIST(letters), NONE, false, run, 60), LOVEMUDARN_DONE,
           2, 0);
    holds("a list's letters", lettered, 10);
}

static void ran(const char *what, struct lovemudarn_run_answer a, unsigned long number, unsigned long beside, unsigned long second, unsigned long tokens,
                unsigned long next, bool on) {
    same(what, "number", a.number, number);
    same(what, "beside", a.beside, beside);
    same(what, "second", a.second, second);
    same(what, "tokens", a.tokens, tokens);
    same(what, "next", a.next, next);
    same(what, "on", a.on, on);
}

/* so many tokens were written, and the run ended so */
#define RAN(what, a, tokens, next, on) ran(what, a, LOVEMUDARN_DONE, tokens, next, tokens, next, on)
#define NO_RUN(what, a, number, beside, second) ran(what, a, number, beside, second, 0, 0, false)
#define FRONTED "\n---\nx\n---\n12_u8 y"

static void test_tokens_from(void) {
    /* a text in three parts, each from where the one before it ended; frontmatter may stand after whitespace and nowhere else */
    static const uint32_t first[5] = {LOVEMUDARN_KIND_WHITESPACE, 0, 1, 0, 0};
    static const uint32_t second[10] = {LOVEMUDARN_KIND_FRONTMATTER, 0, 9, 1, 1, LOVEMUDARN_KIND_WHITESPACE, 0, 1, 10, 3};
    static const uint32_t third[15] = {INT_1, 3, 5, 11, 4, LOVEMUDARN_KIND_WHITESPACE, 0, 1, 16, 4, LOVEMUDARN_KIND_IDENT, 0, 1, 17, 4};
    fill_run();
    RAN("from: one slot", lovemudarn_tokens_from(TEXT(FRONTED), NO_LISTS, 0, true, run, 9), 1, 1, true);
    holds("from: one slot", first, 5);
    fill_run();
    RAN("from: two slots", lovemudarn_tokens_from(TEXT(FRONTED), NO_LISTS, 1, true, run, 10), 2, 11, false);
    holds("from: two slots", second, 10);
    fill_run();
    RAN("from: more slots than tokens", lovemudarn_tokens_from(TEXT(FRONTED), NO_LISTS, 11, false, run, 60), 3, 18, false);
    holds("from: more slots than tokens", third, 15);
    fill_run();
    RAN("from: the end", lovemudarn_tokens_from(TEXT(FRONTED), NO_LISTS, 18, true, run, 60), 0, 18, true);
    RAN("from: no slot", lovemudarn_tokens_from(TEXT(FRONTED), NO_LISTS, 1, true, run, 4), 0, 1, true);
    RAN("from: nothing", lovemudarn_tokens_from(TEXT(""), NO_LISTS, 0, false, run, 60), 0, 0, false);
    NO_RUN("from: past the end", lovemudarn_tokens_from(TEXT("a+1"), NO_LISTS, 4, true, run, 60), LOVEMUDARN_BAD_POSITION, 4, 0);
    NO_RUN("from: inside a character", lovemudarn_tokens_from(TEXT("\303\251"), NO_LISTS, 1, true, run, 60), LOVEMUDARN_BAD_POSITION, 1, 0);
    NO_RUN("from: 2 before 4", lovemudarn_tokens_from(TEXT("a+\377"), NO_LISTS, 9, true, run, 60), LOVEMUDARN_NOT_UTF8, 2, LOVEMUDARN_CAUSE_START);
    NO_RUN("from: ill-formed past the slots", lovemudarn_tokens_from(TEXT("a+\377"), NO_LISTS, 0, true, run, 5), LOVEMUDARN_NOT_UTF8, 2,
           LOVEMUDARN_CAUSE_START);
    NO_RUN("from: 3 before 2", lovemudarn_tokens_from(TEXT("a+\377"), NONE, LIST(half), NONE, 0, true, run, 60), LOVEMUDARN_BAD_LIST,
           LOVEMUDARN_LIST_CONTINUES, 1);
    holds("from: where nothing is written", some, 0);

    /* a position past characters of several bytes, and a list's letters */
    static const uint32_t lettered[5] = {LOVEMUDARN_KIND_IDENT, 0, 3, 5, 0};
    RAN("from: a list's letters", lovemudarn_tokens_from(TEXT("\360\237\230\200+a\303\251"), LIST(letters), LIST(letters), LIST(faces), 5, false, run, 60), 1, 8,
        false);
    holds("from: a list's letters", lettered, 5);
}

/* Texts with line ends, and their tokens: code, length and line, all by hand. No literal here has a suffix. */
#define WHITE LOVEMUDARN_KIND_WHITESPACE
#define NAME LOVEMUDARN_KIND_IDENT
#define MINUS LOVEMUDARN_KIND_MINUS
static const struct {
    const char *name;
    const uint8_t *text;
    size_t len;
    bool on;
    struct {
        uint32_t code, len, line;
    } tokens[12]; /* those of length 0 are none */
} lined[] = {
    {"nothing", TEXT(""), false, {{0, 0, 0}}},
    {"one LF", TEXT("\n"), false, {{WHITE, 1, 0}}},
    {"LF", TEXT("a\nb\n\n c\n"), false, {{NAME, 1, 0}, {WHITE, 1, 0}, {NAME, 1, 1}, {WHITE, 3, 1}, {NAME, 1, 3}, {WHITE, 1, 3}}},
    {"no LF at the end", TEXT("a\nb"), false, {{NAME, 1, 0}, {WHITE, 1, 0}, {NAME, 1, 1}}},
    {"CR", TEXT("a\rb\r\rc"), false, {{NAME, 1, 0}, {WHITE, 1, 0}, {NAME, 1, 0}, {WHITE, 2, 0}, {NAME, 1, 0}}},
    {"CR LF", TEXT("a\r\nb\r\n"), false, {{NAME, 1, 0}, {WHITE, 2, 0}, {NAME, 1, 1}, {WHITE, 2, 1}}},
    {"LF CR", TEXT("a\n\rb"), false, {{NAME, 1, 0}, {WHITE, 2, 0}, {NAME, 1, 1}}},
    {"VT and FF", TEXT("a\vb\fc\nd"), false, {{NAME, 1, 0}, {WHITE, 1, 0}, {NAME, 1, 0}, {WHITE, 1, 0}, {NAME, 1, 0}, {WHITE, 1, 0}, {NAME, 1, 1}}},
    {"U+0085, U+2028, U+2029", TEXT("a\302\205b\342\200\250c\342\200\251d\ne"), false,
     {{NAME, 1, 0}, {WHITE, 2, 0}, {NAME, 1, 0}, {WHITE, 3, 0}, {NAME, 1, 0}, {WHITE, 3, 0}, {NAME, 1, 0}, {WHITE, 1, 0}, {NAME, 1, 1}}},
    {"U+010A, whose last byte is 8A", TEXT("\304\212\n\304\212"), false, {{LOVEMUDARN_KIND_UNKNOWN, 2, 0}, {WHITE, 1, 0}, {LOVEMUDARN_KIND_UNKNOWN, 2, 1}}},
    {"line comments", TEXT("// a\n/// b\r\n//! c\nd"), false,
     {{LOVEMUDARN_KIND_LINE_COMMENT, 4, 0}, {WHITE, 1, 0}, {LOVEMUDARN_KIND_LINE_COMMENT + 64 * LOVEMUDARN_DOC_OUTER, 6, 1}, {WHITE, 1, 1},
      {LOVEMUDARN_KIND_LINE_COMMENT + 64 * LOVEMUDARN_DOC_INNER, 5, 2}, {WHITE, 1, 2}, {NAME, 1, 3}}},
    {"a block comment", TEXT("a/* b\n/* c\n*/\n*/d"), false, {{NAME, 1, 0}, {LOVEMUDARN_KIND_BLOCK_COMMENT + 64 * 4, 15, 0}, {NAME, 1, 3}}},
    {"a block comment that does not end", TEXT("\n/*\n\n"), false, {{WHITE, 1, 0}, {LOVEMUDARN_KIND_BLOCK_COMMENT, 4, 1}}},
    {"a string", TEXT("\"a\n\\\nb\"\nc"), false, {{LITERAL(LOVEMUDARN_LITERAL_STR, 1), 7, 0}, {WHITE, 1, 2}, {NAME, 1, 3}}},
    {"a string that does not end", TEXT("a\n\"b\n\n"), false, {{NAME, 1, 0}, {WHITE, 1, 0}, {LITERAL(LOVEMUDARN_LITERAL_STR, 0), 4, 1}}},
    {"a raw string", TEXT("r#\"\n\"\n\"#;"), false, {{LITERAL(LOVEMUDARN_LITERAL_RAW_STR, 1 + 1), 8, 0}, {LOVEMUDARN_KIND_SEMI, 1, 2}}},
    {"other literals", TEXT("b\"\n\";c\"\n\";br\"\n\";cr\"\n\";'\n';"), false,
     {{LITERAL(LOVEMUDARN_LITERAL_BYTE_STR, 1), 4, 0}, {LOVEMUDARN_KIND_SEMI, 1, 1}, {LITERAL(LOVEMUDARN_LITERAL_C_STR, 1), 4, 1},
      {LOVEMUDARN_KIND_SEMI, 1, 2}, {LITERAL(LOVEMUDARN_LITERAL_RAW_BYTE_STR, 1), 5, 2}, {LOVEMUDARN_KIND_SEMI, 1, 3},
      {LITERAL(LOVEMUDARN_LITERAL_RAW_C_STR, 1), 5, 3}, {LOVEMUDARN_KIND_SEMI, 1, 4}, {LITERAL(LOVEMUDARN_LITERAL_CHAR, 1), 3, 4},
      {LOVEMUDARN_KIND_SEMI, 1, 5}}},
    {"frontmatter", TEXT("\n\n---\na\n---\nb"), true, {{WHITE, 2, 0}, {LOVEMUDARN_KIND_FRONTMATTER, 9, 2}, {WHITE, 1, 4}, {NAME, 1, 5}}},
    {"frontmatter that begins with a blank line", TEXT("\n ---\na\n---\nb"), true,
     {{LOVEMUDARN_KIND_FRONTMATTER + 64 * 1, 11, 0}, {WHITE, 1, 3}, {NAME, 1, 4}}},
    {"frontmatter off", TEXT("\n\n---\na\n---\nb"), false,
     {{WHITE, 2, 0}, {MINUS, 1, 2}, {MINUS, 1, 2}, {MINUS, 1, 2}, {WHITE, 1, 2}, {NAME, 1, 3}, {WHITE, 1, 3}, {MINUS, 1, 4}, {MINUS, 1, 4}, {MINUS, 1, 4},
      {WHITE, 1, 4}, {NAME, 1, 5}}},
    {"blank lines alone, where frontmatter may stand", TEXT("\n\r\n\n"), true, {{WHITE, 4, 0}}},
};

/* the LFs among the first n bytes of a text */
static size_t feeds(const uint8_t *text, size_t n) {
    size_t count = 0;
    for (size_t i = 0; i < n; i += 1) count += text[i] == 0x0A;
    return count;
}

/* Every token of a text by all calls: one by one, all at once, and from each on to the end. */
static void all_lines(size_t i) {
    const uint8_t *text = lined[i].text;
    const size_t len = lined[i].len;
    uint32_t right[60];
    size_t starts[13] = {0}, count = 0;
    bool flags[13] = {lined[i].on}; /* frontmatter may stand after whitespace and nowhere else */
    for (; count < 12 && lined[i].tokens[count].len; count += 1) {
        uint32_t code = lined[i].tokens[count].code, bytes = lined[i].tokens[count].len, line = lined[i].tokens[count].line;
        uint32_t suffix = LOVEMUDARN_KIND_OF(code) == LOVEMUDARN_KIND_LITERAL ? bytes : 0;
        size_t start = starts[count];
        const uint32_t slot[5] = {code, suffix, bytes, (uint32_t)start, line};
        for (size_t part = 0; part < 5; part += 1) right[5 * count + part] = slot[part];
        starts[count + 1] = start + bytes;
        flags[count + 1] = flags[count] && code == WHITE;
        same(": the table", "a line", line, feeds(text, start));
        given(": token", lovemudarn_token(text, len, NO_LISTS, start, flags[count]), code, suffix, bytes, start, line, flags[count + 1]);
    }
    same(": the table", "the lengths together", starts[count], len);
    given(": the end", lovemudarn_token(text, len, NO_LISTS, len, flags[count]), LOVEMUDARN_KIND_EOF, 0, 0, len, feeds(text, len), flags[count]);
    fill_run();
    answer(": tokens", lovemudarn_tokens(text, len, NO_LISTS, flags[0], run, 5 * count), LOVEMUDARN_DONE, count, 0);
    holds(": tokens", right, 5 * count);
    for (size_t from = 0; from <= count; from += 1) {
        fill_run();
        RAN(": tokens_from", lovemudarn_tokens_from(text, len, NO_LISTS, starts[from], flags[from], run, 60), count - from, len, flags[count]);
        holds(": tokens_from", right + 5 * from, 5 * (count - from));
    }
}

static const char any_place[] = "fn f() {\n    g(\"h\r\n\", '\\n'); /* i\n\n \303\251 */\r\n\t// \342\200\250 j\n}\n\nk";
static uint8_t long_text[2 * 65536];
static uint32_t long_run[5 * 2 * 65536];

static void test_lines(void) {
    for (size_t i = 0; i < sizeof lined / sizeof lined[0]; i += 1) {
        of = lined[i].name;
        all_lines(i);
    }
    of = "";

    /* positions at which no token of the whole text starts: the line is that of the position */
    given("in the third line", lovemudarn_token(TEXT("a\nb\ncd e\n"), NO_LISTS, 5, false), NAME, 0, 1, 5, 2, false);
    given("at the LF of the second", lovemudarn_token(TEXT("a\nb\ncd e\n"), NO_LISTS, 3, false), WHITE, 0, 1, 3, 1, false);
    given("between CR and LF", lovemudarn_token(TEXT("a\r\nb"), NO_LISTS, 2, false), WHITE, 0, 1, 2, 0, false);
    given("in a comment", lovemudarn_token(TEXT("/*\n*/a"), NO_LISTS, 3, false), LOVEMUDARN_KIND_STAR, 0, 1, 3, 1, false);
    given("at the end, past three LFs", lovemudarn_token(TEXT("a\nb\ncd e\n"), NO_LISTS, 9, true), LOVEMUDARN_KIND_EOF, 0, 0, 9, 3, true);
    no_token("past the end of the second line", lovemudarn_token(TEXT("a\nb"), NO_LISTS, 4, false), LOVEMUDARN_BAD_POSITION, 4, 0);
    no_token("inside a character of the second line", lovemudarn_token(TEXT("\n\303\251"), NO_LISTS, 2, false), LOVEMUDARN_BAD_POSITION, 2, 0);
    static const uint32_t middle[15] = {NAME, 0, 1, 5, 2, WHITE, 0, 1, 6, 2, NAME, 0, 1, 7, 2};
    fill_run();
    RAN("from: in the third line", lovemudarn_tokens_from(TEXT("a\nb\ncd e\n"), NO_LISTS, 5, false, run, 15), 3, 8, false);
    holds("from: in the third line", middle, 15);
    for (size_t at = 0; at < sizeof any_place; at += 1) {
        if (((uint8_t)any_place[at] & 0xC0) == 0x80) continue; /* inside a character */
        size_t line = feeds((const uint8_t *)any_place, at);
        struct lovemudarn_token_answer a = lovemudarn_token(TEXT(any_place), NO_LISTS, at, false);
        same("any place", "number", a.number, LOVEMUDARN_DONE);
        same("any place", "start", a.start, at);
        same("any place", "line", a.line, line);
        lovemudarn_tokens_from(TEXT(any_place), NO_LISTS, at, false, run, 5);
        if (at + 1 == sizeof any_place) continue; /* no token at the end */
        same("any place, from", "start", run[LOVEMUDARN_START], at);
        same("any place, from", "line", run[LOVEMUDARN_LINE], line);
    }

    /* more lines than 16 bits count: blank ones, and then a token in each */
    const size_t lines = 65536;
    static const uint32_t last[10] = {WHITE, 0, 65536, 0, 0, NAME, 0, 1, 65536, 65536};
    for (size_t i = 0; i < lines; i += 1) long_text[i] = '\n';
    long_text[lines] = 'a';
    fill_run();
    answer("65536 LFs", lovemudarn_tokens(long_text, lines + 1, NO_LISTS, false, run, 10), LOVEMUDARN_DONE, 2, 0);
    holds("65536 LFs", last, 10);
    fill_run();
    RAN("65536 LFs: from", lovemudarn_tokens_from(long_text, lines + 1, NO_LISTS, 65536, false, run, 60), 1, 65537, false);
    holds("65536 LFs: from", last + 5, 5);
    given("65536 LFs: the last of them", lovemudarn_token(long_text, lines + 1, NO_LISTS, 65535, false), WHITE, 0, 1, 65535, 65535, false);
    given("65536 LFs: the name", lovemudarn_token(long_text, lines + 1, NO_LISTS, 65536, false), NAME, 0, 1, 65536, 65536, false);
    given("65536 LFs: the end", lovemudarn_token(long_text, lines + 1, NO_LISTS, 65537, false), LOVEMUDARN_KIND_EOF, 0, 0, 65537, 65536, false);
    for (size_t i = 0; i < 2 * lines; i += 1) long_text[i] = i % 2 == 0 ? ';' : '\n';
    answer("65536 lines", lovemudarn_tokens(long_text, 2 * lines, NO_LISTS, false, long_run, 5 * 2 * lines), LOVEMUDARN_DONE, 2 * lines, 0);
    size_t other = 0;
    for (size_t i = 0; i < 2 * lines; i += 1) other += long_run[5 * i + LOVEMUDARN_START] != i || long_run[5 * i + LOVEMUDARN_LINE] != i / 2;
    same("65536 lines", "tokens with another start or line", other, 0);
    RAN("65536 lines: from", lovemudarn_tokens_from(long_text, 2 * lines, NO_LISTS, 131001, false, long_run, 5 * 70), 70, 131071, false);
    other = 0;
    for (size_t i = 0; i < 70; i += 1) other += long_run[5 * i + LOVEMUDARN_START] != 131001 + i || long_run[5 * i + LOVEMUDARN_LINE] != (131001 + i) / 2;
    same("65536 lines: from", "tokens with another start or line", other, 0);
    given("65536 lines: the end", lovemudarn_token(long_text, 2 * lines, NO_LISTS, 2 * lines, false), LOVEMUDARN_KIND_EOF, 0, 0, 131072, 65536, false);
}

static uint8_t out[32], long_key[65536];

static void fill_out(void) {
    for (size_t i = 0; i < 32; i += 1) out[i] = 0xA5;
}

static void key_holds(const char *what, const char *right, size_t count) {
    for (size_t i = 0; i < 32; i += 1) same(what, "a byte of the buffer", out[i], i < count ? (uint8_t)right[i] : 0xA5);
}

/* the key of a text, in a buffer that is longer */
#define KEY(s, right)                                                                                                   \
    (fill_out(), answer(s, lovemudarn_key(TEXT(s), NO_LISTS, out, 32), LOVEMUDARN_DONE, sizeof(right) - 1, 0), \
     key_holds(s, right, sizeof(right) - 1))
/* a refusal, with a buffer of n bytes */
#define NO_KEY(s, room, number, beside, second) \
    (fill_out(), answer(s, lovemudarn_key(TEXT(s), NO_LISTS, out, room), number, beside, second), key_holds(s, "", 0))

static void test_key(void) {
    KEY("/* a */x = 1; // b\n", "\nx\n=\n1;\n");
    KEY("", "");
    KEY("= =", "=\n=");
    KEY("==", "==");
    KEY(" /* a */ // b\n\n", "\n");
    KEY("/** a */x", "/** a */x");
    KEY("'a'c", "'a'c");
    fill_out();
    answer("just room", lovemudarn_key(TEXT("/* a */x = 1; // b\n"), NO_LISTS, out, 8), LOVEMUDARN_DONE, 8, 0);
    key_holds("just room", "\nx\n=\n1;\n", 8);
    NO_KEY("/* a */x = 1; // b\n", 7, LOVEMUDARN_SHORT_BUFFER, 8, 0);
    NO_KEY("/* a */x = 1; // b\n", 0, LOVEMUDARN_SHORT_BUFFER, 8, 0);
    NO_KEY("'/**/'", 32, LOVEMUDARN_BROKEN_TOKEN, 0, 0);
    NO_KEY("x = /*/*/", 32, LOVEMUDARN_BROKEN_TOKEN, 4, 0);
    NO_KEY("x r##~x \"", 32, LOVEMUDARN_BROKEN_TOKEN, 2, 0);
    NO_KEY("x \"a", 0, LOVEMUDARN_BROKEN_TOKEN, 2, 0);
    NO_KEY("x \"a\377", 32, LOVEMUDARN_NOT_UTF8, 4, LOVEMUDARN_CAUSE_START);
    fill_out();
    answer("a bad list", lovemudarn_key(TEXT("x \"a\377"), LIST(half), NONE, NONE, out, 32), LOVEMUDARN_BAD_LIST, LOVEMUDARN_LIST_STARTS, 1);
    key_holds("a bad list", "", 0);
}

/* Document 02, W3: the key is of the replaced text, in which each CR LF is LF. A text with CR LF line ends, its twin without them, and their key, which is keyed again. */
static const struct {
    const char *name;
    const uint8_t *text;
    size_t len;
    const uint8_t *twin;
    size_t twin_len;
    const uint8_t *key;
    size_t key_len;
} twins[] = {
    {"one line end", TEXT("\r\n"), TEXT("\n"), TEXT("\n")},
    {"two line ends", TEXT("\r\n\r\n"), TEXT("\n\n"), TEXT("\n")},
    {"between tokens", TEXT("a;\r\nb;\r\n"), TEXT("a;\nb;\n"), TEXT("a;\nb;\n")},
    {"plain comments", TEXT("a // b\r\n/* c\r\n */\r\nd"), TEXT("a // b\n/* c\n */\nd"), TEXT("a\nd")},
    {"a line comment for documents", TEXT("/// a\r\nb"), TEXT("/// a\nb"), TEXT("/// a\nb")},
    {"a block comment for documents", TEXT("/** a\r\n * b\r\n */c"), TEXT("/** a\n * b\n */c"), TEXT("/** a\n * b\n */c")},
    {"a string", TEXT("\"a\r\nb\""), TEXT("\"a\nb\""), TEXT("\"a\nb\"")},
    {"a string with a line end of each kind", TEXT("\"a\r\nb\nc\""), TEXT("\"a\nb\nc\""), TEXT("\"a\nb\nc\"")},
    {"a string that goes on in the next line", TEXT("\"a\\\r\n  b\""), TEXT("\"a\\\n  b\""), TEXT("\"a\\\n  b\"")},
    {"a raw string", TEXT("r#\"a\r\n\"\r\n\"#"), TEXT("r#\"a\n\"\n\"#"), TEXT("r#\"a\n\"\n\"#")},
    {"other strings", TEXT("b\"\r\n\";c\"\r\n\";br\"\r\n\""), TEXT("b\"\n\";c\"\n\";br\"\n\""), TEXT("b\"\n\";c\"\n\";br\"\n\"")},
    {"a character", TEXT("'\r\n'"), TEXT("'\n'"), TEXT("'\n'")},
    {"a character after another", TEXT("'+\r\n'"), TEXT("'+\n'"), TEXT("'+\n'")},
    {"a character after a backslash", TEXT("'\\\r\nx'"), TEXT("'\\\nx'"), TEXT("'\\\nx'")},
    {"a byte after a backslash", TEXT("b'\\\r\nx' y"), TEXT("b'\\\nx' y"), TEXT("b'\\\nx'\ny")},
    {"CR after CR LF", TEXT("\"\r\n\r\""), TEXT("\"\n\r\""), TEXT("\"\n\r\"")},
    {"LF before CR LF", TEXT("\"\n\r\n\""), TEXT("\"\n\n\""), TEXT("\"\n\n\"")},
    {"letters past ASCII", TEXT("\303\251\r\n\"\303\251\r\n\""), TEXT("\303\251\n\"\303\251\n\""), TEXT("\303\251\n\"\303\251\n\"")},
    /* a CR alone stays: in a token it is one of its bytes, and between tokens whitespace */
    {"CR between tokens", TEXT("a\rb\r"), TEXT("a b "), TEXT("a\nb\n")},
    {"CR CR", TEXT("a\r\rb\r\r"), TEXT("a  b  "), TEXT("a\nb\n")},
    {"LF CR", TEXT("a\n\rb"), TEXT("a\n b"), TEXT("a\nb")},
    {"CR in a string", TEXT("\"a\rb\""), TEXT("\"a\rb\""), TEXT("\"a\rb\"")},
    {"CR CR in a string", TEXT("\"\r\r\""), TEXT("\"\r\r\""), TEXT("\"\r\r\"")},
    {"CR in a comment for documents", TEXT("/// a\rb\r\nc"), TEXT("/// a\rb\nc"), TEXT("/// a\rb\nc")},
};

static void one_key(const char *what, const uint8_t *text, size_t len, const uint8_t *key, size_t key_len) {
    fill_out();
    answer(what, lovemudarn_key(text, len, LIST(letters), LIST(letters), LIST(faces), out, 32), LOVEMUDARN_DONE, key_len, 0);
    key_holds(what, (const char *)key, key_len);
}

static void test_line_ends(void) {
    same("double return", "its number", LOVEMUDARN_DOUBLE_RETURN, 10);
    for (size_t i = 0; i < sizeof twins / sizeof twins[0]; i += 1) {
        of = twins[i].name;
        one_key(": its key", twins[i].text, twins[i].len, twins[i].key, twins[i].key_len);
        one_key(": its twin's key", twins[i].twin, twins[i].twin_len, twins[i].key, twins[i].key_len);
        one_key(": its key's key", twins[i].key, twins[i].key_len, twins[i].key, twins[i].key_len);
    }
    of = "";

    /* CR CR LF is refused: the place is one in the text as it was lent, and nothing is written */
    NO_KEY("\r\r\n", 32, LOVEMUDARN_DOUBLE_RETURN, 0, 0);
    NO_KEY("a\r\r\nb", 32, LOVEMUDARN_DOUBLE_RETURN, 1, 0);
    NO_KEY("a \r\r\n", 32, LOVEMUDARN_DOUBLE_RETURN, 2, 0);
    NO_KEY("\r\r\r\n", 32, LOVEMUDARN_DOUBLE_RETURN, 1, 0);
    NO_KEY("a\r\r\r\r\nb", 32, LOVEMUDARN_DOUBLE_RETURN, 3, 0);
    NO_KEY("\n\r\r\n", 32, LOVEMUDARN_DOUBLE_RETURN, 1, 0);
    NO_KEY("\r\n\r\r\n", 32, LOVEMUDARN_DOUBLE_RETURN, 2, 0);
    NO_KEY("a\r\n\r\n\r\r\n", 32, LOVEMUDARN_DOUBLE_RETURN, 5, 0);
    NO_KEY("a\r\r\nb\r\r\n", 32, LOVEMUDARN_DOUBLE_RETURN, 1, 0);
    NO_KEY("\r\ra\r\r\n", 32, LOVEMUDARN_DOUBLE_RETURN, 3, 0);
    NO_KEY("\303\251\360\237\230\200\r\r\n", 32, LOVEMUDARN_DOUBLE_RETURN, 6, 0);
    NO_KEY("\"a\r\r\nb\"", 32, LOVEMUDARN_DOUBLE_RETURN, 2, 0);
    NO_KEY("// a\r\r\nb", 32, LOVEMUDARN_DOUBLE_RETURN, 4, 0);
    NO_KEY("/// a\r\r\nb", 32, LOVEMUDARN_DOUBLE_RETURN, 5, 0);
    NO_KEY("/*\r\r\n*/", 32, LOVEMUDARN_DOUBLE_RETURN, 2, 0);
    NO_KEY("'\\\r\r\nx'", 32, LOVEMUDARN_DOUBLE_RETURN, 2, 0);

    /* 3 and 2 before it, 6 and 7 after it */
    fill_out();
    answer("3 before 10", lovemudarn_key(TEXT("a\r\r\nb"), LIST(half), NONE, NONE, out, 32), LOVEMUDARN_BAD_LIST, LOVEMUDARN_LIST_STARTS, 1);
    key_holds("3 before 10", "", 0);
    NO_KEY("\r\r\n\377", 32, LOVEMUDARN_NOT_UTF8, 3, LOVEMUDARN_CAUSE_START);
    NO_KEY("a\r\r\n\r\n\342\202", 32, LOVEMUDARN_NOT_UTF8, 6, LOVEMUDARN_CAUSE_CUT);
    NO_KEY("\303\r\r\n", 32, LOVEMUDARN_NOT_UTF8, 0, LOVEMUDARN_CAUSE_FOLLOW);
    NO_KEY("\"\r\r\n", 32, LOVEMUDARN_DOUBLE_RETURN, 1, 0);
    NO_KEY("'/ /*\r\r\n", 32, LOVEMUDARN_DOUBLE_RETURN, 5, 0);
    NO_KEY("a\r\r\nb", 0, LOVEMUDARN_DOUBLE_RETURN, 1, 0);
    NO_KEY("a\r\r\n\"b", 0, LOVEMUDARN_DOUBLE_RETURN, 1, 0);

    /* 6 has a place in the replaced text, and its tokens count */
    NO_KEY("a\r\nb\r\n\"c", 32, LOVEMUDARN_BROKEN_TOKEN, 4, 0);
    NO_KEY("\r\n\r\n/*\r\n", 32, LOVEMUDARN_BROKEN_TOKEN, 2, 0);
    NO_KEY("\"\r\n\" \"", 32, LOVEMUDARN_BROKEN_TOKEN, 4, 0);
    NO_KEY("a\r\"", 32, LOVEMUDARN_BROKEN_TOKEN, 2, 0);
    NO_KEY("\r\n'\\\r\nx", 32, LOVEMUDARN_BROKEN_TOKEN, 1, 0);
    NO_KEY("'\\\r\nx' \"", 32, LOVEMUDARN_BROKEN_TOKEN, 6, 0); /* as it was lent, the first one starts at 0 */
    NO_KEY("\303\251\r\nr#\r\n", 0, LOVEMUDARN_BROKEN_TOKEN, 3, 0);

    /* 7 has the bytes of the replaced text's key */
    NO_KEY("\"a\r\nb\"", 4, LOVEMUDARN_SHORT_BUFFER, 5, 0);
    NO_KEY("a\r\n\r\nb\r\n", 0, LOVEMUDARN_SHORT_BUFFER, 4, 0);
    fill_out();
    answer("just room for a string with CR LF", lovemudarn_key(TEXT("\"a\r\nb\""), NO_LISTS, out, 5), LOVEMUDARN_DONE, 5, 0);
    key_holds("just room for a string with CR LF", "\"a\nb\"", 5);

    /* a long text, and CR CR LF at its end */
    const size_t lines = 20000;
    for (size_t i = 0; i < lines; i += 1) {
        long_text[3 * i] = ';';
        long_text[3 * i + 1] = '\r';
        long_text[3 * i + 2] = '\n';
    }
    answer("20000 lines: no room", lovemudarn_key(long_text, 3 * lines, NO_LISTS, long_key, 2 * lines - 1), LOVEMUDARN_SHORT_BUFFER, 2 * lines, 0);
    answer("20000 lines", lovemudarn_key(long_text, 3 * lines, NO_LISTS, long_key, sizeof long_key), LOVEMUDARN_DONE, 2 * lines, 0);
    size_t other = 0;
    for (size_t i = 0; i < sizeof long_key; i += 1) other += long_key[i] != (i >= 2 * lines ? 0 : i % 2 == 0 ? ';' : '\n');
    same("20000 lines", "bytes that are others", other, 0);
    long_text[3 * lines] = '"';
    answer("20000 lines and a string", lovemudarn_key(long_text, 3 * lines + 1, NO_LISTS, long_key, sizeof long_key), LOVEMUDARN_BROKEN_TOKEN, 2 * lines, 0);
    long_text[3 * lines - 3] = '\r';
    answer("CR CR LF at the end", lovemudarn_key(long_text, 3 * lines, NO_LISTS, long_key, sizeof long_key), LOVEMUDARN_DOUBLE_RETURN, 3 * lines - 3, 0);

    /* the other calls read the text as it was lent, and know nothing of 10 */
    static const uint32_t broken[20] = {
        LITERAL(LOVEMUDARN_LITERAL_CHAR, 0), 3, 3, 0, 0, WHITE, 0, 1, 3, 0, LOVEMUDARN_KIND_UNKNOWN_PREFIX, 0, 1, 4, 1,
        LITERAL(LOVEMUDARN_LITERAL_CHAR, 0), 1, 1, 5, 1,
    };
    fill_run();
    answer("tokens: CR LF after a backslash", lovemudarn_tokens(TEXT("'\\\r\nx'"), NO_LISTS, false, run, 60), LOVEMUDARN_DONE, 4, 0);
    holds("tokens: CR LF after a backslash", broken, 20);
    given("CR LF after a backslash", lovemudarn_token(TEXT("'\\\r\nx'"), NO_LISTS, 0, false), LITERAL(LOVEMUDARN_LITERAL_CHAR, 0), 3, 3, 0, 0, false);
    given("LF after a backslash", lovemudarn_token(TEXT("'\\\nx'"), NO_LISTS, 0, false), LITERAL(LOVEMUDARN_LITERAL_CHAR, 1), 5, 5, 0, 0, false);
    given("CR LF in a string", lovemudarn_token(TEXT("\"a\r\nb\""), NO_LISTS, 0, false), LITERAL(LOVEMUDARN_LITERAL_STR, 1), 6, 6, 0, 0, false);
    given("CR LF after a comment", lovemudarn_token(TEXT("/// a\r\nb"), NO_LISTS, 0, false), LOVEMUDARN_KIND_LINE_COMMENT + 64 * LOVEMUDARN_DOC_OUTER, 0, 6, 0, 0,
          false);
    static const uint32_t returned[15] = {NAME, 0, 1, 0, 0, WHITE, 0, 3, 1, 0, NAME, 0, 1, 4, 1};
    fill_run();
    answer("tokens: CR CR LF", lovemudarn_tokens(TEXT("a\r\r\nb"), NO_LISTS, false, run, 60), LOVEMUDARN_DONE, 3, 0);
    holds("tokens: CR CR LF", returned, 15);
    fill_run();
    RAN("from: CR CR LF", lovemudarn_tokens_from(TEXT("a\r\r\nb"), NO_LISTS, 1, false, run, 60), 2, 5, false);
    holds("from: CR CR LF", returned + 5, 10);
    given("CR CR LF", lovemudarn_token(TEXT("a\r\r\nb"), NO_LISTS, 1, false), WHITE, 0, 3, 1, 0, false);
    answer("check: CR CR LF", lovemudarn_check(TEXT("a\r\r\nb"), NO_LISTS), LOVEMUDARN_DONE, 0, 0);
    answer("shebang before CR CR LF", lovemudarn_strip_shebang(TEXT("#!a\r\r\nb")), LOVEMUDARN_DONE, 4, 0);
}

/* Document 02, W6: the nine hidden direction marks. A name, and three bytes. */
struct character {
    const char *name;
    const char *bytes;
};
static const struct character marks[] = {
    {"U+202A", "\342\200\252"}, {"U+202B", "\342\200\253"}, {"U+202C", "\342\200\254"}, {"U+202D", "\342\200\255"}, {"U+202E", "\342\200\256"},
    {"U+2066", "\342\201\246"}, {"U+2067", "\342\201\247"}, {"U+2068", "\342\201\250"}, {"U+2069", "\342\201\251"},
};
#define MARKS (sizeof marks / sizeof marks[0])

/* characters of three bytes that are none: those next to the marks, and such as have two bytes of one; no list of this test holds one */
static const struct character no_marks[] = {
    {"U+202F", "\342\200\257"}, {"U+2065", "\342\201\245"}, {"U+206A", "\342\201\252"}, {"U+206E", "\342\201\256"}, {"U+2025", "\342\200\245"}, {"U+2026", "\342\200\246"},
    {"U+2027", "\342\200\247"}, {"U+2060", "\342\201\240"}, {"U+200B", "\342\200\213"}, {"U+20AA", "\342\202\252"}, {"U+20A6", "\342\202\246"}, {"U+102A", "\341\200\252"},
    {"U+1066", "\341\201\246"}, {"U+302A", "\343\200\252"}, {"U+3066", "\343\201\246"},
};
/* blanks that are none */
static const struct character blank_marks[] = {
    {"U+2028", "\342\200\250"}, {"U+2029", "\342\200\251"}, {"U+200E", "\342\200\216"}, {"U+200F", "\342\200\217"},
};

/* what stands before and after a mark in a text. In each of these, and wherever a second mark stands in it, the place is the length of what is before. */
static const struct {
    const char *name;
    const uint8_t *before;
    size_t len;
    const uint8_t *after;
    size_t after_len;
} frames[] = {
    {" alone", TEXT(""), TEXT("")},
    {" first", TEXT(""), TEXT("x = 1;")},
    {" last", TEXT("x = 1;"), TEXT("")},
    {" between blanks", TEXT(" \n"), TEXT("\t ")},
    {" in a name", TEXT("ab"), TEXT("c")},
    {" in a name past ASCII", TEXT("\303\251"), TEXT("\303\251")},
    {" in a number", TEXT("1"), TEXT("2")},
    {" in a line comment", TEXT("a // b"), TEXT("c\nd")},
    {" at the end of a line comment", TEXT("a //"), TEXT("\n")},
    {" in a block comment", TEXT("/* a "), TEXT(" */")},
    {" in a nested comment", TEXT("/* /*"), TEXT("*/ */")},
    {" in a comment for documents", TEXT("/// a"), TEXT("\nb")},
    {" in a block for documents", TEXT("/**"), TEXT("*/")},
    {" in a string", TEXT("x = \"a"), TEXT("b\";")},
    {" in a raw string", TEXT("r#\"\""), TEXT("\"#")},
    {" in a byte string", TEXT("b\""), TEXT("\"")},
    {" in single quotes", TEXT("'"), TEXT("'")},
    {" after a backslash", TEXT("'\\"), TEXT("'")},
    {" after hashes", TEXT("r##"), TEXT("")},
    {" in a shebang", TEXT("#!"), TEXT("\nx")},
    {" in frontmatter", TEXT("---\n"), TEXT("\n---\n")},
    /* the place is one in the text as it was lent */
    {" after CR LF", TEXT("a\r\nb\r\n"), TEXT(";\r\n")},
    {" after CR LF in a string", TEXT("\"\r\n\r\n"), TEXT("\"\r\n")},
    {" between CR and LF", TEXT("\r"), TEXT("\n")},
    {" after CR CR", TEXT("\r\r"), TEXT("\r\n")},
    {" after characters past ASCII", TEXT("\302\205\342\202\254\360\237\230\200"), TEXT("")},
    {" after U+2029 and before U+202F", TEXT("\342\200\251"), TEXT("\342\200\257")},
    {" after U+2065 and before U+206A", TEXT("\342\201\245"), TEXT("\342\201\252")},
    {" after E2 80 AA of others", TEXT("\342\200\246\342\201\252\343\200\252"), TEXT("")},
    {" after NUL", TEXT("\0\0"), TEXT("\0")},
    /* before a broken token, wherever it starts */
    {" before an open string", TEXT(""), TEXT("\"")},
    {" in an open string", TEXT("x = \""), TEXT("")},
    {" in an open comment", TEXT("/*"), TEXT("/**/")},
    {" after an open character", TEXT("'/ "), TEXT("")},
    {" in an open raw string", TEXT("r#\"a"), TEXT("\"")},
};

static uint8_t marked[64];

/* before, a character of three bytes, after: the bytes of the text that is now in `marked` */
static size_t frame(const uint8_t *before, size_t len, const char *bytes, const uint8_t *after, size_t after_len) {
    for (size_t i = 0; i < len; i += 1) marked[i] = before[i];
    for (size_t i = 0; i < 3; i += 1) marked[len + i] = (uint8_t)bytes[i];
    for (size_t i = 0; i < after_len; i += 1) marked[len + 3 + i] = after[i];
    return len + 3 + after_len;
}
#define FRAME(before, bytes, after) frame(TEXT(before), bytes, TEXT(after))

/* no list decides which characters are marks: this one holds all nine, and their neighbours */
static const uint32_t held[2] = {0x202A, 0x206A};

static void no_mark_key(const char *what, size_t len, size_t place) {
    fill_out();
    answer(what, lovemudarn_key(marked, len, NO_LISTS, out, 32), LOVEMUDARN_HIDDEN_MARK, place, 0);
    answer(what, lovemudarn_key(marked, len, NO_LISTS, out, 0), LOVEMUDARN_HIDDEN_MARK, place, 0);
    answer(what, lovemudarn_key(marked, len, LIST(held), LIST(held), LIST(held), out, 32), LOVEMUDARN_HIDDEN_MARK, place, 0);
    key_holds(what, "", 0);
}

/* a text of `len` bytes in `marked` that has this key, and so has the key */
static void mark_key(const char *what, size_t len, const uint8_t *key, size_t key_len) {
    one_key(what, marked, len, key, key_len);
    one_key(what, key, key_len, key, key_len);
}

/* what the key call refuses, and in which order */
static void test_mark_refusals(void) {
    same("hidden mark", "its number", LOVEMUDARN_HIDDEN_MARK, 11);
    for (size_t i = 0; i < MARKS; i += 1) {
        of = marks[i].name;
        for (size_t j = 0; j < sizeof frames / sizeof frames[0]; j += 1)
            no_mark_key(frames[j].name, frame(frames[j].before, frames[j].len, marks[i].bytes, frames[j].after, frames[j].after_len), frames[j].len);

        /* the first of two, whichever they are */
        no_mark_key(" before others", FRAME("a // ", marks[i].bytes, "\342\201\246\n\342\200\256"), 5);
        for (size_t j = 0; j < MARKS; j += 1)
            no_mark_key(" before another", frame((const uint8_t *)marks[i].bytes, 3, marks[j].bytes, (const uint8_t *)"", 0), 0);

        /* 3, 2 and 10 before it, wherever they stand */
        size_t len = FRAME("a", marks[i].bytes, "b");
        fill_out();
        answer(": 3 before 11", lovemudarn_key(marked, len, LIST(half), NONE, NONE, out, 32), LOVEMUDARN_BAD_LIST, LOVEMUDARN_LIST_STARTS, 1);
        answer(": 3 before 11", lovemudarn_key(marked, len, LIST(held), NONE, LIST(low), out, 32), LOVEMUDARN_BAD_LIST, LOVEMUDARN_LIST_EMOJI, 0);
        answer(": 2 after it", lovemudarn_key(marked, FRAME("a", marks[i].bytes, "\377"), NO_LISTS, out, 32), LOVEMUDARN_NOT_UTF8, 4, LOVEMUDARN_CAUSE_START);
        answer(": 2 before it", lovemudarn_key(marked, FRAME("\303", marks[i].bytes, ""), NO_LISTS, out, 32), LOVEMUDARN_NOT_UTF8, 0, LOVEMUDARN_CAUSE_FOLLOW);
        answer(": a cut mark after it", lovemudarn_key(marked, FRAME("", marks[i].bytes, "\342\200"), NO_LISTS, out, 32), LOVEMUDARN_NOT_UTF8, 3, LOVEMUDARN_CAUSE_CUT);
        answer(": cut", lovemudarn_key(marked, FRAME("ab", marks[i].bytes, "") - 1, NO_LISTS, out, 32), LOVEMUDARN_NOT_UTF8, 2, LOVEMUDARN_CAUSE_CUT);
        answer(": its last byte alone", lovemudarn_key(marked + 2, FRAME("", marks[i].bytes, "") - 2, NO_LISTS, out, 32), LOVEMUDARN_NOT_UTF8, 0,
               LOVEMUDARN_CAUSE_START);
        answer(": 10 after it", lovemudarn_key(marked, FRAME("a", marks[i].bytes, "\r\r\n"), NO_LISTS, out, 32), LOVEMUDARN_DOUBLE_RETURN, 4, 0);
        answer(": 10 before it", lovemudarn_key(marked, FRAME("a\r\r\n", marks[i].bytes, ""), NO_LISTS, out, 32), LOVEMUDARN_DOUBLE_RETURN, 1, 0);
        answer(": 10 after it in a comment", lovemudarn_key(marked, FRAME("// ", marks[i].bytes, "\r\n\"\r\r\n"), NO_LISTS, out, 0), LOVEMUDARN_DOUBLE_RETURN, 9, 0);
        key_holds(": what comes before it", "", 0);

        /* at each place of a longer text */
        for (size_t place = 0; place < 40; place += 1) {
            for (size_t j = 0; j < sizeof marked; j += 1) marked[j] = j % 7 == 3 ? '\n' : 'x';
            for (size_t j = 0; j < 3; j += 1) marked[place + j] = (uint8_t)marks[i].bytes[j];
            answer(" at a place", lovemudarn_key(marked, 48, NO_LISTS, out, 32), LOVEMUDARN_HIDDEN_MARK, place, 0);
        }
    }
    of = "";
}

/* what is no mark has a key, and so has the advice: a mark that is written as an escape */
static void test_no_marks(void) {
    for (size_t i = 0; i < sizeof no_marks / sizeof no_marks[0]; i += 1) {
        of = no_marks[i].name;
        size_t len = FRAME("\"a", no_marks[i].bytes, "b\"");
        one_key(" in a string", marked, len, marked, len);
        len = FRAME("/// ", no_marks[i].bytes, "\n");
        one_key(" in a comment for documents", marked, len, marked, len);
        len = FRAME("'", no_marks[i].bytes, "'");
        one_key(" in single quotes", marked, len, marked, len);
        len = FRAME("a", no_marks[i].bytes, "b");
        one_key(" in a name", marked, len, marked, len);
        len = FRAME("", no_marks[i].bytes, "");
        one_key(" alone", marked, len, marked, len);
        mark_key(" in a comment", FRAME("a // ", no_marks[i].bytes, "\r\nb"), TEXT("a\nb"));
    }
    for (size_t i = 0; i < sizeof blank_marks / sizeof blank_marks[0]; i += 1) {
        of = blank_marks[i].name;
        size_t len = FRAME("\"a", blank_marks[i].bytes, "b\"");
        one_key(" in a string", marked, len, marked, len);
        mark_key(" in a name", FRAME("a", blank_marks[i].bytes, "b"), TEXT("a\nb"));
        mark_key(" alone", FRAME("", blank_marks[i].bytes, ""), TEXT("\n"));
        mark_key(" in a comment", FRAME("a /* ", blank_marks[i].bytes, " */b"), TEXT("a\nb"));
    }
    of = "";
    KEY("x = \"\\u{202e}\";", "x\n=\n\"\\u{202e}\";");
    KEY("'\\u{2066}' // U+2066", "'\\u{2066}'\n");
}

/* the other calls read a mark as any other character, and know nothing of 11 */
static void test_marked_tokens(void) {
    static const uint32_t apart[15] = {NAME, 0, 1, 0, 0, LOVEMUDARN_KIND_UNKNOWN, 0, 3, 1, 0, NAME, 0, 1, 4, 0};
    static const uint32_t one_name[5] = {NAME, 0, 5, 0, 0};
    for (size_t i = 0; i < MARKS; i += 1) {
        of = marks[i].name;
        size_t len = FRAME("a", marks[i].bytes, "b");
        fill_run();
        answer(": tokens", lovemudarn_tokens(marked, len, NO_LISTS, false, run, 60), LOVEMUDARN_DONE, 3, 0);
        holds(": tokens", apart, 15);
        fill_run();
        RAN(": from", lovemudarn_tokens_from(marked, len, NO_LISTS, 1, false, run, 60), 2, 5, false);
        holds(": from", apart + 5, 10);
        fill_run();
        answer(": tokens with lists that hold it", lovemudarn_tokens(marked, len, LIST(held), LIST(held), NONE, false, run, 60), LOVEMUDARN_DONE, 1, 0);
        holds(": tokens with lists that hold it", one_name, 5);
        given(": a token", lovemudarn_token(marked, len, NO_LISTS, 1, false), LOVEMUDARN_KIND_UNKNOWN, 0, 3, 1, 0, false);
        answer(": check", lovemudarn_check(marked, len, NO_LISTS), LOVEMUDARN_DONE, 0, 0);
        answer(": is_ident", lovemudarn_is_ident(marked, len, NONE, NONE), LOVEMUDARN_DONE, 0, 0);
        answer(": is_ident with lists", lovemudarn_is_ident(marked, len, NONE, LIST(held)), LOVEMUDARN_DONE, 1, 0);
        given(": a string", lovemudarn_token(marked, FRAME("\"", marks[i].bytes, "\""), NO_LISTS, 0, false), LITERAL(LOVEMUDARN_LITERAL_STR, 1), 5, 5, 0, 0, false);
        given(": a comment", lovemudarn_token(marked, FRAME("//", marks[i].bytes, "\n"), NO_LISTS, 0, false), LOVEMUDARN_KIND_LINE_COMMENT, 0, 5, 0, 0, false);
        given(": frontmatter", lovemudarn_token(marked, FRAME("---\n", marks[i].bytes, "\n---"), NO_LISTS, 0, true), LOVEMUDARN_KIND_FRONTMATTER, 0, 11, 0, 0, false);
        answer(": a shebang", lovemudarn_strip_shebang(marked, FRAME("#!", marks[i].bytes, "\nb")), LOVEMUDARN_DONE, 5, 0);
    }
    of = "";
}

static void test_hidden_marks(void) {
    test_mark_refusals();
    test_no_marks();
    test_marked_tokens();

    /* a long text, and a mark at its end */
    const size_t most = 131072;
    for (size_t i = 0; i < most; i += 1) long_text[i] = i % 3 == 0 ? ';' : i % 3 == 1 ? '\r' : '\n';
    for (size_t i = 0; i < 3; i += 1) long_text[most - 3 + i] = (uint8_t)marks[4].bytes[i];
    answer("a mark at the end of a long text", lovemudarn_key(long_text, most, NO_LISTS, long_key, sizeof long_key), LOVEMUDARN_HIDDEN_MARK, most - 3, 0);
    answer("a long text without it", lovemudarn_key(long_text, most - 3, NO_LISTS, long_key, 0), LOVEMUDARN_SHORT_BUFFER, 87380, 0);
}

static void test_is_ident(void) {
    answer("is_ident: nothing", lovemudarn_is_ident(TEXT(""), NONE, NONE), LOVEMUDARN_DONE, 0, 0);
    answer("is_ident: a1", lovemudarn_is_ident(TEXT("a1"), NONE, NONE), LOVEMUDARN_DONE, 1, 0);
    answer("is_ident: _", lovemudarn_is_ident(TEXT("_"), NONE, NONE), LOVEMUDARN_DONE, 1, 0);
    answer("is_ident: 1a", lovemudarn_is_ident(TEXT("1a"), NONE, NONE), LOVEMUDARN_DONE, 0, 0);
    answer("is_ident: a letter of no list", lovemudarn_is_ident(TEXT("\303\251"), NONE, LIST(letters)), LOVEMUDARN_DONE, 0, 0);
    answer("is_ident: a letter of the list", lovemudarn_is_ident(TEXT("\303\251"), LIST(letters), NONE), LOVEMUDARN_DONE, 1, 0);
    answer("is_ident: a bad list", lovemudarn_is_ident(TEXT("\377"), NONE, LIST(low)), LOVEMUDARN_BAD_LIST, LOVEMUDARN_LIST_CONTINUES, 0);
    answer("is_ident: ill-formed", lovemudarn_is_ident(TEXT("1\377"), NONE, NONE), LOVEMUDARN_NOT_UTF8, 1, LOVEMUDARN_CAUSE_START);
}

static void test_strip_shebang(void) {
    answer("shebang", lovemudarn_strip_shebang(TEXT("#!/bin/sh\nx")), LOVEMUDARN_DONE, 9, 0);
    answer("shebang before CR LF", lovemudarn_strip_shebang(TEXT("#!/bin/sh\r\nx")), LOVEMUDARN_DONE, 9, 0);
    answer("a shebang alone", lovemudarn_strip_shebang(TEXT("#!")), LOVEMUDARN_DONE, 2, 0);
    answer("an attribute", lovemudarn_strip_shebang(TEXT("#![allow]\n")), LOVEMUDARN_DONE, 0, 0);
    answer("an attribute after trivia", lovemudarn_strip_shebang(TEXT("#! /* a */ // b\n [allow]\n")), LOVEMUDARN_DONE, 0, 0);
    answer("no shebang", lovemudarn_strip_shebang(TEXT(" #!/bin/sh\n")), LOVEMUDARN_DONE, 0, 0);
    answer("nothing", lovemudarn_strip_shebang(TEXT("")), LOVEMUDARN_DONE, 0, 0);
    answer("ill-formed", lovemudarn_strip_shebang(TEXT("#!\nx\377")), LOVEMUDARN_NOT_UTF8, 4, LOVEMUDARN_CAUSE_START);
}

static void raw(const char *what, struct lovemudarn_raw_str_answer a, unsigned long number, unsigned long beside, unsigned long second,
                unsigned long bad_char, unsigned long expected, unsigned long found, bool has_offset, unsigned long offset) {
    same(what, "number", a.number, number);
    same(what, "beside", a.beside, beside);
    same(what, "second", a.second, second);
    same(what, "check", a.check, number == LOVEMUDARN_DONE ? beside : 0);
    same(what, "bad_char", a.bad_char, bad_char);
    same(what, "expected", a.expected, expected);
    same(what, "found", a.found, found);
    same(what, "has_offset", a.has_offset, has_offset);
    same(what, "offset", a.offset, offset);
}

/* r, n hashes, two quotes and n hashes, all of them or all but the second hashes and their quote */
static uint8_t hashes[1 + 256 + 2 + 256];

static void test_validate_raw_str(void) {
    raw("no terminator", lovemudarn_validate_raw_str(TEXT("r##\"\303\251\"#"), 1), LOVEMUDARN_DONE, LOVEMUDARN_RAW_NO_TERMINATOR, 2, 0, 2, 1, true, 7);
    raw("no quote at the end", lovemudarn_validate_raw_str(TEXT("br#\"a"), 2), LOVEMUDARN_DONE, LOVEMUDARN_RAW_NO_TERMINATOR, 1, 0, 1, 0, false, 0);
    raw("good", lovemudarn_validate_raw_str(TEXT("r#\"a\"#"), 1), LOVEMUDARN_DONE, LOVEMUDARN_RAW_GOOD, 0, 0, 0, 0, false, 0);
    raw("good, br", lovemudarn_validate_raw_str(TEXT("br\"\""), 2), LOVEMUDARN_DONE, LOVEMUDARN_RAW_GOOD, 0, 0, 0, 0, false, 0);
    raw("good, cr", lovemudarn_validate_raw_str(TEXT("cr\"\""), 2), LOVEMUDARN_DONE, LOVEMUDARN_RAW_GOOD, 0, 0, 0, 0, false, 0);
    raw("invalid starter", lovemudarn_validate_raw_str(TEXT("r##~x"), 1), LOVEMUDARN_DONE, LOVEMUDARN_RAW_INVALID_STARTER, 126, 126, 0, 0, false, 0);
    raw("a starter past ASCII", lovemudarn_validate_raw_str(TEXT("r\303\251"), 1), LOVEMUDARN_DONE, LOVEMUDARN_RAW_INVALID_STARTER, 233, 233, 0, 0, false,
        0);
    raw("no starter", lovemudarn_validate_raw_str(TEXT("r#"), 1), LOVEMUDARN_DONE, LOVEMUDARN_RAW_INVALID_STARTER, 0, 0, 0, 0, false, 0);
    for (size_t i = 0; i < sizeof hashes; i += 1) hashes[i] = '#';
    hashes[0] = 'r';
    hashes[257] = hashes[258] = '"';
    raw("too many", lovemudarn_validate_raw_str(hashes, sizeof hashes, 1), LOVEMUDARN_DONE, LOVEMUDARN_RAW_TOO_MANY_DELIMITERS, 256, 0, 0, 256, false, 0);
    raw("too many, and no end", lovemudarn_validate_raw_str(hashes, 258, 1), LOVEMUDARN_DONE, LOVEMUDARN_RAW_NO_TERMINATOR, 256, 0, 256, 0, false, 0);
    raw("no r", lovemudarn_validate_raw_str(TEXT("b\"a\""), 1), LOVEMUDARN_BAD_PREFIX, 0, 0, 0, 0, 0, false, 0);
    raw("another letter", lovemudarn_validate_raw_str(TEXT("xr\"a\""), 2), LOVEMUDARN_BAD_PREFIX, 0, 0, 0, 0, 0, false, 0);
    raw("no prefix", lovemudarn_validate_raw_str(TEXT("r\"a\""), 0), LOVEMUDARN_BAD_PREFIX, 0, 0, 0, 0, 0, false, 0);
    raw("nothing", lovemudarn_validate_raw_str(TEXT(""), 1), LOVEMUDARN_BAD_PREFIX, 0, 0, 0, 0, 0, false, 0);
    raw("2 before 8", lovemudarn_validate_raw_str(TEXT("x\377"), 3), LOVEMUDARN_NOT_UTF8, 1, LOVEMUDARN_CAUSE_START, 0, 0, 0, false, 0);
}

static void guarded(const char *what, struct lovemudarn_guarded_str_answer a, unsigned long number, unsigned long beside, unsigned long second,
                    unsigned long n_hashes, bool terminated, unsigned long token_len) {
    same(what, "number", a.number, number);
    same(what, "beside", a.beside, beside);
    same(what, "second", a.second, second);
    same(what, "found", a.found, number == LOVEMUDARN_DONE && second == 1);
    same(what, "n_hashes", a.n_hashes, n_hashes);
    same(what, "terminated", a.terminated, terminated);
    same(what, "token_len", a.token_len, token_len);
    same(what, "next", a.next, number == LOVEMUDARN_DONE ? beside : 0);
}

static void test_guarded(void) {
    guarded("a guarded string", lovemudarn_guarded(TEXT("##\"a\"x"), NONE, NONE, 0), LOVEMUDARN_DONE, 6, 1, 2, true, 6);
    guarded("further on", lovemudarn_guarded(TEXT("x ##\"a\"#### y"), NONE, NONE, 2), LOVEMUDARN_DONE, 9, 1, 2, true, 7);
    guarded("one that does not end", lovemudarn_guarded(TEXT("#\"a"), NONE, NONE, 0), LOVEMUDARN_DONE, 3, 1, 1, false, 3);
    guarded("a suffix of a list", lovemudarn_guarded(TEXT("#\"a\"\303\251"), LIST(letters), NONE, 0), LOVEMUDARN_DONE, 6, 1, 1, true, 6);
    guarded("none", lovemudarn_guarded(TEXT("##a"), NONE, NONE, 0), LOVEMUDARN_DONE, 2, 0, 0, false, 0);
    guarded("none at the end", lovemudarn_guarded(TEXT("##"), NONE, NONE, 2), LOVEMUDARN_DONE, 2, 0, 0, false, 0);
    guarded("past the end", lovemudarn_guarded(TEXT("##"), NONE, NONE, 3), LOVEMUDARN_BAD_POSITION, 3, 0, 0, false, 0);
    guarded("inside a character", lovemudarn_guarded(TEXT("\303\251"), NONE, NONE, 1), LOVEMUDARN_BAD_POSITION, 1, 0, 0, false, 0);
    guarded("2 before 4", lovemudarn_guarded(TEXT("#\377"), NONE, NONE, 9), LOVEMUDARN_NOT_UTF8, 1, LOVEMUDARN_CAUSE_START, 0, false, 0);
    guarded("a bad list", lovemudarn_guarded(TEXT("#\377"), NONE, LIST(half), 9), LOVEMUDARN_BAD_LIST, LOVEMUDARN_LIST_CONTINUES, 1, 0, false, 0);
}

static void test_classes(void) {
    static const uint32_t spaces[11] = {0x09, 0x0A, 0x0B, 0x0C, 0x0D, 0x20, 0x85, 0x200E, 0x200F, 0x2028, 0x2029};
    static const uint32_t others[8] = {0, 0x08, 0x41, 0xA0, 0x200D, 0x3000, 0xD800, 0xFFFFFFFF};
    for (size_t i = 0; i < 11; i += 1) same("is_whitespace", "one of the 11", lovemudarn_is_whitespace(spaces[i]), true);
    for (size_t i = 0; i < 8; i += 1) same("is_whitespace", "another", lovemudarn_is_whitespace(others[i]), false);
    for (size_t i = 0; i < 11; i += 1)
        same("is_horizontal_whitespace", "one of the 11", lovemudarn_is_horizontal_whitespace(spaces[i]), spaces[i] == 0x09 || spaces[i] == 0x20);
    for (size_t i = 0; i < 8; i += 1) same("is_horizontal_whitespace", "another", lovemudarn_is_horizontal_whitespace(others[i]), false);

    answer("is_id_start: z", lovemudarn_is_id_start('z', NONE), LOVEMUDARN_DONE, 1, 0);
    answer("is_id_start: _", lovemudarn_is_id_start('_', NONE), LOVEMUDARN_DONE, 1, 0);
    answer("is_id_start: 1", lovemudarn_is_id_start('1', NONE), LOVEMUDARN_DONE, 0, 0);
    answer("is_id_start: listed", lovemudarn_is_id_start(0xE9, LIST(letters)), LOVEMUDARN_DONE, 1, 0);
    answer("is_id_start: not listed", lovemudarn_is_id_start(0xEA, LIST(letters)), LOVEMUDARN_DONE, 0, 0);
    answer("is_id_start: no scalar value", lovemudarn_is_id_start(0xD800, LIST(letters)), LOVEMUDARN_DONE, 0, 0);
    answer("is_id_start: a bad list", lovemudarn_is_id_start('z', LIST(half)), LOVEMUDARN_BAD_LIST, LOVEMUDARN_LIST_STARTS, 1);
    answer("is_id_continue: 1", lovemudarn_is_id_continue('1', NONE), LOVEMUDARN_DONE, 1, 0);
    answer("is_id_continue: -", lovemudarn_is_id_continue('-', NONE), LOVEMUDARN_DONE, 0, 0);
    answer("is_id_continue: listed", lovemudarn_is_id_continue(0xE9, LIST(letters)), LOVEMUDARN_DONE, 1, 0);
    answer("is_id_continue: not listed", lovemudarn_is_id_continue(0xE9, NONE), LOVEMUDARN_DONE, 0, 0);
    answer("is_id_continue: a bad list", lovemudarn_is_id_continue('1', LIST(low)), LOVEMUDARN_BAD_LIST, LOVEMUDARN_LIST_CONTINUES, 0);
    answer("is_emoji_char: listed", lovemudarn_is_emoji_char(0x1F64F, LIST(faces)), LOVEMUDARN_DONE, 1, 0);
    answer("is_emoji_char: not listed", lovemudarn_is_emoji_char(0x1F650, LIST(faces)), LOVEMUDARN_DONE, 0, 0);
    answer("is_emoji_char: below 0x80", lovemudarn_is_emoji_char('#', LIST(faces)), LOVEMUDARN_DONE, 0, 0);
    answer("is_emoji_char: a bad list", lovemudarn_is_emoji_char(0x1F64F, LIST(meeting)), LOVEMUDARN_BAD_LIST, LOVEMUDARN_LIST_EMOJI, 1);
}

/* Texts that are not UTF-8: where the first ill-formed sequence starts, and the cause. */
static const struct {
    const char *bytes;
    const uint8_t *text;
    size_t len, at, cause;
} ill[] = {
    /* a first byte that starts nothing, whatever comes after it: 80 to C1, F5 to FF */
    {"80", TEXT("\200"), 0, LOVEMUDARN_CAUSE_START},
    {"BF 80", TEXT("\277\200"), 0, LOVEMUDARN_CAUSE_START},
    {"C0", TEXT("\300"), 0, LOVEMUDARN_CAUSE_START},
    {"C0 80", TEXT("\300\200"), 0, LOVEMUDARN_CAUSE_START},
    {"C1 BF", TEXT("\301\277"), 0, LOVEMUDARN_CAUSE_START},
    {"F5 80 80 80", TEXT("\365\200\200\200"), 0, LOVEMUDARN_CAUSE_START},
    {"FF", TEXT("\377"), 0, LOVEMUDARN_CAUSE_START},
    {"FF, then good", TEXT("\377\303\251"), 0, LOVEMUDARN_CAUSE_START},
    {"good, then A9", TEXT("a\303\251\251"), 3, LOVEMUDARN_CAUSE_START},
    {"the first of two: FE", TEXT("a\376 \342\202"), 1, LOVEMUDARN_CAUSE_START},
    /* the end where every byte was right */
    {"C2", TEXT("\302"), 0, LOVEMUDARN_CAUSE_CUT},
    {"DF", TEXT("\337"), 0, LOVEMUDARN_CAUSE_CUT},
    {"E0", TEXT("\340"), 0, LOVEMUDARN_CAUSE_CUT},
    {"E0 A0", TEXT("\340\240"), 0, LOVEMUDARN_CAUSE_CUT},
    {"E2 82", TEXT("\342\202"), 0, LOVEMUDARN_CAUSE_CUT},
    {"ED 9F", TEXT("\355\237"), 0, LOVEMUDARN_CAUSE_CUT},
    {"EF BF", TEXT("\357\277"), 0, LOVEMUDARN_CAUSE_CUT},
    {"F0", TEXT("\360"), 0, LOVEMUDARN_CAUSE_CUT},
    {"F0 90", TEXT("\360\220"), 0, LOVEMUDARN_CAUSE_CUT},
    {"F0 90 80", TEXT("\360\220\200"), 0, LOVEMUDARN_CAUSE_CUT},
    {"F3 BF BF", TEXT("\363\277\277"), 0, LOVEMUDARN_CAUSE_CUT},
    {"F4 8F", TEXT("\364\217"), 0, LOVEMUDARN_CAUSE_CUT},
    {"good, then F0 9F 98", TEXT("x = \303\251; \360\237\230"), 8, LOVEMUDARN_CAUSE_CUT},
    /* a second byte that is wrong, and more bytes after it or the end */
    {"C2 28", TEXT("\302("), 0, LOVEMUDARN_CAUSE_FOLLOW},
    {"DF C0", TEXT("\337\300"), 0, LOVEMUDARN_CAUSE_FOLLOW},
    {"E0 80", TEXT("\340\200"), 0, LOVEMUDARN_CAUSE_FOLLOW},
    {"E0 9F BF", TEXT("\340\237\277"), 0, LOVEMUDARN_CAUSE_FOLLOW},
    {"E2 28", TEXT("\342("), 0, LOVEMUDARN_CAUSE_FOLLOW},
    {"E2 C2", TEXT("\342\302"), 0, LOVEMUDARN_CAUSE_FOLLOW},
    {"E2 FF", TEXT("\342\377"), 0, LOVEMUDARN_CAUSE_FOLLOW},
    {"ED A0", TEXT("\355\240"), 0, LOVEMUDARN_CAUSE_FOLLOW},
    {"ED A0 80", TEXT("\355\240\200"), 0, LOVEMUDARN_CAUSE_FOLLOW},
    {"F0 8F", TEXT("\360\217"), 0, LOVEMUDARN_CAUSE_FOLLOW},
    {"F0 80 80 80", TEXT("\360\200\200\200"), 0, LOVEMUDARN_CAUSE_FOLLOW},
    {"F4 90", TEXT("\364\220"), 0, LOVEMUDARN_CAUSE_FOLLOW},
    {"F4 90 80 80", TEXT("\364\220\200\200"), 0, LOVEMUDARN_CAUSE_FOLLOW},
    /* a third, and a fourth */
    {"E2 82 28", TEXT("\342\202("), 0, LOVEMUDARN_CAUSE_FOLLOW},
    {"E2 82 C0", TEXT("\342\202\300"), 0, LOVEMUDARN_CAUSE_FOLLOW},
    {"E2 82 00", TEXT("\342\202\0"), 0, LOVEMUDARN_CAUSE_FOLLOW},
    {"F0 90 7F", TEXT("\360\220\177"), 0, LOVEMUDARN_CAUSE_FOLLOW},
    {"F0 90 80 C0", TEXT("\360\220\200\300"), 0, LOVEMUDARN_CAUSE_FOLLOW},
    {"good, then E2 82, then good", TEXT("a\303\251\342\202b"), 3, LOVEMUDARN_CAUSE_FOLLOW},
    {"the first of two: E2 28", TEXT("a\342(\377"), 1, LOVEMUDARN_CAUSE_FOLLOW},
    /* in what a call looks for: a raw string, a string after a hash, a shebang, a comment that does not end */
    {"a raw string with FF", TEXT("r\"\377\""), 2, LOVEMUDARN_CAUSE_START},
    {"a raw string with E2 82", TEXT("r\"\342\202"), 2, LOVEMUDARN_CAUSE_CUT},
    {"a raw string with E2 22", TEXT("r\"\342\""), 2, LOVEMUDARN_CAUSE_FOLLOW},
    {"after a hash, FF", TEXT("#\"\377\""), 2, LOVEMUDARN_CAUSE_START},
    {"after a hash, E2 82", TEXT("#\"\342\202"), 2, LOVEMUDARN_CAUSE_CUT},
    {"after a hash, E2 22", TEXT("#\"\342\""), 2, LOVEMUDARN_CAUSE_FOLLOW},
    {"a shebang with FF", TEXT("#!\377\n"), 2, LOVEMUDARN_CAUSE_START},
    {"a shebang with E2 82", TEXT("#!\342\202"), 2, LOVEMUDARN_CAUSE_CUT},
    {"a shebang with E2 0A", TEXT("#!\342\n"), 2, LOVEMUDARN_CAUSE_FOLLOW},
    {"a comment with FF", TEXT("/*\377"), 2, LOVEMUDARN_CAUSE_START},
    {"a comment with E2 82", TEXT("/*\342\202"), 2, LOVEMUDARN_CAUSE_CUT},
    {"a comment with E2 2A", TEXT("/*\342*/"), 2, LOVEMUDARN_CAUSE_FOLLOW},
};

/* Every call that reads a text says the same of each: at its front and past its end, with room and without. */
static void test_not_utf8(void) {
    same("the causes", "the first", LOVEMUDARN_CAUSE_START, 1);
    same("the causes", "the second", LOVEMUDARN_CAUSE_CUT, 2);
    same("the causes", "the third", LOVEMUDARN_CAUSE_FOLLOW, 3);
    fill_run();
    fill_out();
    for (size_t i = 0; i < sizeof ill / sizeof ill[0]; i += 1) {
        const uint8_t *text = ill[i].text;
        size_t len = ill[i].len, at = ill[i].at, cause = ill[i].cause;
        of = ill[i].bytes;
        answer(": check", lovemudarn_check(text, len, NO_LISTS), LOVEMUDARN_NOT_UTF8, at, cause);
        answer(": is_ident", lovemudarn_is_ident(text, len, NONE, NONE), LOVEMUDARN_NOT_UTF8, at, cause);
        answer(": strip_shebang", lovemudarn_strip_shebang(text, len), LOVEMUDARN_NOT_UTF8, at, cause);
        for (size_t far = 0; far < 2; far += 1) {
            size_t from = far ? len + 1 : 0;
            no_token(": token", lovemudarn_token(text, len, NO_LISTS, from, true), LOVEMUDARN_NOT_UTF8, at, cause);
            answer(": tokens", lovemudarn_tokens(text, len, NO_LISTS, true, run, far ? 0 : 60), LOVEMUDARN_NOT_UTF8, at, cause);
            NO_RUN(": tokens_from", lovemudarn_tokens_from(text, len, NO_LISTS, from, true, run, 60), LOVEMUDARN_NOT_UTF8, at, cause);
            answer(": key", lovemudarn_key(text, len, NO_LISTS, out, far ? 0 : 32), LOVEMUDARN_NOT_UTF8, at, cause);
            raw(": validate_raw_str", lovemudarn_validate_raw_str(text, len, 1 + far), LOVEMUDARN_NOT_UTF8, at, cause, 0, 0, 0, false, 0);
            guarded(": guarded", lovemudarn_guarded(text, len, NONE, NONE, from), LOVEMUDARN_NOT_UTF8, at, cause, 0, false, 0);
        }
        holds(": what is written", some, 0);
        key_holds(": what is written", "", 0);
    }
    of = "";
}

/* The runs of the reader of lists and the buffer of the writer, filled with what no file of these tests has. */
static uint32_t run_starts[8], run_continues[8], run_emoji[8];
static uint8_t file_out[192];

static void fill_lists(void) {
    for (size_t i = 0; i < 8; i += 1) run_starts[i] = run_continues[i] = run_emoji[i] = UNTOUCHED;
}

static void fill_file(void) {
    for (size_t i = 0; i < 192; i += 1) file_out[i] = 0xA5;
}

/* what the runs hold: so many numbers each, and past them what was there */
static void lists_hold(const char *what, const uint32_t *starts, size_t starts_len, const uint32_t *continues, size_t continues_len, const uint32_t *emoji,
                       size_t emoji_len) {
    for (size_t i = 0; i < 8; i += 1) {
        same(what, "a number of the first run", run_starts[i], i < starts_len ? starts[i] : UNTOUCHED);
        same(what, "a number of the second run", run_continues[i], i < continues_len ? continues[i] : UNTOUCHED);
        same(what, "a number of the third run", run_emoji[i], i < emoji_len ? emoji[i] : UNTOUCHED);
    }
}

static void file_holds(const char *what, const uint8_t *right, size_t count) {
    for (size_t i = 0; i < 192; i += 1) same(what, "a byte of the file", file_out[i], i < count ? right[i] : 0xA5);
}

static void lists(const char *what, struct lovemudarn_lists_answer a, unsigned long number, unsigned long beside, unsigned long second, unsigned long major,
                  unsigned long minor, unsigned long update, unsigned long starts, unsigned long continues, unsigned long emoji) {
    same(what, "number", a.number, number);
    same(what, "beside", a.beside, beside);
    same(what, "second", a.second, second);
    same(what, "major", a.major, major);
    same(what, "minor", a.minor, minor);
    same(what, "update", a.update, update);
    same(what, "starts", a.starts, starts);
    same(what, "continues", a.continues, continues);
    same(what, "emoji", a.emoji, emoji);
}

static void no_lists(const char *what, struct lovemudarn_lists_answer a, unsigned long number, unsigned long beside, unsigned long second) {
    lists(what, a, number, beside, second, 0, 0, 0, 0, 0, 0);
}

/* the reader, with so much room in each run */
static struct lovemudarn_lists_answer reads(const uint8_t *file, size_t len, size_t starts, size_t continues, size_t emoji) {
    return lovemudarn_read_lists(file, len, run_starts, starts, run_continues, continues, run_emoji, emoji);
}

/* a file that is refused, and nothing is written, with much room or none */
static void not_read(const char *what, const uint8_t *file, size_t len, unsigned long number, unsigned long beside, unsigned long second) {
    fill_lists();
    no_lists(what, reads(file, len, 8, 8, 8), number, beside, second);
    no_lists(what, reads(file, len, 0, 0, 0), number, beside, second);
    lists_hold(what, NO_LISTS);
}

/* a file with two, three and one pair in its lists, whose numbers have two to six digits; and what it holds */
#define SMALL                                                                                      \
    "unicode\t15\t0\t1\nstart\taa\taa\nstart\tfff\t1000\ncontinue\t300\t36f\n"                      \
    "continue\tffff\t10000\ncontinue\tfffff\t100000\nemoji\t1f600\t10ffff\n"
static const uint32_t small_starts[4] = {0xAA, 0xAA, 0xFFF, 0x1000};
static const uint32_t small_continues[6] = {0x300, 0x36F, 0xFFFF, 0x10000, 0xFFFFF, 0x100000};
static const uint32_t small_emoji[2] = {0x1F600, 0x10FFFF};
#define SMALL_LISTS LIST(small_starts), LIST(small_continues), LIST(small_emoji)
/* the first line of the others */
#define FIRST_LINE "unicode\t15\t0\t0\n"

/* Files with a bad line, and the first. */
static const struct {
    const char *name;
    const uint8_t *file;
    size_t len, line;
} bad_lines[] = {
    /* the first line */
    {"nothing", TEXT(""), 0},
    {"an empty line", TEXT("\n"), 0},
    {"no LF", TEXT("unicode\t15\t0\t0"), 0},
    {"two numbers", TEXT("unicode\t15\t0\n"), 0},
    {"four numbers", TEXT("unicode\t15\t0\t0\t0\n"), 0},
    {"no number", TEXT("unicode\n"), 0},
    {"an empty number", TEXT("unicode\t\t0\t0\n"), 0},
    {"a tab at the end", TEXT("unicode\t15\t0\t0\t\n"), 0},
    {"another word", TEXT("Unicode\t15\t0\t0\n"), 0},
    {"a longer word", TEXT("unicodes\t15\t0\t0\n"), 0},
    {"a part of the word", TEXT("unicod\t15\t0\t0\n"), 0},
    {"blanks", TEXT("unicode 15 0 0\n"), 0},
    {"CR", TEXT("unicode\t15\t0\t0\r\n"), 0},
    {"a byte order mark", TEXT("\357\273\277unicode\t15\t0\t0\n"), 0},
    {"a leading zero", TEXT("unicode\t015\t0\t0\n"), 0},
    {"two zeros", TEXT("unicode\t15\t00\t0\n"), 0},
    {"a sign", TEXT("unicode\t+15\t0\t0\n"), 0},
    {"hexadecimal", TEXT("unicode\tf\t0\t0\n"), 0},
    {"65536 in the first place", TEXT("unicode\t65536\t0\t0\n"), 0},
    {"65536 in the second", TEXT("unicode\t0\t65536\t0\n"), 0},
    {"65536 in the third", TEXT("unicode\t0\t0\t65536\n"), 0},
    {"2 to the 32", TEXT("unicode\t4294967296\t0\t0\n"), 0},
    {"2 to the 64", TEXT("unicode\t18446744073709551616\t0\t0\n"), 0},
    {"a record", TEXT("start\taa\taa\n"), 0},
    /* a record */
    {"an empty second line", TEXT(FIRST_LINE "\n"), 1},
    {"another first line", TEXT(FIRST_LINE FIRST_LINE), 1},
    {"a record without LF", TEXT(FIRST_LINE "start\taa\taa"), 1},
    {"a record with CR", TEXT(FIRST_LINE "start\taa\taa\r\n"), 1},
    {"no high", TEXT(FIRST_LINE "start\taa\n"), 1},
    {"an empty high", TEXT(FIRST_LINE "start\taa\t\n"), 1},
    {"an empty low", TEXT(FIRST_LINE "start\t\taa\n"), 1},
    {"three numbers", TEXT(FIRST_LINE "start\taa\taa\taa\n"), 1},
    {"blanks in a record", TEXT(FIRST_LINE "start aa aa\n"), 1},
    {"no list of this name", TEXT(FIRST_LINE "starts\taa\taa\n"), 1},
    {"no name", TEXT(FIRST_LINE "\taa\taa\n"), 1},
    {"upper case", TEXT(FIRST_LINE "start\tAA\taa\n"), 1},
    {"no digit", TEXT(FIRST_LINE "start\taa\tag\n"), 1},
    {"a byte 0", TEXT(FIRST_LINE "start\taa\0\taa\n"), 1},
    {"a byte past ASCII", TEXT(FIRST_LINE "start\taa\taa\377\n"), 1},
    {"a leading zero in a record", TEXT(FIRST_LINE "start\t0aa\taa\n"), 1},
    {"0x", TEXT(FIRST_LINE "start\t0xaa\taa\n"), 1},
    {"seven digits", TEXT(FIRST_LINE "start\taa\t1000000\n"), 1},
    {"2 to the 64 in a record", TEXT(FIRST_LINE "start\taa\t10000000000000000\n"), 1},
    /* further on */
    {"an empty last line", TEXT(FIRST_LINE "start\taa\taa\n\n"), 2},
    {"the first of two", TEXT(FIRST_LINE "start\taa\taa\nstart\tb5\tb5\nstart\nemoji\n"), 3},
    {"start after continue", TEXT(FIRST_LINE "continue\taa\taa\nstart\tb5\tb5\n"), 2},
    {"start after emoji", TEXT(FIRST_LINE "emoji\taa\taa\nstart\tb5\tb5\n"), 2},
    {"continue after emoji", TEXT(FIRST_LINE "start\taa\taa\nemoji\taa\taa\nemoji\tb5\tb5\ncontinue\tb5\tb5\n"), 4},
    /* 9 before 3 */
    {"a bad pair before it", TEXT(FIRST_LINE "start\t41\t5a\nstart\n"), 2},
};

static void test_read_lists(void) {
    same("the refusals", "a bad line", LOVEMUDARN_BAD_LINE, 9);
    fill_lists();
    lists("a small file", reads(TEXT(SMALL), 8, 8, 8), LOVEMUDARN_DONE, 0, 0, 15, 0, 1, 4, 6, 2);
    lists_hold("a small file", SMALL_LISTS);
    fill_lists();
    lists("just room", reads(TEXT(SMALL), 4, 6, 2), LOVEMUDARN_DONE, 0, 0, 15, 0, 1, 4, 6, 2);
    lists_hold("just room", SMALL_LISTS);

    /* 7: each list with one number too few, two and more, and the first of them is named */
    fill_lists();
    for (size_t room = 0; room < 4; room += 1) {
        no_lists("too little for starts", reads(TEXT(SMALL), room, 8, 8), LOVEMUDARN_SHORT_BUFFER, LOVEMUDARN_LIST_STARTS, 4);
        no_lists("too little for all", reads(TEXT(SMALL), room, room / 2, room / 2), LOVEMUDARN_SHORT_BUFFER, LOVEMUDARN_LIST_STARTS, 4);
    }
    for (size_t room = 0; room < 6; room += 1) {
        no_lists("too little for continues", reads(TEXT(SMALL), 4, room, 8), LOVEMUDARN_SHORT_BUFFER, LOVEMUDARN_LIST_CONTINUES, 6);
        no_lists("too little for two", reads(TEXT(SMALL), 8, room, room / 3), LOVEMUDARN_SHORT_BUFFER, LOVEMUDARN_LIST_CONTINUES, 6);
    }
    for (size_t room = 0; room < 2; room += 1)
        no_lists("too little for emoji", reads(TEXT(SMALL), 4, 6, room), LOVEMUDARN_SHORT_BUFFER, LOVEMUDARN_LIST_EMOJI, 2);
    lists_hold("too little room", NO_LISTS);

    /* lists without a pair, all of them and some */
    lists("a version alone", reads(TEXT(FIRST_LINE), 0, 0, 0), LOVEMUDARN_DONE, 0, 0, 15, 0, 0, 0, 0, 0);
    lists("a version alone", reads(TEXT(FIRST_LINE), 8, 8, 8), LOVEMUDARN_DONE, 0, 0, 15, 0, 0, 0, 0, 0);
    lists_hold("a version alone", NO_LISTS);
    lists("starts alone", reads(TEXT(FIRST_LINE "start\te9\te9\n"), 2, 0, 0), LOVEMUDARN_DONE, 0, 0, 15, 0, 0, 2, 0, 0);
    lists_hold("starts alone", LIST(letters), NONE, NONE);
    fill_lists();
    lists("continues alone", reads(TEXT(FIRST_LINE "continue\te9\te9\n"), 0, 2, 0), LOVEMUDARN_DONE, 0, 0, 15, 0, 0, 0, 2, 0);
    lists_hold("continues alone", NONE, LIST(letters), NONE);
    fill_lists();
    lists("emoji alone", reads(TEXT(FIRST_LINE "emoji\t1f600\t1f64f\n"), 0, 0, 2), LOVEMUDARN_DONE, 0, 0, 15, 0, 0, 0, 0, 2);
    lists_hold("emoji alone", NONE, NONE, LIST(faces));
    fill_lists();
    lists("no continues", reads(TEXT(FIRST_LINE "start\te9\te9\nemoji\t1f600\t1f64f\n"), 8, 8, 8), LOVEMUDARN_DONE, 0, 0, 15, 0, 0, 2, 0, 2);
    lists_hold("no continues", LIST(letters), NONE, LIST(faces));

    /* versions */
    lists("0.0.0", reads(TEXT("unicode\t0\t0\t0\n"), 8, 8, 8), LOVEMUDARN_DONE, 0, 0, 0, 0, 0, 0, 0, 0);
    lists("65535 in each place", reads(TEXT("unicode\t65535\t65535\t65535\n"), 8, 8, 8), LOVEMUDARN_DONE, 0, 0, 65535, 65535, 65535, 0, 0, 0);
    lists("three numbers", reads(TEXT("unicode\t9\t10\t3267\n"), 8, 8, 8), LOVEMUDARN_DONE, 0, 0, 9, 10, 3267, 0, 0, 0);

    /* 9 */
    of = "a bad line: ";
    for (size_t i = 0; i < sizeof bad_lines / sizeof bad_lines[0]; i += 1)
        not_read(bad_lines[i].name, bad_lines[i].file, bad_lines[i].len, LOVEMUDARN_BAD_LINE, bad_lines[i].line, 0);
    of = "";

    /* 3, in each list, before 7; the first list, and its first pair */
    not_read("a pair below 0x80", TEXT(FIRST_LINE "start\t7f\t80\n"), LOVEMUDARN_BAD_LIST, LOVEMUDARN_LIST_STARTS, 0);
    not_read("0", TEXT(FIRST_LINE "start\t0\t0\n"), LOVEMUDARN_BAD_LIST, LOVEMUDARN_LIST_STARTS, 0);
    not_read("six digits", TEXT(FIRST_LINE "emoji\taa\tffffff\n"), LOVEMUDARN_BAD_LIST, LOVEMUDARN_LIST_EMOJI, 0);
    not_read("past U+10FFFF", TEXT(FIRST_LINE "start\te9\te9\ncontinue\t10ffff\t110000\n"), LOVEMUDARN_BAD_LIST, LOVEMUDARN_LIST_CONTINUES, 0);
    not_read("a surrogate", TEXT(FIRST_LINE "continue\te9\te9\ncontinue\td700\td800\n"), LOVEMUDARN_BAD_LIST, LOVEMUDARN_LIST_CONTINUES, 1);
    not_read("U+0085", TEXT(FIRST_LINE "emoji\t80\t84\nemoji\t85\t85\n"), LOVEMUDARN_BAD_LIST, LOVEMUDARN_LIST_EMOJI, 1);
    not_read("not above", TEXT(FIRST_LINE "emoji\taa\taa\nemoji\tb5\tb5\nemoji\tb5\tb6\n"), LOVEMUDARN_BAD_LIST, LOVEMUDARN_LIST_EMOJI, 2);
    not_read("high below low", TEXT(FIRST_LINE "start\tab\taa\n"), LOVEMUDARN_BAD_LIST, LOVEMUDARN_LIST_STARTS, 0);
    not_read("lists in order", TEXT(FIRST_LINE "start\te9\te9\ncontinue\t1\t1\nemoji\t1\t1\n"), LOVEMUDARN_BAD_LIST, LOVEMUDARN_LIST_CONTINUES, 0);
}

/* the writer of the small lists, with this version */
#define WRITE(major, minor, update, room) lovemudarn_write_lists(major, minor, update, SMALL_LISTS, file_out, room)
/* a file of a version alone */
#define VERSION(major, minor, update, right)                                                                                                  \
    (fill_file(), answer(right, lovemudarn_write_lists(major, minor, update, NO_LISTS, file_out, 192), LOVEMUDARN_DONE, sizeof(right) - 1, 0), \
     file_holds(right, TEXT(right)))

/* lists that have no file, and nothing is written, with much room or none */
static void no_file(const char *what, const uint32_t *starts, size_t starts_len, const uint32_t *continues, size_t continues_len, const uint32_t *emoji,
                    size_t emoji_len, unsigned long list, unsigned long pair) {
    fill_file();
    for (size_t room = 0; room <= 192; room += 192)
        answer(what, lovemudarn_write_lists(15, 0, 0, starts, starts_len, continues, continues_len, emoji, emoji_len, file_out, room), LOVEMUDARN_BAD_LIST,
               list, pair);
    file_holds(what, TEXT(""));
}

static void test_write_lists(void) {
    const size_t bytes = sizeof SMALL - 1;
    same("a small file", "its bytes", bytes, 15 + 12 + 15 + 17 + 20 + 22 + 19);
    fill_file();
    answer("a small file", WRITE(15, 0, 1, 192), LOVEMUDARN_DONE, bytes, 0);
    file_holds("a small file", TEXT(SMALL));
    fill_file();
    answer("just room", WRITE(15, 0, 1, bytes), LOVEMUDARN_DONE, bytes, 0);
    file_holds("just room", TEXT(SMALL));
    fill_file();
    answer("one byte short", WRITE(15, 0, 1, bytes - 1), LOVEMUDARN_SHORT_BUFFER, bytes, 0);
    answer("two bytes short", WRITE(15, 0, 1, bytes - 2), LOVEMUDARN_SHORT_BUFFER, bytes, 0);
    answer("no byte", WRITE(15, 0, 1, 0), LOVEMUDARN_SHORT_BUFFER, bytes, 0);
    file_holds("too short", TEXT(""));
    answer("no list, no byte", lovemudarn_write_lists(15, 0, 0, NO_LISTS, file_out, 0), LOVEMUDARN_SHORT_BUFFER, 15, 0);
    answer("no list, one byte short", lovemudarn_write_lists(15, 0, 0, NO_LISTS, file_out, 14), LOVEMUDARN_SHORT_BUFFER, 15, 0);
    file_holds("no list", TEXT(""));
    fill_file();
    answer("no continues", lovemudarn_write_lists(15, 0, 0, LIST(letters), NONE, LIST(faces), file_out, 192), LOVEMUDARN_DONE, 45, 0);
    file_holds("no continues", TEXT(FIRST_LINE "start\te9\te9\nemoji\t1f600\t1f64f\n"));
    fill_file();
    answer("continues alone", lovemudarn_write_lists(15, 0, 0, NONE, LIST(letters), NONE, file_out, 192), LOVEMUDARN_DONE, 30, 0);
    file_holds("continues alone", TEXT(FIRST_LINE "continue\te9\te9\n"));

    /* versions */
    VERSION(15, 0, 0, "unicode\t15\t0\t0\n");
    VERSION(0, 0, 0, "unicode\t0\t0\t0\n");
    VERSION(9, 10, 3267, "unicode\t9\t10\t3267\n");
    VERSION(65535, 0, 0, "unicode\t65535\t0\t0\n");
    VERSION(0, 65535, 0, "unicode\t0\t65535\t0\n");
    VERSION(0, 0, 65535, "unicode\t0\t0\t65535\n");
    VERSION(65535, 65535, 65535, "unicode\t65535\t65535\t65535\n");

    /* 9, before 3 and 7 */
    fill_file();
    answer("65536 in the first place", WRITE(65536, 0, 0, 192), LOVEMUDARN_BAD_LINE, 0, 0);
    answer("65536 in the second", WRITE(0, 65536, 0, 192), LOVEMUDARN_BAD_LINE, 0, 0);
    answer("65536 in the third", WRITE(0, 0, 65536, 192), LOVEMUDARN_BAD_LINE, 0, 0);
    answer("the largest number", WRITE(15, 0xFFFFFFFF, 0, 192), LOVEMUDARN_BAD_LINE, 0, 0);
    answer("no number is cut", WRITE(15, 0, 0x10001, 192), LOVEMUDARN_BAD_LINE, 0, 0);
    answer("9 before 7", WRITE(65536, 65536, 65536, 0), LOVEMUDARN_BAD_LINE, 0, 0);
    answer("9 before 3", lovemudarn_write_lists(0, 65536, 0, LIST(low), NONE, NONE, file_out, 192), LOVEMUDARN_BAD_LINE, 0, 0);
    file_holds("no version", TEXT(""));

    /* 3, before 7 */
    no_file("below 0x80", LIST(low), NONE, NONE, LOVEMUDARN_LIST_STARTS, 0);
    no_file("a half pair", NONE, LIST(half), NONE, LOVEMUDARN_LIST_CONTINUES, 1);
    no_file("not above", NONE, NONE, LIST(meeting), LOVEMUDARN_LIST_EMOJI, 1);
    no_file("a surrogate", LIST(surrogate), NONE, NONE, LOVEMUDARN_LIST_STARTS, 1);
    no_file("lists in order", NONE, LIST(half), LIST(meeting), LOVEMUDARN_LIST_CONTINUES, 1);

    /* there and back: what is written is read, and what is read is written */
    fill_lists();
    answer("there", lovemudarn_write_lists(65535, 7, 0, SMALL_LISTS, file_out, 192), LOVEMUDARN_DONE, bytes + 3, 0);
    lists("and back", reads(file_out, bytes + 3, 8, 8, 8), LOVEMUDARN_DONE, 0, 0, 65535, 7, 0, 4, 6, 2);
    lists_hold("there and back", SMALL_LISTS);
    fill_file();
    fill_lists();
    struct lovemudarn_lists_answer read = reads(TEXT(SMALL), 8, 8, 8);
    answer("back, and there",
           lovemudarn_write_lists(read.major, read.minor, read.update, run_starts, read.starts, run_continues, read.continues, run_emoji, read.emoji, file_out,
                                  192),
           LOVEMUDARN_DONE, bytes, 0);
    file_holds("back, and there", TEXT(SMALL));
}

/* Files with the most pairs, and with one more, made here from the pairs of `many`, whose numbers have five digits. */
static uint8_t long_file[64 + 3 * 23 * (LOVEMUDARN_MAX_PAIRS + 1)], long_out[sizeof long_file];
static uint32_t long_runs[3][2 * LOVEMUDARN_MAX_PAIRS + 2];

static size_t put_text(size_t at, const char *s) {
    while (*s) long_file[at++] = (uint8_t)*s++;
    return at;
}

static size_t put_pairs(size_t at, const char *name, size_t pairs) {
    for (size_t i = 0; i < 2 * pairs; i += 1) {
        at = put_text(at, i % 2 == 0 ? name : "");
        long_file[at++] = 9;
        for (int digit = 16; digit >= 0; digit -= 4) long_file[at++] = (uint8_t)"0123456789abcdef"[many[i] >> digit & 15];
        at = put_text(at, i % 2 == 0 ? "" : "\n");
    }
    return at;
}

#define READ_LONG(len, room) lovemudarn_read_lists(long_file, len, long_runs[0], room, long_runs[1], room, long_runs[2], room)

static void test_long_lists(void) {
    static const char *const names[3] = {"start", "continue", "emoji"};
    const size_t pairs = LOVEMUDARN_MAX_PAIRS, most = 2 * pairs;
    for (uint32_t i = 0; i < most + 2; i += 1) many[i] = 0x10000 + i;
    size_t len = put_text(0, FIRST_LINE);
    for (size_t list = 0; list < 3; list += 1) len = put_pairs(len, names[list], pairs);
    same("the most pairs", "the bytes of the file", len, 15 + pairs * (18 + 21 + 18));
    answer("the most pairs", lovemudarn_write_lists(15, 0, 0, many, most, many, most, many, most, long_out, sizeof long_out), LOVEMUDARN_DONE, len, 0);
    size_t other = 0;
    for (size_t i = 0; i < len; i += 1) other += long_out[i] != long_file[i];
    same("the most pairs", "bytes of the file that are others", other, 0);
    answer("the most pairs, one byte short", lovemudarn_write_lists(15, 0, 0, many, most, many, most, many, most, long_out, len - 1),
           LOVEMUDARN_SHORT_BUFFER, len, 0);
    no_lists("the most pairs, two numbers short", READ_LONG(len, most - 2), LOVEMUDARN_SHORT_BUFFER, LOVEMUDARN_LIST_STARTS, most);
    lists("the most pairs", READ_LONG(len, most), LOVEMUDARN_DONE, 0, 0, 15, 0, 0, most, most, most);
    other = 0;
    for (size_t i = 0; i < 3 * most; i += 1) other += long_runs[i / most][i % most] != many[i % most];
    same("the most pairs", "numbers of the lists that are others", other, 0);

    /* one pair more: the count comes before a bad pair, and both before too little room */
    for (size_t bad = 0; bad < 2; bad += 1) {
        if (bad) many[0] = 0xFFFFF;
        for (size_t list = 0; list < 3; list += 1) {
            len = put_text(0, FIRST_LINE);
            for (size_t i = 0; i < list; i += 1) len = put_text(put_text(len, names[i]), "\te9\te9\n");
            len = put_pairs(len, names[list], pairs + 1);
            no_lists("one pair more", READ_LONG(len, most + 2), LOVEMUDARN_BAD_LIST, list, pairs);
            no_lists("one pair more, no room", READ_LONG(len, 0), LOVEMUDARN_BAD_LIST, list, pairs);
        }
        answer("one pair more", lovemudarn_write_lists(15, 0, 0, LIST(many), NONE, NONE, long_out, sizeof long_out), LOVEMUDARN_BAD_LIST,
               LOVEMUDARN_LIST_STARTS, pairs);
        answer("one pair more", lovemudarn_write_lists(15, 0, 0, NONE, LIST(many), NONE, long_out, 0), LOVEMUDARN_BAD_LIST, LOVEMUDARN_LIST_CONTINUES,
               pairs);
        answer("one pair more", lovemudarn_write_lists(15, 0, 0, NONE, NONE, LIST(many), long_out, sizeof long_out), LOVEMUDARN_BAD_LIST,
               LOVEMUDARN_LIST_EMOJI, pairs);
    }
    len = put_pairs(put_text(0, FIRST_LINE), names[1], pairs);
    no_lists("the most pairs, the first bad", READ_LONG(len, most), LOVEMUDARN_BAD_LIST, LOVEMUDARN_LIST_CONTINUES, 0);
}

/* A text that is one byte too long. Its first byte is ill-formed: 1 comes before 2, and no other byte is read, nor could be: there is no memory after
 * the first page. */
static void test_too_long(void) {
    size_t len = 4294967296;
    uint8_t *text = mmap(0, len, 0, 0x4022, -1, 0);
    same("a long text", "is there no room for it", text == (uint8_t *)-1, false);
    if (text == (uint8_t *)-1) return;
    same("a long text", "is its first page shut", mprotect(text, 4096, 3) != 0, false);
    text[0] = 0xFF;
    answer("check: too long", lovemudarn_check(text, len, LIST(low), NONE, NONE), LOVEMUDARN_TOO_LONG, 0, 0);
    no_token("too long", lovemudarn_token(text, len, LIST(low), NONE, NONE, 0, false), LOVEMUDARN_TOO_LONG, 0, 0);
    fill_run();
    answer("tokens: too long", lovemudarn_tokens(text, len, LIST(low), NONE, NONE, false, run, 0), LOVEMUDARN_TOO_LONG, 0, 0);
    answer("tokens: too long", lovemudarn_tokens(text, len, LIST(low), NONE, NONE, false, run, 60), LOVEMUDARN_TOO_LONG, 0, 0);
    holds("tokens: too long", some, 0);
    NO_RUN("from: too long", lovemudarn_tokens_from(text, len, LIST(low), NONE, NONE, 0, true, run, 60), LOVEMUDARN_TOO_LONG, 0, 0);
    holds("from: too long", some, 0);
    fill_out();
    answer("key: too long", lovemudarn_key(text, len, LIST(low), NONE, NONE, out, 32), LOVEMUDARN_TOO_LONG, 0, 0);
    key_holds("key: too long", "", 0);
    answer("is_ident: too long", lovemudarn_is_ident(text, len, LIST(low), NONE), LOVEMUDARN_TOO_LONG, 0, 0);
    answer("strip_shebang: too long", lovemudarn_strip_shebang(text, len), LOVEMUDARN_TOO_LONG, 0, 0);
    raw("too long", lovemudarn_validate_raw_str(text, len, 3), LOVEMUDARN_TOO_LONG, 0, 0, 0, 0, 0, false, 0);
    guarded("too long", lovemudarn_guarded(text, len, LIST(low), NONE, 0), LOVEMUDARN_TOO_LONG, 0, 0, 0, false, 0);
}

int main(void) {
    test_too_long();
    test_check();
    test_many();
    test_token();
    test_tokens();
    test_tokens_from();
    test_lines();
    test_key();
    test_line_ends();
    test_hidden_marks();
    test_is_ident();
    test_strip_shebang();
    test_validate_raw_str();
    test_guarded();
    test_not_utf8();
    test_classes();
    test_read_lists();
    test_write_lists();
    test_long_lists();
    printf("%lu checks, %lu failed\n", checks, failed);
    return failed != 0;
}
