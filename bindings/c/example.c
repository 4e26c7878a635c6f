/* The key and the tokens of standard input, or why it has none: how the calls are used from C.
 *
 *   tools/native-archive exports target/archive/liblovemudarn.a
 *   gcc -std=c99 -Ibindings/c bindings/c/example.c target/archive/liblovemudarn.a -o example
 *   ./example [LISTS] <rule.rs
 *
 * LISTS is a file of Unicode lists, such as data/unicode-15.0.0.lists. Without it the lists are empty.
 */
#include <stdio.h>
#include <string.h>
#include "lovemudarn.h"

enum { MOST = 65536, RUN = 2 * LOVEMUDARN_MAX_PAIRS, WIDTH = LOVEMUDARN_NUMBERS_OF_A_TOKEN, MOST_LISTS = 524288 /* no file of lists has more bytes */ };

static uint8_t text[MOST + 1], replaced[MOST], key[MOST], file[MOST_LISTS + 1];
static uint32_t slots[WIDTH * MOST]; /* n bytes have at most n tokens */
static uint32_t starts[RUN], continues[RUN], emoji[RUN];
static struct lovemudarn_lists_answer has; /* how many numbers the lists have: 0 */
#define LISTS starts, has.starts, continues, has.continues, emoji, has.emoji

/* Reads the lists of a file. */
static bool load(const char *name) {
    FILE *in = fopen(name, "rb");
    size_t n = in ? fread(file, 1, sizeof file, in) : 0;
    bool whole = in && !ferror(in) && n <= MOST_LISTS;
    if (in)
        fclose(in);
    if (!whole) {
        fprintf(stderr, "%s cannot be read, or is too long for a file of lists\n", name);
        return false;
    }
    has = lovemudarn_read_lists(file, n, starts, RUN, continues, RUN, emoji, RUN);
    if (has.number == LOVEMUDARN_BAD_LINE)
        fprintf(stderr, "refused 9: line %zu (counted from 0) of %s is bad\n", has.beside, name);
    else if (has.number != LOVEMUDARN_DONE)
        fprintf(stderr, "refused %u: %zu %zu in %s\n", (unsigned)has.number, has.beside, has.second, name);
    return has.number == LOVEMUDARN_DONE;
}

/* The name of the hidden direction mark at a place of the text. Each has three bytes: E2 80 and AA to AE, or E2 81 and A6 to A9. */
static const char *mark_name(size_t at) {
    static const char *const names[] = {
        "U+202A LEFT-TO-RIGHT EMBEDDING", "U+202B RIGHT-TO-LEFT EMBEDDING", "U+202C POP DIRECTIONAL FORMATTING", "U+202D LEFT-TO-RIGHT OVERRIDE",
        "U+202E RIGHT-TO-LEFT OVERRIDE", "U+2066 LEFT-TO-RIGHT ISOLATE", "U+2067 RIGHT-TO-LEFT ISOLATE", "U+2068 FIRST STRONG ISOLATE",
        "U+2069 POP DIRECTIONAL ISOLATE",
    };
    return names[text[at + 1] == 0x80 ? text[at + 2] - 0xAA : text[at + 2] - 0xA6 + 5];
}

/* A refusal in words, for these calls; the header has all numbers. */
static int explain(struct lovemudarn_answer a) {
    switch (a.number) {
    case LOVEMUDARN_NOT_UTF8:
        fprintf(stderr, "refused 2: the text is not UTF-8 from byte %zu on: %s\n", a.beside,
                a.second == LOVEMUDARN_CAUSE_START ? "no character begins with that byte"
                : a.second == LOVEMUDARN_CAUSE_CUT ? "it ends inside a character"
                                                   : "a later byte of the character is wrong");
        break;
    case LOVEMUDARN_DOUBLE_RETURN:
        fprintf(stderr, "refused 10: a line ends with CR CR LF at byte %zu; write LF or CR LF\n", a.beside);
        break;
    case LOVEMUDARN_HIDDEN_MARK: /* its name is written, and not the mark itself, which would change how this line is shown */
        fprintf(stderr, "refused 11: a hidden direction mark, %s, stands at byte %zu; delete it, or in a string write it as an escape\n", mark_name(a.beside),
                a.beside);
        break;
    case LOVEMUDARN_BROKEN_TOKEN: /* a place in the replaced text */
        fprintf(stderr, "refused 6: the literal or comment that begins at byte %zu (each CR LF counted as one) does not end\n", a.beside);
        break;
    default:
        fprintf(stderr, "refused %u: %zu %zu\n", (unsigned)a.number, a.beside, a.second);
    }
    return 1;
}

/* The key is of the text in which each CR LF is LF. This makes it of the first n bytes of the text, and gives its length. */
static size_t replace(size_t n) {
    size_t m = 0;
    for (size_t i = 0; i < n; i++)
        if (text[i] != '\r' || i + 1 == n || text[i + 1] != '\n')
            replaced[m++] = text[i];
    return m;
}

/* The place in token i of the replaced text of a character past ASCII that only lists that hold more can judge, or n where there is none: one that is an unknown token; or that begins no
 * name by these lists, and stands after a single quote and is not alone before the next, or after r#. */
static size_t judged(size_t i, size_t n) {
    const uint32_t *token = slots + WIDTH * i;
    uint32_t code = token[LOVEMUDARN_CODE], suffix_start = token[LOVEMUDARN_SUFFIX_START], len = token[LOVEMUDARN_LEN];
    size_t start = token[LOVEMUDARN_START], at = n;
    if (LOVEMUDARN_KIND_OF(code) == LOVEMUDARN_KIND_UNKNOWN) {
        at = start;
    } else if (LOVEMUDARN_KIND_OF(code) == LOVEMUDARN_KIND_LITERAL && len > 1) {
        uint32_t literal = LOVEMUDARN_LITERAL_OF(code);
        bool whole = LOVEMUDARN_LITERAL_DETAIL_OF(code) != 0; /* closed, and of a raw string: with a count of hashes */
        uint8_t second = replaced[start + 1];
        uint32_t bytes = second < 0xE0 ? 2 : second < 0xF0 ? 3 : 4; /* of the character, if it is past ASCII */
        if (literal == LOVEMUDARN_LITERAL_CHAR && !(whole && suffix_start == 2 + bytes) && second >= 0x80 &&
            !lovemudarn_is_ident(replaced + start + 1, bytes, starts, has.starts, continues, has.continues).beside)
            at = start + 1;
        else if (literal == LOVEMUDARN_LITERAL_RAW_STR && !whole && second == '#' && len > 2)
            at = start + 2;
    }
    return at < n && replaced[at] >= 0x80 ? at : n;
}

/* The first place where lists that hold more may matter, or n. WITHOUT LISTS TWO RULES THAT DIFFER MAY HAVE ONE KEY: the lifetime in f!('é "' // limit 5"); is none
 * then, its quote pairs with the one in the string, and the rest of the string is dropped as a comment. With lists the same may happen to a letter that is newer than
 * they are. So this example keys a text only where there is no such place. */
static size_t needs_lists(size_t tokens, size_t n) {
    for (size_t i = 0; i < tokens; i++)
        if (judged(i, n) < n)
            return judged(i, n);
    return n;
}

int main(int argc, char **argv) {
    if (argc > 1 && !load(argv[1]))
        return 2;
    size_t n = fread(text, 1, sizeof text, stdin);
    if (ferror(stdin) || n > MOST) {
        fputs(n > MOST ? "this example takes 65536 bytes\n" : "standard input cannot be read\n", stderr);
        return 2;
    }
    /* The key call is lent the text as it is: it replaces CR LF itself. That CR CR LF or a hidden direction mark stands in it, in a shebang too, no list and no blank below
     * may hide: so these two are told first. */
    struct lovemudarn_answer a = lovemudarn_key(text, n, LISTS, key, MOST);
    if (a.number == LOVEMUDARN_DOUBLE_RETURN || a.number == LOVEMUDARN_HIDDEN_MARK)
        return explain(a);
    /* rustc takes a shebang away before it looks for tokens: a comment or a string that seems to begin in one would hide rules. Blanks in its place keep every position. */
    a = lovemudarn_strip_shebang(text, n);
    if (a.number != LOVEMUDARN_DONE)
        return explain(a);
    memset(text, ' ', a.beside); /* 0 where there is none */
    /* what could hide in the key is looked for in the text that it is of */
    size_t m = replace(n);
    struct lovemudarn_answer tokens = lovemudarn_tokens(replaced, m, LISTS, false, slots, WIDTH * MOST);
    if (tokens.number != LOVEMUDARN_DONE)
        return explain(tokens);
    size_t at = needs_lists(tokens.beside, m);
    if (at < m) {
        fprintf(stderr, "not keyed: at byte %zu (each CR LF counted as one) stands a character past ASCII that only lists can judge, and these do not; lend %s lists\n",
                at, argc > 1 ? "newer" : "Unicode's");
        return 1;
    }
    a = lovemudarn_key(text, n, LISTS, key, MOST);
    if (a.number != LOVEMUDARN_DONE)
        return explain(a);
    tokens = lovemudarn_tokens(text, n, LISTS, false, slots, WIDTH * MOST);
    if (tokens.number != LOVEMUDARN_DONE)
        return explain(tokens);
    printf("key, %zu bytes:\n", a.beside);
    fwrite(key, 1, a.beside, stdout);
    printf("\ntokens, %zu: code, suffix start, length, start, line (counted from 0)\n", tokens.beside);
    for (size_t i = 0; i < tokens.beside; i++) {
        const uint32_t *token = slots + WIDTH * i;
        printf("%u %u %u %u %u\n", (unsigned)token[LOVEMUDARN_CODE], (unsigned)token[LOVEMUDARN_SUFFIX_START], (unsigned)token[LOVEMUDARN_LEN],
               (unsigned)token[LOVEMUDARN_START], (unsigned)token[LOVEMUDARN_LINE]);
    }
    if (fflush(stdout) != 0 || ferror(stdout)) {
        fprintf(stderr, "standard output cannot be written\n");
        return 2;
    }
    return 0;
}
