"""Texts for the calls that read tokens, as requests to the oracle: the head of
tools/oracle/main.rs has their form. A request without its TEXT is about the empty text.
"""

import itertools

from common.chance import Numbers
from common.ending import fail
from common.lists import ALL_ALLOWED, flat

WHITESPACE = "\t\n\x0b\x0c\r \x85\u200e\u200f\u2028\u2029"
# Next to the whitespace points, or whitespace for others but not for Rust.
NO_WHITESPACE = "\x08\x0e\x1c\x1f\x84\x86\xa0\u1680\u2000\u200b\u200c\u200d\u2010\u2027\u202a\u3000\ufeff"
JOINER = "\u200d"
WOMAN_CODER = "\U0001f469" + JOINER + "\U0001f4bb"


# ---- requests ----


def hexed(text):
    return (text if isinstance(text, bytes) else text.encode("utf-8")).hex()


def request(*words):
    """The text may be empty: then its word is missing."""
    return " ".join(word for word in words if word)


def tokens(mode, text):
    return request("tokens", mode, hexed(text))


def shebang(text):
    return request("shebang", hexed(text))


def raw(prefix, text):
    return request("raw", f"{prefix:x}", hexed(text))


def guarded(place, text):
    return request("guarded", f"{place:x}", hexed(text))


def text_of(asked):
    words = asked.split()
    return bytes.fromhex("".join(words[1 if words[0] == "shebang" else 2 :]))


def off(texts):
    return [tokens("off", text) for text in texts]


def off_and_on(texts):
    """On as well where it can make a difference."""
    return off(texts) + [tokens("on", text) for text in texts if text[:1] == "-" or text[:1] in WHITESPACE]


def boundaries(text):
    return [len(text[:count].encode("utf-8")) for count in range(len(text) + 1)]


def guarded_everywhere(texts):
    return [guarded(place, text) for text in texts for place in boundaries(text)]


def over(pieces, longest):
    """Every text of at most that many pieces."""
    for count in range(longest + 1):
        for chosen in itertools.product(pieces, repeat=count):
            yield "".join(chosen)


# ---- the lists ----


def points(text):
    return flat((ord(point), ord(point)) for point in text)


# Start and continue have little in common, and emoji meets both.
POINTS = (
    points("\xa0\xe9\u200d\u4e00\U0001f600"),
    points("\xa0\xef\u0300\u200b\u53d8\U0001f601"),
    points("\xa9\xef\u4e00\u53d8\U0001f4bb\U0001f600\U0010ffff"),
)
# Emoji alone, or all but emoji.
EMOJI_ONLY = ([], [], ALL_ALLOWED)
NO_EMOJI = (ALL_ALLOWED, ALL_ALLOWED, [])


# ---- rows: the scope paper's own texts ----

# Mode, text, first token. The paper and the Rust agree on these; the tool stops where they do not.
ROWS = [
    ("off", "/*/*/", "BlockComment,none,false,5"),
    ("off", "/***/", "BlockComment,none,true,5"),
    ("off", "/**a*/", "BlockComment,outer,true,6"),
    ("off", "////", "LineComment,none,4"),
    ("off", "r##~x", "Literal,RawStr,none,4,4"),
    ("off", "'ab'c", "Literal,Char,true,4,4"),
    ("off", "'a'c", "Literal,Char,true,3,4"),
    ("off", "'''", "Literal,Char,true,3,3"),
    ("off", "1.foo", "Literal,Int,Decimal,false,1,1"),
    ("off", "1.", "Literal,Float,Decimal,false,2,2"),
    ("off", "12_u8", "Literal,Int,Decimal,false,3,5"),
    ("off", "0b2", "Literal,Int,Binary,false,3,3"),
    ("off", "0x1e3", "Literal,Int,Hexadecimal,false,5,5"),
    ("on", "---\nx\n---\n", "Frontmatter,false,false,9"),
    ("on", "---\n----x\n", "Frontmatter,false,false,9"),
    ("on", "----\nx\n---\ny", "Frontmatter,false,false,a"),
    ("on", "--- a\nb---  ---\nz", "Frontmatter,false,false,f"),
    # The errors and the key.
    ("off", "/*/", "BlockComment,none,false,3"),
    ("off", "'\0'", "Literal,Char,true,3,3"),
    ("off", "'ab'", "Literal,Char,true,4,4"),
    ("off", "'/**/'", "Literal,Char,false,1,1"),
    ("off", "'\n'", "Literal,Char,true,3,3"),
    ("off", "= =", "Eq,1"),
    ("off", "==", "Eq,1"),
    ("off", "/* a */x = 1; // b\n", "BlockComment,none,true,7"),
    ("off", "\nx\n=\n1;\n", "Whitespace,1"),
    ("off", "a+1", "Ident,1"),
    ("off", "Ident\t1\nPlus\t1\nLiteral\t1\n", "Ident,5"),
    ("off", "refused\t1\t0\n", "Ident,7"),
    # Where the paper is short.
    ("off", "'a\n'", "Lifetime,false,2"),
    ("off", "0x.", "Literal,Int,Hexadecimal,true,2,2"),
    ("off", "0b.5", "Literal,Int,Binary,true,2,2"),
    ("off", "0o_.5", "Literal,Int,Octal,true,3,3"),
    ("off", "0be3", "Literal,Int,Binary,true,2,4"),
    ("off", "0b1e3", "Literal,Float,Binary,false,5,5"),
    ("off", "0x1.0", "Literal,Float,Hexadecimal,false,5,5"),
    ("off", "'\\", "Literal,Char,false,2,2"),
    ("off", "r##", "Literal,RawStr,none,3,3"),
    ("off", "''a", "Literal,Char,true,2,3"),
    ("off", "b'''", "Literal,Byte,true,4,4"),
    ("off", "'\\\r\nx'", "Literal,Char,false,3,3"),
    ("off", "'\\\nx'", "Literal,Char,true,5,5"),
    ("off", "1.a", "Literal,Int,Decimal,false,1,1"),
    ("off", "'r#1", "UnknownPrefixLifetime,2"),
    ("off", "'r#a", "RawLifetime,4"),
    ("off", "'\\a\n'", "Literal,Char,true,5,5"),
    ("off", "'\\a\n", "Literal,Char,false,3,3"),
    ("on", "---\na\nuse b", "Frontmatter,false,false,5"),
    ("on", "---\na\n//! b", "Frontmatter,false,false,5"),
    ("on", "---\na\n#![b]", "Frontmatter,false,false,5"),
    ("on", "---\na\n----", "Frontmatter,false,false,a"),
    ("off", "r" + "#" * 255 + '""' + "#" * 255 + "x", "Literal,RawStr,ff,201,202"),
    ("off", "r" + "#" * 256 + '""' + "#" * 256 + "x", "Literal,RawStr,none,203,203"),
]
OTHER_ROWS = [
    (raw(1, 'r##"\u00e9"#'), "NoTerminator 2 1 7"),
    (raw(1, "r##"), "InvalidStarter 0"),
    (raw(1, "r" + "#" * 256 + '"'), "NoTerminator 100 0 none"),
    (raw(1, "r" + "#" * 256 + '""' + "#" * 256), "TooManyDelimiters 100"),
    (guarded(0, '##"a"x'), "found 2 true 6 6"),
    (guarded(0, "##a"), "none 2"),
    (shebang("#!a\r"), "4"),
    (shebang("#!\r\n"), "2"),
    (shebang("#!/* a"), "6"),
    (shebang("#![a]"), "none"),
    (shebang("#! /* a */ // b\n [a]"), "none"),
]


def rows(oracle):
    requests = []
    for mode, text, first in ROWS:
        answer = oracle.ask(tokens(mode, text))
        if answer.split()[0] != first:
            fail(f"{text!r}: {answer}, not {first}")
        requests += [tokens(mode, text), tokens("on" if mode == "off" else "off", text)]
    for asked, expected in OTHER_ROWS:
        answer = oracle.ask(asked)
        if answer != expected:
            fail(f"{asked}: {answer}, not {expected}")
        requests.append(asked)
    # Each row's text after other tokens, too.
    return requests + [tokens("off", f"a {text}") for _, text, _ in ROWS]


# ---- edges: texts at which a rule turns ----


def edge_empty():
    return [tokens("off", ""), tokens("on", ""), shebang(""), guarded(0, "")]


def edge_whitespace():
    texts = [WHITESPACE, WHITESPACE + "a" + WHITESPACE, "\r\n\r\n", "\r\r\n", "\n\r"]
    for point in WHITESPACE + NO_WHITESPACE:
        texts += [point, point * 3, f"a{point}b", f"1{point}2", f" {point}\n", f"{point}a"]
    for point in WHITESPACE:
        texts += [f"'{point}'", f"'a{point}'", f'"{point}"', f"/{point}/", f"//{point}x", f"/*{point}*/"]
        texts += [f"-{point}-", f"#{point}!", f"r#{point}", f"'\\{point}'", f"b'{point}'"]
        texts += [f"\u00e9{point}\U0001f600", f"1.{point}"]
    texts += [one + two for one in WHITESPACE for two in WHITESPACE if one != two]
    return off_and_on(texts)


def edge_comments():
    texts = []
    bodies = ["", "a", "/", "*", "!", "/*", "*/", "!/", "\0", "\u00e9"]
    for opener in ("/", "//", "///", "////", "/////", "//!", "///!", "////!", "// /"):
        for body in bodies:
            texts += [opener + body, opener + body + "\r\nb"]
    for opener in ("/*", "/**", "/***", "/****", "/*!", "/*!*", "/**!", "/*/", "/**/", "/* *"):
        for body in bodies:
            texts += [opener + body, opener + body + "*/", opener + body + "**/\n*/*/"]
    texts += ["/*" * count + "*/" * (count + more) for count in range(1, 6) for more in (-1, 0, 1)]
    texts += ["/*/**/*/", "/*/*/*/", "/*//*/", "/**//**/", "/* //*/ */", "/*\"*/\"", "/*'*/'", "*/", "**/"]
    texts += ["///\n", "/*a*//*b*/", "/*a*/ //b", "//a/*\n*/", "a//b", "a/*b*/c", "a/b", "/=", "/ /", "/ *"]
    texts += ["//\r", "////\n", "//a\r\n//b\r\n", "/*\r\n*/", "///\r\n", "//!\r\n", "//\n\n//", "//\u2028a"]
    texts += ["//\x85a\n", "//\n", "//!\n"]
    return off(texts)


def edge_identifiers():
    tails = ["", " ", "#", "'", '"', "-", "1", "a", "\0", "\u00e9", "\u0300", JOINER, "\U0001f600"]
    heads = ["a", "_", "Z", "r", "k", "b", "c", "br", "cr", "rb", "foo", "r1", "a1b", "\u00e9", "x\u0300"]
    heads += ["\u0300", "a\U0001f600", "\U0001f600", WOMAN_CODER, JOINER]
    texts = [head + tail for head in heads for tail in tails]
    texts += [head + tail + more for head in "arkbc" for tail in "#'\"" for more in ("a", "1", "#", "'", '"')]
    for prefix in ("r#", "k#", "r##", "k##", "r#r#", "k#r#", "R#", "rk#", "br#", "cr#"):
        texts += [prefix + tail for tail in ("", "_", "_1", "1", "fn", "\u00e9", "\U0001f600", "\u0300", " a")]
        texts += [prefix + tail for tail in ("a#", "a'", 'a"', "a\U0001f600", "a\u0300b", "\0", "a\0")]
    for emoji in ("\U0001f600", "\u00a9", "\u2764\ufe0f", "1\ufe0f\u20e3", "#\ufe0f\u20e3", "\U0001f1e9"):
        texts += [emoji * 2, f"a{emoji}b{emoji}", f"{emoji}{JOINER}{emoji}", f"{emoji}#", f"{emoji}'"]
        texts += [f'{emoji}"', f"a{emoji}#", f"r#{emoji}", f"'{emoji}", f"1{emoji}", f"{emoji}1"]
        texts += [f"{emoji} {emoji}", f"a{JOINER}{emoji}"]
    return off(texts)


def edge_lifetimes():
    names = ["a", "_", "ab", "static", "r", "rr", "1", "1a", "a1", "\u00e9", "a\u0300", "\u0300"]
    tails = ["", " ", "'", "''", "#", "##", '"', "\n", "\n'", "\0", "\0'", "\\'", "/", "\u00e9", "\U0001f600"]
    texts = ["'" + name + tail for name in names for tail in tails]
    for prefix in ("'r#", "'r##", "'k#", "'rr#", "'1#", "'1r#", "'_#", "'\u00e9#"):
        texts += [prefix + tail for tail in ("", "a", "_", "ab1", "1", "a'", "a#", "'", '"', "\u00e9", "\0")]
    texts += ["'a 'b", "'a,'b>", "&'a str", "<'a>", "'a: loop", "'a'b'c", "'ab'cd'", "'a'1", "'a'_", "b'a"]
    texts += ["c'a"]
    return off(texts)


def edge_quotes():
    inside = ["", "a", "ab", "'", "''", "\\", "\\\\", "\\'", "\\n", "\\u{61}", "\\\n", "\n", "\n\n", "/", "a/"]
    inside += ["/a", "//", "a\n", "\na", "+\n", "+\n'", "+a", "+/", "+", "\0", "\0\0", "+\0", "  ", '"']
    inside += ["\u00e9\u00e9", "\U0001f600", "\u0300", "\r\n", "\\\r\n", "\\/", "\\a/", "+\\", "\\\0", "\u2028"]
    inside += ["\\\u00e9", "\\\\\\"]
    texts = ["'" + body + tail for body in inside for tail in ("", "'", "'u8", "''", "'1", "'\u00e9")]
    texts += ["b'" + body + tail for body in inside for tail in ("", "'_", "''")]
    return off(texts)


def edge_strings():
    inside = ["", "a", "'", "\\", "\\\\", '\\"', "\\n", "\n", "\\\n", "\0", "\u00e9", "\U0001f600", "\r\n"]
    inside += ["//", "/*", "#", "\\\\\\", '\\\\"', '\\\\\\"', "\\\u00e9", "\\\0"]
    tails = ["", '"', '"u8', '"_', '""', '"#', '"1', '"\u00e9']
    texts = ['"' + body + tail for body in inside for tail in tails]
    texts += [open + body + tail for open in ('b"', 'c"') for body in inside for tail in ("", '"x', '""')]
    texts += ['bb"', 'cc"a"', 'bc"', 'rb"a"', 'rc"a"', 'b "a"', 'B"a"', 'C"a"', 'a"b"c', '"a"b"c"']
    return off(texts)


def raw_texts():
    """Raw strings: hashes at the limit, good and bad starts, ends that are nearly one."""
    texts = []
    for start in ("r", "br", "cr"):
        for hashes in ("#" * count for count in (0, 1, 2, 3, 255, 256, 257)):
            fewer = hashes[1:]
            tails = ["", '"', '"a', '""', f'"a"{fewer}', f'"a"{hashes}', f'"a"{hashes}x', f'"a"{hashes}#']
            tails += [f'"a"{fewer}"{hashes}u8', "~", "~x", "'", f'"\u00e9"{hashes}\u00e9', f'"\0"{hashes}\0']
            tails += ["\0", "\u00e9x", f'"\\"{hashes}', f'"\n"{hashes}\n', "1"]
            texts += [start + hashes + tail for tail in tails]
    for count, near, last in itertools.product(range(4), repeat=3):
        texts.append("r" + "#" * count + '"a"' + "#" * near + 'b"' + "#" * last)
    return texts


def edge_raw():
    other = ['rr"a"', 'bbr"a"', 'rbr"a"', 'crr"a"', 'R"a"', 'bR"a"', 'r "a"', 'br "a"', "br", "cr", "r", "brx"]
    other += ["crx"]
    return off(raw_texts() + other)


# Good and bad starts for a raw check.
RAW_STARTS = ["", "r", "b", "br", "bR#", 'a"b"', '\u00e9#"a"#', 'rb"a"', 'xr"a"', 'Br"a"', 'r#"a"#']


def edge_raw_check():
    requests = [raw(1 if text.startswith("r") else 2, text) for text in raw_texts()]
    requests += [raw(1, "r" + body) for body in over('#"a', 5)]
    requests += [raw(2, "br" + body) for body in over('#"\u00e9', 3)]
    requests += [raw(2, "cr" + body) for body in over('#"\0', 3)]
    # Here the port refuses, and the Rust may panic.
    for text in RAW_STARTS:
        requests += [raw(prefix, text) for prefix in (0, 1, 2, 3)]
    return requests


def edge_guarded():
    texts = ["", "a", "#", "##", '#"', '"', '""', '#""', '#""#', '#""##', '##"a"x', '##"a"#x', '##"a"##x']
    texts += ['##"a"###', '#"a\\"b"#', '#"a\\\\"#', '#"\\', '#"\\"', "#'a'#", '# "a"#', '#a"b"', '"a"#']
    texts += ['"a"b#', '"a"_', '"a"1', '#"\u00e9"#\u00e9x', '\u00e9#"a"#', '#\u00e9"a"', '##"\U0001f600"##u8']
    texts += ['#"\0"#\0', "#\0", '##\n"a"', '#"a\n"#']
    most = "#" * 300 + '"a"' + "#" * 299 + "x"
    requests = off(texts + [most]) + guarded_everywhere(texts) + [guarded(0, most), guarded(299, most)]
    requests += [guarded(0, text) for text in over('#"a', 4)]
    return requests + [guarded(0, '#"' + text) for text in over('#"\\a', 3)]


def edge_numbers():
    tails = ["", "0", "2", "8", "a", "F", "g", "_", "u8", "_u8", ".", "..", ".a", "._", ".1", ".e3", "e", "E"]
    tails += ["e3", "e+", "e-3", "e_", "e_3", "e3_", "e3.", "e3f", "e++", "e+_", "e+_1", ".1e", ".1E3", ".1e+"]
    tails += [".1e-3f64", ".1.", ".1.2", ".1_", ".1a", ".0e_", ". ", ".\u00e9", ".\U0001f600", ".\0", "\0"]
    tails += ["\u00e9", "\u0300", "1e3", "1.0", "1.", "#", '"']
    texts = []
    for head in ("0", "1", "0_", "12", "0b", "0o", "0x", "0X", "0b_", "0x_"):
        texts += [head + tail for tail in tails]
    # A base and an exponent, empty or not.
    for head in ("0b1", "0o7", "0xf", "0o1.5", "0b1.0", "0x1.0"):
        texts += [head + tail for tail in ("", "e", "e3", "e+", "E-1", "e_", "e+_2u8", ".", "..", ".e1")]
    texts += ["1.0f32", "1f32", "1.f32", "1e3f32", "0x1.0p1", "1.foo()", "0..2", "0..=2", "1.0.0", "1.e"]
    texts += ["1.E3", "1._e", "9", "0b102", "0o89", "0xg", "0xfg", "0b1u8", "0x1u8", "0xe+1", "0xe", "0b1e+"]
    texts += ["0o1.5e3", "0_e1", "0_.1", "00", "0B1", "1__", "1_._", "_1", "-1", "1-1", "1r#a", '1r"a"', "1'a"]
    texts += ["1.'a", '1."a"', "1.-1", "1.1.a", "1.1..2", "0O7"]
    return off(texts)


def edge_ascii():
    """Every ASCII character alone and doubled; those that mean something next to others."""
    texts = []
    for one in map(chr, range(128)):
        texts += [one, one * 2]
        if not one.isalnum() or one in "bcekorx01":
            texts += [one * 3, f"a{one}", f"{one}a", f"'{one}", f"#{one}", f"{one}#"]
    return off(texts) + [tokens("on", one * count) for one in "-+#/ \n" for count in (1, 2, 3, 4)]


def edge_unknown():
    texts = []
    for one in "\x80\x86\xa0\xa9\u00e9\u0300\u2116\u4e00\ud7ff\ue000\ufeff\U00010000\U0001f600\U0010ffff":
        texts += [one, one * 2, f"{one}a", f"{one}1", f"'{one}", f"'{one}'", f"'a{one}", f"#{one}", f"r#{one}"]
        texts += [f"k#{one}", f"'r#{one}", f"1.{one}", f"1{one}", f'"a"{one}', f"b{one}", f"{one}#"]
        texts += [f"{one}{JOINER}", f"_{one}"]
    return off(texts)


def edge_nul():
    """NUL is what 000 peeks at the end of the text, and a character like others."""
    heads = ["", "a", "1", "1.", "1e", "0x", "'", "'a", "'\\", "b'", '"', '"\\', "r", "r#", 'r#"', "br#", "k#"]
    heads += ["'r#", "#", "##", "/", "//", "/*", "/**", "/*!", "///", "-", "--", "---", "--- ", "--- a"]
    heads += ["---\n", "---\na\n", " ", "\n", "\U0001f600", "\u00e9", "'+", "'+\n", "="]
    texts = []
    for head in heads:
        texts += [head + "\0", head + "\0a", head + "\0'", head + '\0\0"#', head + "\0*/", "\0" + head]
    return off_and_on(texts) + [shebang("#!" + text) for text in texts[::3]]


def edge_shebang():
    texts = ["", "#", "#!", "!", "# !", " #!", "#!a", "#!a\n", "#!a\r\n", "#!a\r", "#!\n", "#!\r", "#!\r\n"]
    texts += ["#!\r\r\n", "#!a\rb\n", "#!\n[", "#!\r\n[", "#![", "#! [", "#!//\n[", "#!//[", "#!///\n["]
    texts += ["#!////\n[", "#!//!\n[", "#!/**/[", "#!/*[*/[", "#!/** */[", "#!/*! */[", "#!/*", "#!/*["]
    texts += ["#!/***/[", "#!/**", "#!/* \n */ \n[a]", "#!/usr/bin/env a", "#!/usr/bin/env a\nfn f() {}"]
    texts += ["#!\u00e9\n", "#!\u2028[", "#!\u200e[", "#!\x85\n[", "#!\0[", "#!\0", "#!a\0\nb", "#!'[", '#!"[']
    texts += ["#![[", "#!][", "#!---\n[", "#!---\na\n---\n[", "#!#![a]", "#!\u00a0[", "#!\ufeff[", "\ufeff#!a"]
    texts += ["#!a\u2028b\n", "#!a\x0bb\n", "#!a\x0cb", "#!a\n\r"]
    requests = [shebang(text) for text in texts] + off(texts)
    requests += [shebang("#!" + text) for text in over(["[", "/*", "*/", "//", "\n", "!"], 3)]
    return requests + [shebang("#!" + text) for text in over("\r\n[ a", 3)]


def frontmatter_starts():
    """Whitespace before the fence, and what stands on its line."""
    texts = []
    before = ["", " ", "\n", "\t", "\r\n", "\n ", " \n", "\n\n", "\r", "\x85", "\u2028", "\u200e\n"]
    for space in before + ["a", "a\n", "#", "//\n"]:
        for fence in ("-", "--", "---", "----", "--- a"):
            texts += [space + fence, space + fence + "\nb\n---\n"]
    infos = ["a", " a", "a ", "\ta\t", "a-b", "Cargo.toml", ".a", "a b", "a,b", "1", "_", "a1", "a-", "a."]
    infos += ["\u00e9", "a\u00e9", "\u0300", "a\u0300", "\U0001f600", "a\U0001f600", "a\r", "\r", " \r", "a\0"]
    infos += ["\0", "a ---", " ---", "a--- b", "\u2028", "a\x85", "a \t b", "a -", "a .", "#", '"a"', "a---"]
    infos += ["\x0b", "a\u00a0"]
    for info in infos:
        texts += [f"---{info}", f"---{info}\nb\n---\nc", f" ----{info}\n---"]
    return texts


def frontmatter_ends():
    """000's order of searches: each kind of end, alone and before and after others."""
    ends = ["\n----", "\n---", "\nuse ", "\n//!", "\n#![", "\n ---", "\na---", " ---"]
    texts = []
    for count in range(4):
        for chosen in itertools.permutations(ends, count):
            texts.append("----" + "".join(chosen))
    near = ["\n-----", "\n--", "\n-", "\nuse", "\nuse\t", "\n//", "\n// !", "\n#!", "\n#[", "\n\t---"]
    near += ["\n \t ---x", "\n\u2028---", "\n\r---"]
    for end in ends + near:
        texts += [f"---a\nb{end}c\nd", f"----\nb{end}\r\nd", f"---\r\nb\r{end}x\r\ny"]
        texts += [f"-----\n\u00e9{end}\u00e9\n\u00e9"]
    # The last search: dashes found twice, cut by three, after a newline or not.
    texts += ["----\nb---  ---\nz", "----\nb--- ---", "----\nb--- a---", "----\nb----", "----\nb-----"]
    texts += ["----\nb------", "----\nb--- \n ---", "----\nb---\t---c\nd", "----\nb---a ---", "----\n ---"]
    texts += ["----\n  ---  \n---", "---- a ---\nb", "---- a b---\nc", "----  ---- x"]
    texts += ["--- a ---", "--- a b ---", "----", "---", "-----\n----\n---\n", "---\n---", "---\n\n---"]
    return texts + ["---\n---\n---\n"]


def edge_frontmatter():
    starts, ends = frontmatter_starts(), frontmatter_ends()
    requests = [tokens("on", text) for text in starts + ends]
    # Off, a fence is as many minus signs: a part is enough.
    requests += off(starts[::3] + ends[::6])
    return requests + [tokens("on", "---" + text) for text in over("-\n a", 4)]


# The first and the last byte of each row of UTF-8, of its second bytes too, and what is right before and right after them.
EDGE_BYTES = bytes.fromhex("00417f808f909fa0bfc0c1c2dfe0e1ecedeeeff0f1f3f4f5ff")
ILL_FORMED = [
    b"\x80", b"\xff", b"\xc3", b"a\x80", b"a\xc3", b"a\xffb", b"\xe2\x82", b"\xc0\xaf", b"\xed\xa0\x80",
    b"\xf0\x9f\x98", b"\xf4\x90\x80\x80", b"/*\xff*/", b"'\xc3'", b'r"\x80"', b'br#"\xf0\x9f"#',
    b'#"\xe2\x82"#', b"#!\xff", b"#!a\n\xff", b"---\n\xff",
]


def edge_ill_formed():
    requests = [tokens(mode, text) for text in ILL_FORMED for mode in ("off", "on")]
    requests += [shebang(text) for text in ILL_FORMED] + [raw(1, text) for text in ILL_FORMED]
    return requests + [guarded(0, text) for text in ILL_FORMED]


EDGES = {
    "edges empty": edge_empty,
    "edges whitespace": edge_whitespace,
    "edges comments": edge_comments,
    "edges identifiers": edge_identifiers,
    "edges lifetimes": edge_lifetimes,
    "edges quotes": edge_quotes,
    "edges strings": edge_strings,
    "edges raw": edge_raw,
    "edges raw check": edge_raw_check,
    "edges guarded": edge_guarded,
    "edges numbers": edge_numbers,
    "edges ascii": edge_ascii,
    "edges unknown": edge_unknown,
    "edges nul": edge_nul,
    "edges shebang": edge_shebang,
    "edges frontmatter": edge_frontmatter,
    "edges ill-formed": edge_ill_formed,
}


# ---- short: every short text over a few alphabets ----

# Name, alphabet, longest text, modes.
SHORT = [
    ("short comments", "/*!a\n", 4, ["off"]),
    ("short quotes", "'\\a\n/\"", 4, ["off"]),
    ("short prefixes", "rbc#\"'", 4, ["off"]),
    ("short numbers", "01xe._", 4, ["off"]),
    ("short exponents", "0be.+a", 3, ["off"]),
    ("short dashes", "-\na #", 4, ["off", "on"]),
    ("short hashes", "#![/*", 4, ["off"]),
    ("short raw names", "kr#'a_", 3, ["off"]),
]


def short(alphabet, longest, modes):
    return [tokens(mode, text) for mode in modes for text in over(alphabet, longest)]


# ---- random texts ----

FRAGMENTS = [
    # identifiers and prefixes
    "a", "foo", "_", "_x1", "self", "r", "b", "c", "br", "cr", "k", "e", "\u00e9", "na\u00efve", "\u53d8\u91cf",
    "x\u0300", "r#a", "r#fn", "r#_", "k#fn", "k#", "foo#", "foo'", 'foo"', "r#\u00e9", "\u0300",
    # lifetimes and single quotes
    "'a", "'static", "'_", "'r#a", "'r#", "'foo#", "'1", "'1a", "'\u00e9", "'a'", "'\\n'", "'\\''", "'\\\\'",
    "'''", "''", "'", "'ab'", "'\\u{1F600}'", "'\"'", "'/'", "'\n'", "'\U0001f600'", "b'a'", "b'\\x00'", "b'",
    "b''", "b'''", "'+ ", "\\'",
    # strings
    '"a"', '""', '"\\""', '"\\\\"', '"', '"a', '"\n"', 'b"a"', 'b"', 'c"a"', 'c"', '"\u00e9"', '\\"',
    'r"a"', 'r""', 'r#"a"#', 'r##"a"#"##', 'r#"a', 'r##"a"#', "r#", "r##~", 'br"a"', 'br#"a"#', "br#", 'cr"a"',
    'cr#"a"#',
    # numbers
    "0", "1", "12_u8", "0b1", "0b", "0o7", "0o", "0x", "0xfF", "1.", "1.5", "1..2", "1.foo", "1e3", "1e", "1e+",
    "1.0e-3f64", "0e0", "0x1e3", "0b1.0", "1_",
    # comments
    "// a\n", "//", "/// a\n", "//! a\n", "////\n", "/* a */", "/**/", "/** a */", "/*! a */", "/***/", "/*",
    "*/", "/*/", "/* /* */ */", "/**", "// a\r\n",
    # hashes
    '#"a"#', "##", '#"', '###"a"##', "#", "#!", "#![a]", "#[a]",
    # whitespace
    " ", "\n", "\t", "\r\n", "\r", "\x0b\x0c", "\x85", "\u2028", "\u200e", "  \n",
    # punctuation
    ";", ",", ".", "..", "...", "..=", "(", ")", "{", "}", "[", "]", "@", "~", "?", "::", "$", "=", "==", "!=",
    "<", "<<=", "->", "=>", "-", "---", "&&", "||", "+=", "*", "/", "^", "%", ":",
    # emoji and unknown
    "\U0001f600", "a\U0001f600", "\U0001f600a", WOMAN_CODER, JOINER, "\u00a9", "\u2764\ufe0f", "\u2116", "\0",
    "`", "\\", "\x7f", "\u00a0", "\u200b", "\ufeff", "\U0010ffff",
    # what ends a frontmatter
    "\nuse a", "\n//! a", "\n#![a]", "\n---", "\n----", " ---",
]
FENCES = ["---", "----", "---\n", "----\n", "--- a\n", " ---\n", "\n---\n", "---a.b\n", "--- a b\n", "\t----"]
FENCES += ["---\r\n", "--- \u00e9\n", "---a\u0300.b\n", "---\U0001f600"]
EDGE_CHARACTERS = "'\"\\/\n*!#rbck01_-.e a\r\0\u00e9\u0300\u200d\x85\U0001f600"


def glued(numbers):
    """Fragments one after the other; now and then a space between two."""
    text = ""
    for _ in range(1 + numbers.below(12)):
        text += numbers.pick(FRAGMENTS)
        if numbers.below(6) == 0:
            text += " "
    return text


def damaged_once(numbers, text):
    place = numbers.below(len(text) + 1)
    how = numbers.below(6)
    if how == 0:
        return text[:place] + numbers.pick(EDGE_CHARACTERS) + text[place + 1 :]
    if how == 1:
        return text[:place] + text[place + 1 :]
    if how == 2:
        return text[:place] + numbers.pick(EDGE_CHARACTERS) + text[place:]
    if how == 3:
        return text[:place] + text[place : place + 1] * 2 + text[place + 1 :]
    return text[:place] if how == 4 else text[place:]


def damaged(numbers):
    text = glued(numbers)
    for _ in range(1 + numbers.below(3)):
        text = damaged_once(numbers, text)
    return text


def damaged_bytes(numbers, text):
    """One byte changed, taken out or put in: often no longer UTF-8."""
    text = bytearray(text)
    place = numbers.below(len(text))
    # Half of the bytes put in come from those at which the rules turn.
    byte = numbers.below(256)
    if numbers.below(2) == 0:
        byte = numbers.pick(bytes.fromhex("007f80bfc0c1c2dfe0edeff0f4f5ff8f909fa0"))
    how = numbers.below(3)
    if how == 0:
        text[place] = byte
    elif how == 1:
        del text[place]
    else:
        text.insert(place, byte)
    return bytes(text)


def random_request(numbers, make):
    """Mostly tokens; a share for frontmatter and for the other calls."""
    text = make(numbers)
    call = numbers.below(16)
    if call < 9:
        return tokens("off", text)
    if call < 11:
        return tokens("on", text)
    if call < 13:
        return tokens("on", numbers.pick(FENCES) + text)
    if call == 13:
        return shebang("#!" + text)
    if call == 14:
        head = numbers.pick(["", "a", "\u00e9 "])
        string = numbers.pick(['"', '"a"', '"a"#', '"a"\u00e9', '"a"_\u0300'])
        # The cursor starts at the hashes, not at the text before them.
        return guarded(len(head.encode("utf-8")), head + "#" * numbers.below(4) + string + text)
    start = numbers.pick(["r", "r", "br", "cr"])
    return raw(len(start), start + "#" * numbers.below(4) + '"' + text)


def random_section(seed, make, size):
    numbers = Numbers(seed)
    requests = {}
    while len(requests) < size:
        requests[random_request(numbers, make)] = None
    return list(requests)


def has_others(asked):
    """Whether the text of a request has a character outside ASCII."""
    return any(byte >= 0x80 for byte in text_of(asked))


def listed_requests(seed, size):
    """Texts at which the lists matter: the same ones are asked with each."""
    numbers = Numbers(seed)
    requests = {}
    while len(requests) < size:
        asked = random_request(numbers, numbers.pick([glued, damaged]))
        if has_others(asked):
            requests[asked] = None
    return list(requests)


# ---- long texts ----

LINE = "fn f<'a>(x: &'a str) -> u8 { b'\\n' } // g\n"


def long_texts():
    texts = ["a" * 5000, "_" + "aZ09_" * 999, "r#" + "a" * 5000, "'" + "a" * 5000, "'" + "a" * 5000 + "'"]
    texts += ["\u00e9\u0300a" * 1000, "\U0001f600" * 1000 + JOINER + "a" * 1000 + "#", "1" * 5000 + "u8"]
    texts += ["0x" + "fF_" * 1500 + "g", "1." + "0" * 3000 + "e-" + "9" * 2000, "//" + "a" * 20000 + "\nb"]
    texts += ["/*" + "a" * 20000 + "*/b", "/*" * 1000 + "*/" * 1000 + "a", "/*" * 1001 + "*/" * 1000]
    texts += ["/*/" * 2000, "/" * 5000, "/" + "*" * 5000 + "/a", "/*" + "/**/" * 2000 + "*/", " " * 5000 + "a"]
    texts += ["\r\n" * 2500 + "\u2028" * 500 + "a", '"' + "\\\\" * 3000 + '"x', '"' + "\\\\" * 3000 + '\\"']
    texts += ['"' + "a\n" * 3000, "'" + "\\a" * 3000 + "'x", "'+" + "\\'" * 2000 + "/"]
    for start in ("r", "br", "cr"):
        texts += [start + "#" * 2000 + '"' + "a" * 500 + '"' + "#" * 2000 + "x", start + "#" * 2000]
    texts += ['r###"' + '"##' * 1500 + '"###x', 'r###"' + '"##' * 1500, "#" * 3001, "#" * 3001 + '"']
    texts += ["a+" * 1500, "'a," * 1000, "\0" * 2000, "-" * 2001]
    texts += [LINE * 60]
    return texts


def long_frontmatter():
    texts = ["---\n" + "a\n" * 3000 + "---\nb", "-" * 300 + "\n" + ("-" * 299 + "\n") * 20 + "-" * 300 + "x\ny"]
    texts += ["---" + "a.b-" * 800 + "\n---\n", "----\n" + "a---" * 1500 + " ---\nb", "----\n" + "a---" * 1500]
    texts += ["----\n" + "a\n" * 2000 + "use b", " \n" * 2000 + " ---\n---"]
    # The Rust panics on the second; the port has no such limit.
    return texts + ["-" * 65535, "-" * 65536, "-" * 65535 + "\n" + "-" * 65535 + "\n"]


def long_section():
    requests = [tokens("off", text) for text in long_texts()]
    requests += [tokens("on", text) for text in long_frontmatter()]
    requests += [tokens("off", text) for text in long_frontmatter()[:7]]
    for count in (254, 255, 256, 257, 3000):
        hashes = "#" * count
        requests += [raw(1, f'r{hashes}"a"{hashes}'), raw(2, f'br{hashes}"a"{hashes[1:]}b')]
        requests += [raw(2, f"cr{hashes}"), guarded(0, f'{hashes}"a"{hashes}#'), guarded(0, f'{hashes}"a')]
        requests += [guarded(0, hashes)]
    requests += [raw(1, 'r###"' + '"##' * 1500), raw(1, 'r###"' + "\u00e9" * 3000 + '"#"##')]
    requests += [shebang("#!" + "/" * 5000), shebang("#!" + "a" * 5000 + "\r\n")]
    requests += [shebang("#!" + "/*" * 1000 + "*/" * 1000 + "[")]
    return requests + [shebang("#!" + " // a\n" * 1000 + "[a]"), shebang("#!" + "\n" * 3000 + "[")]
