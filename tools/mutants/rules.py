"""Wrong programs made by rule: an operator, a bound, a constant or a branch of the code or of a definition is changed.

Each rule gives, for a line, the lines that it could become. What is not code is left alone: comments, imports, contracts (they are tried by
changing the definitions that they cite) and the header of a declaration.
"""
import re

NUMBER = re.compile(r"(?<![\w'.·])(0x[0-9A-Fa-f]+|\d+)(?![\w'.·])")
PAIRS_RT = [(" <= ", " < "), (" < ", " <= "), (" == ", " != "), (" != ", " == "), (" + ", " - "), (" - ", " + "), (" * ", " + "), (" / ", " * "),
            (" && ", " || "), (" || ", " && "), ("true", "false"), ("false", "true"), ("::Inner", "::Outer"), (" !", " ")]
PAIRS_ANTT = [("leb ", "ltb "), ("ltb ", "leb "), (" ≤ ", " < "), (" < ", " ≤ "), ("and ", "or "), ("or ", "and "), ("true", "false"), ("false", "true"), (" + ", " * "), ("take ", "drop "),
              ("(not ", "("), ("'#'", "'-'"), ("'double'", "'single'"), ("'single'", "'double'"), ("'newline'", "'#'"), ("'/'", "'#'"), ("if_eat ", "if_at ")]
WORD = r"(?<![\w'·.-]){}(?![\w'·-])"


def numbers(line):
    """each number one larger, and each but 0 one smaller"""
    for m in NUMBER.finditer(line):
        n = int(m.group(1), 0)
        for other in (n + 1, n - 1):
            if other >= 0:
                text = f"0x{other:X}" if m.group(1).startswith("0x") else str(other)
                yield line[:m.start()] + text + line[m.end():]


def swaps(line, pairs):
    """each occurrence of a word or an operator replaced by its opposite"""
    for old, new in pairs:
        pattern = WORD.format(re.escape(old)) if old.isalpha() else (r"(?<![\w-])" if old[0].isalpha() else "") + re.escape(old)
        for m in re.finditer(pattern, line):
            yield line[:m.start()] + new + line[m.end():]


def branches(line):
    """a test that always holds, one that never holds, and its opposite"""
    m = re.match(r"(.*\bif )(?!let )(.+)( \{.*)$", line)
    if m:
        for test in ("true", "false", f"!({m.group(2)})"):
            yield m.group(1) + test + m.group(3)


def left_out(line):
    """a statement that is not done"""
    if re.match(r"\s*[\w.\[\]+ *]+ [+-]?= [^=].*;$", line) and not line.lstrip().startswith(("let ", "const ", "pub ")):
        yield ""


def of_code(lines):
    """(index, new line) for every wrong program of a file of Rattle"""
    contract = False
    for i, line in enumerate(lines):
        bare = line.strip()
        contract = bare.startswith(("requires", "ensures"))
        if contract or not line.startswith(" ") and not bare.startswith(("const ", "pub const ")) or bare.startswith(("//", "pub fn", "fn ", "use ", "ghost ")) or "↦" in line:
            continue
        for rule in (numbers, branches, left_out, lambda l: swaps(l, PAIRS_RT)):
            for new in rule(line):
                if new != line:
                    yield i, new


def in_scope(lines):
    """the names that a file of specs imports or defines: a word that is not among them would fail as a name, not as a fact"""
    names = set()
    for line in lines:
        if line.startswith("use "):
            names.update(re.split(r",\s*", line.partition("{")[2].rstrip("}")))
        else:
            names.update(re.findall(r"^(?:abbrev |unfoldable )?pub ([^\s:]+) :", line))
    return names


def of_definitions(lines):
    """(index, new line) for every wrong definition of a file of specs"""
    names = in_scope(lines)
    pairs = [(old, new) for old, new in PAIRS_ANTT if new.strip() in names or f"◌{new.strip()}◌" in names or new == "("]
    for i, line in enumerate(lines):
        bare = line.strip()
        if not bare or bare.startswith(("--", "use ", "pub mod", "abbrev ", "unfoldable ", "module ", "pub data", "pub record")) or " : " in line and "=" not in line:
            continue
        head, eq, tail = line.partition("=") if " = " in line else ("", "", line)
        for rule in (numbers, lambda l: swaps(l, pairs)):
            for new in rule(tail):
                if new != tail:
                    yield i, head + eq + new
