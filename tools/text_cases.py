#!/usr/bin/env python3
"""Writes the cases of crates/text_trials: its stdin and the stdout that is expected of it.

    python3 tools/text_cases.py           write both files anew
    python3 tools/text_cases.py --check   tell whether they are what this writes

Each line of stdin spells one text, and the line of stdout at the same place is what tools/oracle.py says of that text:
REFUSAL PLACE, or ok WORDS DEPTH; then a stroke, and what the grammar says: program, 13 and a place, or - for a text that
cannot be read. Nothing is taken from the program that is tried.

A line is pieces with | between them. N*PIECE is the piece N times; any other piece is itself. In a piece \\HH, with two
lower-case hexadecimal digits, is one byte. So | and * and the backslash themselves are always spelled so.
"""

import random
import re
import sys
from pathlib import Path

import oracle

CRATE = Path(__file__).resolve().parent.parent / "crates" / "text_trials"


def expand(line):
    """The text that a line spells."""
    text = b""
    for piece in line.split("|"):
        times, star, spelled = piece.partition("*")
        if not star:
            times, spelled = "1", piece
        one = re.sub(r"\\([0-9a-f]{2})", lambda m: chr(int(m.group(1), 16)), spelled)
        text += one.encode("latin-1") * int(times)
    return text


def spell(text):
    """A line that spells the text."""
    plain = set(range(32, 127)) - set(b"|*\\")
    line = "".join(chr(b) if b in plain else f"\\{b:02x}" for b in text)
    assert expand(line) == text
    return line


def verdict(text):
    if len(text) > oracle.MAX_TEXT:
        return "10 0 / -"
    try:
        ws = oracle.words(text)
        read = f"ok {len(ws)} {oracle.depth(ws)}"
    except oracle.Refusal as r:
        return f"{r.number} {r.place} / -"
    return f"{read} / {grammar_verdict(text)}"


def grammar_verdict(text):
    """What is refused after the grammar is refused of a program."""
    try:
        oracle.check(text)
    except oracle.Refusal as r:
        if r.number == 13:
            return f"13 {r.place}"
    return "program"


def single_bytes():
    """Every byte alone, after a name, and between a sign and a bracket."""
    for b in range(256):
        yield spell(bytes([b]))
        yield spell(b"x" + bytes([b]))
        yield spell(b"=" + bytes([b]) + b"(")


SEPARATORS = [
    "", " ", "\\09", "\\0a", "\\0d", "\\20\\09\\0d\\0a", "\\0d\\0aa\\0d\\0a", "a b\\09c\\0ad\\0de", " a", "a ", "3* |a|3*\\0a",
    "a\\0bb", "a \\0c b", "\\0a\\0b\\0a", "\\0d\\0c", "\\09\\00", "\\1f", "\\85", "a\\c2\\a0b", "\\e2\\80\\a8", "\\ef\\bb\\bfclass",
    "class\\09A\\0aextends\\0dObject {}", "classA", "a\\0a\\0a\\0a#", "1000*\\0d\\0a", "1000*\\0d\\0a|\\0b",
]

NO_TEXT = [
    "\\ff", "\\fe\\ff", "\\ff\\fe", "\\c3", "\\c3\\a4", "\\80", "a\\80", "\\f0\\9f\\98\\80", "\\ed\\a0\\80", "\\c0\\80", "\\00\\00",
    "class\\00", "\\00class", "cl\\00ass", "40*\\ff", "name_\\ff", "31*a|\\ff", "a\\7f", "\\7f", "\\1a", "a b c \\1a", "\\5c", "\\7c", "\\2a",
]

NAMES = [
    f"{n}*{c}" for n in (1, 2, 29, 30, 31, 32, 33, 63) for c in "aZ_"
] + [
    "a|30*9", "a|31*9", "a|32*9", "_|30*0", "_|31*0", "31*a|#", "32*a|#", "31*a| |31*b", "31*a| |32*b", "32*a| |31*b", "3* |32*a", "\\0a|32*_",
    "31*a|.|31*b|(|31*c|)", "31*a|=|32*b", "class |31*a|{", "class |32*a|{", "(|32*a|)", "32*a|9#", "15*ab|a", "16*ab", "6*aZ_09",
    "6*aZ_09|z", "6*aZ_09|zz", "1000*a", "relationship|19*s", "relationship|20*s", "class|26*A", "class|27*A", "#|32*a", "32*a|17*(",
    "31*a|\\0b", "9|31*a", "9|32*a", "30*a|\\80a",
]

DIGITS = ["0", "9", "9a", "a9", "a 9", "a.9", "_9", "9_", "_9 9_", "12", "a12b", "1.0", "0x1f", "a-1", "33*9", "x=1", "x==1", "(1", "f(0)", "a\\0a9"]


def keywords():
    """Each keyword alone, with one letter more or fewer, in capitals, and with a word beside it."""
    for w in sorted(oracle.KEYWORDS):
        yield from (w, w[:-1], w[1:], w + "s", "a" + w, w + "_", w + "9", "9" + w, w.upper(), w.capitalize())
        yield from (w + w, f"{w} {w}", f"{w}.{w}", f"{w}(", f"{w}#")


SIGNS = [
    "=", "==", "===", "====", "=====", "= =", "== =", "= ==", "=\\0a=", "33*=", "34*=", "a=b", "a==b", "a===b", "a====b", "a= =b", "=#=", "==#", "==!",
    "!=", "=!", "a!=b", "<=", ">=", "=>", "<<", ">>", "<>", "..", "::", ":=", "=:", ",,", ";;", "{}(),;<>.:===", "{}(),;<>.:=", "set<A>", "set<set<A>>",
    "a:b", "a.b:c", "a.b(c)", "a+b", "a-b", "a/b", "a%b", "a&b", "a\\7cb", "a\\2ab", "a^b", "a~b", "a?b", "a@b", "a$b", "a`b", "a'b", "a\"b\"", "// c", "/\\2a \\2a/",
    "a[0]", "#", "!", "\"s\"", "'c'", "20*<", "20*<|20*>", "100*.", "100*;",
]

BRACKETS = [
    f"{n}*{c}" for n in (1, 15, 16, 17, 18, 40) for c in "({"
] + [
    "8*({", "8*({|(", "8*({|{", "8*{(|{(", "9*{(", "16*( ", "17*( ", "16*(|)", "16*(|))", "16*(|16*)", "16*{|16*}", "16*(|16*}", "16*{|16*)", "17*(|17*)",
    "17*{|17*}", "16*(|)(", "16*(|)((", "16*{|}{", "16*{|}{{", "16*(|}{", "16*(|}{{", "16*{|)(", "16*{|)((", "16*(|16*)|16*(", "16*(|16*)|17*(",
    "16*(|15*)|15*(", "16*(|15*)|16*(", "16*(|20*)|16*(", "16*(|20*)|17*(", ")", "}", "100*)", "100*}", "50*)}", ")|16*(", ")|17*(", ")))}|17*(", "3*}|16*{", "3*}|17*{",
    ")(", "}{", "1000*()", "1000*{}", "1000*(}", "1000*)(", "500*(())", "9*{(}){(", "20*(}|17*{", "15*(|100*()", "16*(|100*()", "15*(|100*({})", "14*(|100*({})",
    "4*(a|4*{b|4*(c|4*{d", "4*(a|4*{b|4*(c|5*{d", "16*(|a|16*)|b|16*{|c|16*}", "17*a(", "16*a(|a", "17*(=", "class |17*{ ", "16*(|(a", "16*(| \\0a(", "20*<|16*(", "20*<|17*(",
]

RANKS = [
    # a fault before and after a seventeenth bracket, and between two
    "#|17*(", "17*(|#", "16*(|#(", "16*(|(#", "17*(|\\ff", "17*(|32*a", "32*a|17*(", "17*{|9", "9|17*{", "40*(|40*)|#", "17*(|17*)| # ", "17*(|a|17*{|!", "17*(|1000* |@", "17*(=|!=",
    "17*(|1000*a |32*b", "17*(|31*a", "17*{|31*a|9#", "8*({|(|\\00", "17*(|#|17*{|!", "16*(|32*a", "16*(|)(|#",
    # a text that is too long, whatever is in it
    "#|32768* ", "32768* |#", "17*(|32752* ", "17*(|32751* ", "#|32767* ", "32767* |#", "32*a|32737* ", "32*a|32736* ",
]


def sizes():
    """Texts just below, at and just above the longest, of spaces, names, signs and brackets."""
    for n in (32767, 32768, 32769):
        yield f"{n}* "
        yield f"{n}*\\0a"
        yield f"{n}*a"
        yield f"{n // 2}*a |{n % 2}*b"
        yield f"{n // 32}*{31 * 'n'} |{n % 32}*x"
        yield f"{n // 2}*()|{n % 2}*;"
        yield f"{n // 2}*{{}}|{n % 2}*)"
        yield f"{n // 2}*==|{n % 2}*="
        yield f"{n}*="
        yield f"{n}*)"
        yield f"{n}*("
        yield f"{n}*\\ff"
        yield f"{n - 1}* |a"
        yield f"{n - 1}* |#"
        yield f"{n - 17}* |17*("
        yield f"{n - 16}* |16*("
        yield f"{n - 18}* |17*(|#"
        yield f"{n - 32}* |32*a"
        yield f"{n - 31}* |31*a"
        yield f"{n}*."
    for n in (40000, 65536, 70000):
        yield f"{n}* "
        yield f"{n}*a"
        yield f"{n - 1}* |#"
        yield f"#|{n - 1}* "
        yield f"{n}*("
    yield "32769*9"


def models():
    """Whole model texts, and one of them cut off at every eleventh byte."""
    mill = oracle.MILL
    yield spell(mill)
    for end in range(0, len(mill), 11):
        yield spell(mill[:end])
    yield spell(mill.replace(b" ", b"\n"))
    yield spell(mill.replace(b" ", b"\r\n\t"))
    yield spell(mill.replace(b" ", b"\xa0"))
    yield spell(mill.replace(b";", b"; // note\n"))
    yield spell(mill.replace(b"(", b"(" * 8))
    yield spell(mill.replace(b"{", b"{" * 8))
    yield "40*" + spell(mill + b"\n")
    yield "80*" + spell(mill + b"\n")
    yield "100*" + spell(mill + b"\n")


def chances():
    """Texts of pieces drawn by chance, of three mixtures, always the same."""
    draw = random.Random(1)
    words = sorted(w.encode() for w in oracle.KEYWORDS) + [b"a", b"B_1", b"_", b"n" * 31]
    signs = [bytes([b]) for b in b"{}(),;<>.:="] + [b"=="]
    gaps = [b" ", b"\n", b"\t", b"\r"]
    faults = [b"#", b"9", b"\xff", b"\x0b", b"n" * 32]
    brackets = [b"(", b"{", b"(", b"{", b")", b"}"]
    for mixture in (words + 2 * signs + 6 * gaps, 8 * brackets + gaps + [b"a"], 9 * (words + brackets + gaps) + faults):
        for _ in range(40):
            yield spell(b"".join(draw.choice(mixture) for _ in range(draw.randrange(1, 120))))


def grammar_texts():
    """Texts near the edges of the grammar, and programs that are refused for other reasons."""
    yield from (Path(__file__).parent / "grammar_texts.txt").read_text().splitlines()


def all_cases():
    lines = [
        *single_bytes(), *SEPARATORS, *NO_TEXT, *NAMES, *DIGITS, *keywords(), *SIGNS, *BRACKETS, *RANKS, *sizes(), *models(), *chances(), *grammar_texts(),
    ]
    return list(dict.fromkeys(lines))


def main(arguments):
    lines = all_cases()
    verdicts = [verdict(expand(line)) for line in lines]
    files = {"stdin": "".join(f"{line}\n" for line in lines), "stdout": "".join(f"{v}\n" for v in verdicts)}
    if arguments == ["--check"]:
        stale = [name for name, text in files.items() if (CRATE / name).read_text() != text]
        print("stale: " + ", ".join(stale) if stale else f"{len(lines)} cases, as written")
        return 1 if stale else 0
    for name, text in files.items():
        (CRATE / name).write_text(text)
    kinds = [v.split()[0] for v in verdicts]
    print(f"{len(lines)} cases: " + ", ".join(f"{kinds.count(k)} {k}" for k in sorted(set(kinds))))
    return 0


if __name__ == "__main__":
    sys.exit(main(sys.argv[1:]))
