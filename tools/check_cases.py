#!/usr/bin/env python3
"""Writes the cases of crates/check_trials: its stdin and the stdout that is expected of it.

    python3 tools/check_cases.py           write both files anew
    python3 tools/check_cases.py --check   tell whether they are what this writes

Each line of stdin is a number of scratch entries, a space, and a text spelled as in tools/text_cases.py. The line of
stdout at the same place is what tools/oracle.py says of that text with such a scratch: REFUSAL PLACE, or accepted and the
counts of classes, relationships, fields, methods and nodes. Nothing is taken from the program that is tried.

Most tables below also say which refusal they are meant to meet; where the oracle says another, nothing is written.
"""

import random
import re
import sys
from pathlib import Path

import oracle
from text_cases import expand, grammar_texts, spell

ROOT = Path(__file__).resolve().parent.parent
CRATE = ROOT / "crates" / "check_trials"
ENOUGH = oracle.MAX_NODES
ACCEPTED = 0            # stands for no refusal where a table says what it is meant to meet


def verdict(scratch, text):
    try:
        counts = oracle.check(text, scratch).counts()
    except oracle.Refusal as r:
        return f"{r.number} {r.place}"
    return "accepted " + " ".join(map(str, counts))


# ---------------------------------------------------------------- ways to write a text

MAIN = "class M extends Object {boolean main(boolean b) {return b;}} "


def in_main(body, before=""):
    """A program whose main has this body before its return."""
    return before + "class M extends Object {boolean main(boolean b) {" + body + "return b;}}"


def returned(expression):
    return "class M extends Object {M f; M m(M x) {return this;} boolean main(boolean b) {return " + expression + ";}}"


def chain(last, head, piece):
    """Declarations 1 to last: % is a row's number in both, ^ that of the row before it."""
    return head + "".join(piece.replace("%", str(i)).replace("^", str(i - 1)) for i in range(1, last + 1))


def many(n, piece):
    """A piece n times with the numbers 0 to n - 1 for each %."""
    return "".join(piece.replace("%", str(i)) for i in range(n))


# ---------------------------------------------------------------- the examples of the documents

PROSE = {
    "32,769 spaces": "32769* ",
    "32,769 times `9`": "32769*9",
    "a name of 32 letters after two spaces": "  |32*a",
    "a name of 31 letters": "31*a",
    "32 times `class A extends B {}`": "32*class A extends B {}",
    "32 times `class A extends B {}`, then 32 times `relationship A extends B (C, D) {}`":
        "32*class A extends B {}|32*relationship A extends B (C, D) {}",
    "a class with 129 times `boolean f;`": "class A extends Object {|129*boolean f;|}",
    "a method with 11 locals": "class A extends Object {A m(A x) {|11*A y;|return x;}}",
    "682 times `x = y;` and `return x.y;` as a body: 2,049 nodes":
        "class M extends Object {boolean main(boolean b) {|682*x = y;|return x.y;}}",
    "32 times `class A extends B {}`, then `x`": "32*class A extends B {}|x",
    "(the empty text)": "",
    "(one space)": " ",
}


def examples():
    """The examples of docs/REFUSALS.md, which have to be what the oracle says."""
    page = (ROOT / "docs" / "REFUSALS.md").read_text()
    rows = re.findall(r"^\| (.+) \| (accepted|[0-9]+ [0-9]+) \|$", page.partition("## Examples")[2], re.M)
    assert len(rows) > 80
    for cell, answer in rows:
        line = PROSE.get(cell)
        if line is None:
            line = spell(cell.strip("`").replace("\\n", "\n").encode())
        said = verdict(ENOUGH, expand(line))
        assert said.startswith(answer), (cell, answer, said)
        yield None, ENOUGH, line


def passed_grammar():
    """The texts of the trials of the grammar that go beyond it."""
    for line in grammar_texts():
        if not verdict(ENOUGH, expand(line)).startswith("13 "):
            yield None, ENOUGH, line


# ---------------------------------------------------------------- words, brackets, grammar

EARLY = {
    10: [
        "32769*a", "32769*(", "32769*;", "32769*\\ff", "32769*\\0a", "#|32768* ", "32768*(|#", "8000*class A extends B {}", "100000* ",
        "65536*;", "32769*}", MAIN + "|32767* ",
    ],
    11: [
        "32768*#", "32768*9", "32768*\\00", "32767* |#", "32768*a", "1024*" + 32 * "a", "17*(|#", ";|#", MAIN + "#", in_main("|32*x| = b; "), "class M extends Object {boolean "
        "main(boolean b) {return b + b;}}", "class M extends Object {boolean main(boolean b) {return !b;}} class M extends Object {}",
        "class M extends Object // note\\0a{}", "class 9 extends Object {}", "class M extends Object {boolean main(boolean b) {return \\c3\\a4;}}", "32*class A extends B {}|$",
    ],
    12: [
        "32768*(", "32768*{", "16384*({", in_main("|15*(|b|15*)|; "), in_main("|15*(|") + "|15*)", returned("|15*(|b|15*)|"), "x |17*{", ";|17*(", MAIN + "|17*(", "class M extends Object "
        "{boolean main(boolean b) {|15*if (b) {|", in_main("|15*if (b) {} else {|"), returned("|15*this.m(|this|15*)|"), returned("|15*Relation.add(|this|15*, this)|"),
        "32*class A extends B {}|17*(",
    ],
    13: [
        "32768*;", "32768*}", "32768*)", "32768*.", "32768*=", "16384*a ", "16384*==", "16384*()", "16384*{}", "2048*()", "2048*{}", "5461*class ", "10922*if ", "4681*return ",
        "16384*x=", "1638*class A extends B {}|;",
        "1638*class A extends B {}|class", "8191*b = ", "class A extends Object {|8000*C d;|", "class A extends Object {|16000*d=|", in_main("|16000*a=|"),
        in_main("|16000*a=|;"), in_main("|16000*.f|; "), in_main("a|15000*.f|; "), in_main("a|8000*.f=|; "), in_main("|14*(|b|14*)|; "), in_main("|13*if (b) {} else {|"),
        "32*class A extends B {}|x", MAIN + MAIN + ";", "class M extends Object {boolean main(boolean b) {return b}}",
    ],
}


def early():
    for number, lines in EARLY.items():
        for line in lines:
            yield number, ENOUGH, line


# ---------------------------------------------------------------- limits

def nodes_in_main(n):
    """A good program of n nodes; n is at least 7."""
    rest = {0: "return b;", 1: "return this == this;", 2: "b = b = b; return b;"}
    ends = {0: 2, 1: 4, 2: 6}
    k = next(k for k in range(3) if (n - ends[k]) % 3 == 0)
    return f"class M extends Object {{boolean main(boolean b) {{|{(n - ends[k]) // 3}*b = b;|{rest[k]}}}}}"


def limits():
    def at(last, number, line):
        """A text for a size that may be as much as last: good there, and past it refused."""
        for n in (last - 1, last, last + 1, last + 9):
            yield (ACCEPTED if n <= last else 14), ENOUGH, line(n), number

    eight = "boolean a%; boolean b%; boolean c%; boolean d%; M e%; M f%; M g%; M h%; "
    met = [
        *at(31, 1, lambda n: MAIN + many(n - 1, "class C% extends Object {} ")),
        *at(31, 1, lambda n: many(n - 1, "class C% extends Object {} relationship R% extends Relation (M, C%) {} ") + MAIN),
        *at(31, 2, lambda n: MAIN + many(n, "relationship R% extends Relation (M, M) {} ")),
        *at(31, 2, lambda n: many(n, "relationship R% extends Relation (R%, M) {} ") + MAIN),
        *at(128, 3, lambda n: many(n // 8, f"class C% extends Object {{{eight}}} ") + many(n % 8, "relationship R% extends Relation (M, M) {M a;} ") + MAIN),
        *at(64, 4, lambda n: "class M extends Object {boolean main(boolean b) {return b;} " + many(n - 1, "M m%(M x) {return x;} ") + "}"),
        *at(64, 4, lambda n: "relationship R extends Relation (R, R) {" + many(n - 1, "R m%(M x) {return this;} ") + "} " + MAIN),
        *at(10, 5, lambda n: in_main(many(n, "M x%; "))),
        *at(10, 5, lambda n: "relationship R extends Relation (R, R) {R m(set<R> x) {return this;} R n(R x) {" + many(n, "set<R> y%; ") + "return x;}} " + MAIN),
        *at(2048, 6, nodes_in_main),
        *at(2048, 6, lambda n: "class N extends Object {boolean m(boolean b) {|300*b = b;|return b;} N n(N x) {|30*if (true) {} else {};|return x;}} " + nodes_in_main(n - 964)),
    ]
    for meant, scratch, line, number in met:
        said = verdict(scratch, expand(line))
        assert meant == ACCEPTED or said == f"14 {number}", (said, number)
        yield meant, scratch, line

    # 2,048 nodes of other kinds: nothing in ifs, leaves, and one fault of type at the very last node
    yield ACCEPTED, ENOUGH, in_main("|1023*if(b){}else{};|")
    yield 14, ENOUGH, in_main("|1024*if(b){}else{};|")
    yield ACCEPTED, ENOUGH, in_main("|1023*new M();|")
    yield 14, ENOUGH, in_main("|1023*new M();|").replace("return b", "return this.f")
    yield 28, ENOUGH, nodes_in_main(2048).replace("return b", "return c")
    yield 28, ENOUGH, "class N extends Object {N m(N x) {|681*x = x;|return b.f;}} " + MAIN
    # several limits at once: the lowest number counts
    faults = [
        (1, "32*class C extends D {}"), (2, "32*relationship C extends D (E, F) {}"), (3, "class C extends D {|129*E f;|}"),
        (4, "class C extends D {|65*E m(E x) {return x;}|}"), (5, "class C extends D {E m(E x) {|11*E y;|return x;}}"),
        (6, "class C extends D {E m(E x) {|682*x = y;|return x.y;}}"), (7, "class C extends D {E m(E x) {return x|15*.f|;}}"),
    ]
    for i, one in faults:
        yield 14, ENOUGH, one
        for j, two in faults:
            if i < j:
                line = two + "|" + one
                assert verdict(ENOUGH, expand(line)) == f"14 {i}"
                yield 14, ENOUGH, line
    # sizes that are no limits
    yield ACCEPTED, ENOUGH, "class " + 31 * "x" + " extends Object {boolean main(boolean " + 31 * "y" + ") {return " + 31 * "y" + ";}}"
    yield ACCEPTED, ENOUGH, MAIN + "|" + str(oracle.MAX_TEXT - len(MAIN)) + "* "


def heights():
    """Bodies of height 16 and 17, reached in different ways."""
    def at(line, last):
        yield ACCEPTED, ENOUGH, line(last)
        yield 14, ENOUGH, line(last + 1)

    def rows(body, before="", result="M"):
        return ("relationship R extends Relation (R, R) {R g; boolean k;} class M extends Object {M f; boolean g; M m(M x) {return this;} boolean main(boolean b) {return b;} "
                + result + " n(M x) {" + before + "M y; " + body + "}}")

    yield from at(lambda n: rows(f"return this|{n}*.f|;"), 14)
    yield from at(lambda n: rows(f"return (this)|{n}*.f|;"), 13)
    yield from at(lambda n: rows(f"return this|{n}*.m(x)|;"), 14)
    yield from at(lambda n: rows(f"return y|{n}* = y|;"), 14)
    yield from at(lambda n: rows(f"y|{n}* = y|; return y;"), 14)
    yield from at(lambda n: rows(f"this|{n}*.f| = y; return y;"), 14)
    yield from at(lambda n: rows(f"this.f = x|{n}*.f|; return y;"), 13)
    yield from at(lambda n: rows(f"|{n}*this.f = |this; return y;"), 14)
    yield from at(lambda n: rows(f"return x|{n}*.f| == x;", result="boolean"), 13)
    yield from at(lambda n: rows(f"return null == x|{n}*.f|;", result="boolean"), 13)
    yield from at(lambda n: rows(f"this|{n}*.m(x)|; return y;"), 14)
    yield from at(lambda n: rows(f"this.m(x|{n}*.f|); return y;"), 13)
    yield from at(lambda n: rows(f"r|{n}*.from|.g = null; return y;", before="R r; "), 13)
    yield from at(lambda n: rows(f"return this == r|{n}*.to|;", before="R r; ", result="boolean"), 13)
    yield from at(lambda n: rows(f"if (x|{n}*.f|.g) {{}} else {{}}; return y;"), 13)
    yield from at(lambda n: rows(f"if (true) {{y = x|{n}*.f|;}} else {{}}; return y;"), 12)
    yield from at(lambda n: rows(f"if (true) {{}} else {{y = y; y = x|{n}*.f|; y = y;}}; return y;"), 12)
    yield from at(lambda n: rows(f"|5*if (true) {{y = y;}} else {{|y = x|{n}*.f|;|5*}};|return y;"), 8)
    yield from at(lambda n: rows(f"|13*if (true) {{|y = x|{n}*.f|;|13*}} else {{}};|return y;"), 0)
    yield from at(lambda n: rows(f"Relation.add(x|{n}*.f|, x); return y;"), 13)
    yield from at(lambda n: rows(f"Relation.rem(x, x|{n}*.f|); return y;"), 13)
    # one bracket more than fits would be one too many open, so the last step is a dot
    for n, dot in ((13, ""), (14, ""), (14, ".f")):
        meant = 14 if dot else ACCEPTED
        yield meant, ENOUGH, rows(f"return |{n}*(|x{dot}|{n}*)|;")
        yield meant, ENOUGH, rows(f"return |{n}*this.m(|x{dot}|{n}*)|;")
        yield meant, ENOUGH, rows(f"|{n}*Relation.add(|x{dot}|{n}*, x)|; return y;")
        yield meant, ENOUGH, rows(f"|{n}*Relation.add(x, |x{dot}|{n}*)|; return y;")
        yield meant, ENOUGH, rows(f"|{n}*Relation.rem(x, |x{dot}|{n}*)|; return y;")
    for n, dot in ((6, ""), (7, ""), (7, ".f")):
        yield (14 if dot else ACCEPTED), ENOUGH, rows(f"return |{n}*(|{n}*this.m(|x{dot}|{n}*)|{n}*)|;")
        yield (14 if dot else ACCEPTED), ENOUGH, rows(f"return |{n}*(y = |x{dot}|{n}*)|;")


# ---------------------------------------------------------------- scratch

def scratches():
    mill = spell(oracle.MILL)
    for scratch in (0, 1, 9, 17, 18, 19, 2047, 5000):
        yield (15 if scratch < 18 else ACCEPTED), scratch, mill
    place = spell(oracle.NEW_PLACE)
    for scratch in (0, 1, 2, 3, 5000):
        yield (15 if scratch < 2 else ACCEPTED), scratch, place
    for scratch in (2046, 2047, 2048, 2049, 5000):
        yield (15 if scratch < 2048 else ACCEPTED), scratch, nodes_in_main(2048)
    for scratch in (0, 2048, 2049, 5000):
        yield 14, scratch, nodes_in_main(2049)
    # what is judged before it, and what after
    for number, line in ((10, "32769* "), (11, "#"), (12, "17*("), (13, ";"), (14, "32*class A extends B {}"), (26, ""), (26, " "), (21, "class Object extends Object {}"),
                         (27, MAIN.replace("{b", "{" + 9 * "M f; " + "b")), (26, "class A extends Object {A f;}"), (22, "class A extends B {A f;}")):
        for scratch in (0, 1):
            yield (15 if number == 27 else number), scratch, line
    for fault in FAULTS.values():
        for scratch in (3, 4, 5):
            yield None, scratch, fault.replace("%", "") + MAIN


# ---------------------------------------------------------------- declarations

DECLARED = {
    21: [
        "class Object extends Object {}", "class Relation extends Object {}", "relationship Object extends Relation (Object, Object) {}",
        "relationship Relation extends Relation (Object, Object) {}", "class A extends Object {} class A extends Object {}",
        "relationship A extends Relation (A, A) {} relationship A extends Relation (A, A) {}", "class A extends Object {} relationship A extends Relation (A, A) {}",
        "relationship A extends Relation (A, A) {} class A extends Object {}",
        "class A extends Object {} class B extends Object {} class B extends Object {} class A extends Object {}",
        MAIN + "class M extends M {}", MAIN + "relationship R extends Relation (M, M) {} class R extends M {R R;}",
        "class A extends A {} class A extends A {} class A extends A {}",
        many(20, "class C% extends Object {} ") + many(20, "relationship C% extends Relation (C%, C%) {} "),
        many(30, "class C% extends Object {} ") + "class C29 extends Object {}",
        "class A extends Q {} class B extends Q {} relationship B extends Q (Q, Q) {}", "relationship M extends Relation (M, M) {} " + MAIN,
    ],
    22: [
        "class A extends A {}", "class A extends B {}", "class A extends B {} class B extends Object {}", "class A extends Relation {}", "class A extends boolean_ {}",
        "relationship R extends Object (Object, Object) {}", "relationship R extends R (Object, Object) {}",
        "relationship R extends S (R, R) {} relationship S extends Relation (R, R) {}",
        "class A extends Object {} relationship R extends A (A, A) {}", "relationship R extends Relation (R, R) {} class A extends R {}",
        "relationship R extends Relation (Q, R) {}",
        "relationship R extends Relation (R, Q) {}", "relationship R extends Q (P, O) {}", "class A extends Object {B f;}", "class A extends Object {set<B> f;}",
        "class A extends Object {A f; A g; f h;}",
        "class A extends Object {B m(A x) {return x;}}", "class A extends Object {set<B> m(A x) {return x;}}", "class A extends Object {A m(B x) {return x;}}",
        "class A extends Object {A m(set<B> x) {return x;}}",
        "class A extends Object {A m(A x) {B y; return x;}}", "class A extends Object {A m(A x) {A z; set<B> y; return x;}}",
        "class A extends Object {x m(A x) {x y; return x;}}",
        "class A extends Object {object f;}", "class A extends Object {} class B extends a {}", "relationship R extends Relation (R, R) {Q f;}",
        "relationship R extends Relation (R, R) {R m(R x) {Q y; return x;}}",
        "class A extends Object {m f; A m(A x) {return x;}}", "class A extends Object {A f; f g;}", "class A extends Object {A m(A x) {x y; return x;}}",
        MAIN + "class N extends main {}", MAIN + "class N extends M {b c;}",
        "class A extends Object {} class B extends A {} class C extends D {} class D extends B {}",
    ],
    23: [
        "class A extends Object {boolean f; boolean f;}", "class A extends Object {boolean f; A g; set<A> f;}", "class A extends Object {boolean f;} class B extends A {A f;}",
        "class A extends Object {boolean f;} class B extends A {} class C extends B {A g; A f; A g;}",
        "relationship R extends Relation (R, R) {R f;} relationship S extends R (R, R) {R f;}",
        "relationship R extends Relation (R, R) {R f;} relationship S extends R (R, R) {} relationship T extends S (R, R) {R e; R f;}",
        "class A extends Object {boolean R;} relationship R extends Relation (A, A) {}", "relationship R extends Relation (R, R) {} class A extends Object {boolean R;}",
        "relationship R extends Relation (R, R) {R R;}",
        "class A extends Object {boolean Relation;}", "relationship R extends Relation (R, R) {boolean Relation;}",
        "relationship R extends Relation (R, R) {boolean S;} relationship S extends Relation (R, R) {}",
        "class A extends Object {A m(A x) {return x;} A m(A x) {return x;}}",
        "class A extends Object {A m(A x) {return x;} A n(A x) {return x;} boolean m(boolean x) {return x;}}",
        "relationship R extends Relation (R, R) {R m(R x) {return x;} R m(R x) {return x;}}", "class M extends Object {boolean main(boolean b) {boolean b; return b;}}",
        "class M extends Object {boolean main(boolean b) {M x; M x; return b;}}", "class M extends Object {boolean main(boolean b) {M x; M y; M b; M x; return b;}}",
        "class M extends Object {boolean main(boolean b) {return b;} boolean main(boolean b) {return b;}}",
        "class A extends Object {A m(A x) {A x; return x;} A m(A x) {return x;}}",
        "class A extends Object {A f; A f; A f;}", "relationship R extends Relation (R, R) {R m(R x) {set<R> y; boolean y; return x;}}",
        "class A extends Object {A m(A x) {" + many(9, "A y%; ") + "A y0; return x;}}", many(15, "class C% extends Object {boolean f;} ") + "class D extends C14 {boolean f;}",
    ],
    24: [
        "class A extends Object {} relationship R extends Relation (A, A) {} relationship S extends R (Object, A) {}",
        "class A extends Object {} relationship R extends Relation (A, A) {} relationship S extends R (A, Object) {}",
        "class A extends Object {} relationship R extends Relation (A, A) {} relationship S extends R (Object, Object) {}",
        "class A extends Object {} class B extends A {} relationship R extends Relation (B, B) {} relationship S extends R (B, A) {}",
        "class A extends Object {} class B extends Object {} relationship R extends Relation (A, B) {} relationship S extends R (B, A) {}",
        "relationship R extends Relation (R, R) {} relationship S extends R (Relation, S) {}",
        "relationship R extends Relation (R, R) {} relationship S extends R (S, Object) {}",
        "class A extends Object {} relationship R extends Relation (A, A) {} relationship S extends R (R, A) {}",
        "class A extends Object {} relationship R extends Relation (A, A) {} relationship S extends R (A, S) {}",
        "relationship R extends Relation (R, R) {} relationship S extends R (R, R) {} relationship T extends S (S, Relation) {}",
        "relationship R extends Relation (R, A) {} relationship S extends R (B, B) {} class A extends Object {} class B extends A {}",
        "relationship R extends Relation (R, A) {} relationship S extends R (R, B) {} class A extends Object {} class B extends Object {}",
        "relationship R extends Relation (Relation, Object) {} relationship S extends R (Object, Relation) {}",
        "relationship R extends Relation (R, R) {} relationship S extends R (S, S) {} relationship T extends S (R, T) {} relationship U extends S (U, R) {}",
    ],
    25: [
        "class A extends Object {A m(A x) {return x;}} class B extends A {A m(B x) {return x;}}",
        "class A extends Object {A m(A x) {return x;}} class B extends A {Object m(A x) {return x;}}",
        "class A extends Object {A m(A x) {return x;}} class B extends A {boolean m(A x) {return true;}}",
        "class A extends Object {A m(boolean x) {return null;}} class B extends A {A m(A x) {return x;}}",
        "class A extends Object {A m(A x) {return null;}} class B extends A {A m(boolean x) {return null;}}",
        "class A extends Object {boolean m(A x) {return true;}} class B extends A {A m(A x) {return x;}}",
        "class A extends Object {set<A> m(A x) {return x.m(x);}} class B extends A {set<Object> m(A x) {return x.m(x);}}",
        "class A extends Object {set<A> m(A x) {return x.m(x);}} class B extends A {A m(A x) {return x;}}",
        "class A extends Object {A m(set<B> x) {return null;}} class B extends A {} class C extends B {A m(set<C> x) {return null;}}",
        "class A extends Object {Object m(A x) {return x;}} class B extends A {A m(A x) {return x;}} class C extends B {Object m(A x) {return x;}}",
        "class A extends Object {A m(B x) {return x;}} class B extends A {A m(A x) {return x;}} class C extends B {A m(B x) {return x;}}",
        "class A extends Object {A m(A x) {return x;}} class B extends A {} class C extends B {} class D extends C {Object m(A x) {return x;}}",
        "relationship R extends Relation (R, R) {R m(R x) {return x;}} relationship S extends R (R, R) {Relation m(R x) {return x;}}",
        "relationship R extends Relation (R, R) {R m(R x) {return x;}} relationship S extends R (R, R) {R m(S x) {return x;}}",
        "relationship R extends Relation (R, R) {R m(Object x) {return this;}} relationship S extends R (R, R) {R m(Relation x) {return this;}}",
        "class A extends Object {A m(A x) {return x;}} class B extends A {A m(B x) {return zz;}} class C extends A {A m(C x) {return zz;}}",
        "class A extends Object {boolean main(boolean b) {return b;}} class B extends A {A main(boolean b) {return null;}}",
        "class A extends Object {Object m(A x) {return x;}} class B extends A {set<Object> m(A x) {return null;}}",
    ],
    26: [
        "", " ", "\\0a\\0a", "class A extends Object {}", "relationship R extends Relation (R, R) {}", "class A extends Object {A main(A x) {return x;}}",
        "class A extends Object {boolean main(set<A> x) {return true;}}",
        "class A extends Object {boolean main(Object x) {return true;}}", "relationship R extends Relation (R, R) {boolean main(boolean b) {return b;}}",
        MAIN + "relationship R extends Relation (R, R) {boolean main(boolean b) {return b;}}", MAIN + "class N extends M {boolean main(boolean b) {return b;}}",
        MAIN + "class N extends Object {boolean main(boolean b) {return b;}}",
        MAIN + "class N extends Object {N main(N x) {return x;}}", "class M extends Object {boolean Main(boolean b) {return b;}}",
        "class main extends Object {boolean main; boolean m(boolean main) {return main;}}",
        "class M extends Object {boolean mai(boolean b) {return b;} boolean mainn(boolean b) {return b;}}", "class M extends Object {boolean m(boolean b) {return zz;}}",
        "class A extends Object {} relationship R extends Relation (A, Object) {} relationship S extends R (A, S) {}",
        "class A extends Object {A m(A x) {return x;}} class B extends A {B m(Object x) {return null;}}",
        "class A extends Object {" + many(9, "A f%; ") + "}",
    ],
    27: [
        MAIN + "class A extends Object {" + many(9, "A f%; ") + "}", "class M extends Object {" + many(9, "M f%; ") + "boolean main(boolean b) {return b;}}",
        "relationship R extends Relation (R, R) {" + many(9, "R f%; ") + "} " + MAIN,
        MAIN + "class A extends Object {" + many(5, "A f%; ") + "} class B extends A {" + many(4, "A g%; ") + "}",
        MAIN + "class A extends Object {" + many(8, "A f%; ") + "} class B extends A {A g;}",
        MAIN + "class A extends Object {" + many(8, "A f%; ") + "} class B extends A {} class C extends B {} class D extends C {A g;}",
        MAIN + "class A extends Object {" + many(9, "A f%; ") + "} class B extends A {} class C extends B {A g;}",
        MAIN + "relationship R extends Relation (R, R) {" + many(8, "R f%; ") + "} relationship S extends R (R, R) {" + many(9, "R g%; ") + "}",
        MAIN + "relationship R extends Relation (R, R) {" + many(20, "R f%; ") + "}",
        MAIN + many(9, "class C% extends Object {M f;} ") + "class D extends C8 {" + many(8, "M g%; ") + "}",
        chain(8, "class C0 extends Object {M f0;} ", "class C% extends C^ {M f%;} ") + MAIN,
        "class M extends Object {" + many(9, "M f%; ") + "boolean main(boolean b) {return c;}}",
        MAIN + "relationship R extends Relation (R, R) {" + many(9, "R f%; ") + "} class A extends Object {" + many(9, "A f%; ") + "}",
        MAIN + "class A extends Object {" + many(9, "A f%; ") + "} relationship R extends Relation (R, R) {" + many(9, "R f%; ") + "}",
    ],
    ACCEPTED: [
        MAIN, "class M extends Object{boolean main(boolean b){return(b);}}", "\\09\\0d\\0a" + MAIN + "\\09\\0d\\0a ",
        "class _ extends Object {boolean main(boolean __) {return __;}}",
        "class main extends Object {boolean main(boolean main) {return main;}}",
        "class M extends Object {boolean M; boolean main; boolean main(boolean M) {boolean main; main = this.M = M; return main;}}",
        MAIN + "class A extends Object {A f; set<B> g; C h; set<C> i;} class B extends A {} relationship C extends Relation (A, B) {}",
        MAIN + "class object extends Object {} class relation extends object {relation Object; object object;}",
        "class M extends Object {M main(boolean b) {return null;}}", "class M extends Object {Object main(boolean b) {return this;}}",
        "class M extends Object {set<M> main(boolean b) {set<M> s; return s;}}",
        "class M extends Object {Relation main(boolean b) {return Relation.add(this, this);}}",
        "relationship R extends Relation (R, R) {R main; R m(R main) {return this;}} " + MAIN,
        MAIN + "class A extends Object {" + many(8, "A f%; ") + "} class B extends A {} class C extends A {}",
        MAIN + "class A extends Object {" + many(5, "A f%; ") + "} class B extends A {" + many(3, "A g%; ") + "} class C extends A {" + many(3, "A g%; ") + "}",
        MAIN + "relationship R extends Relation (R, R) {" + many(8, "R f%; ") + "} relationship S extends R (R, R) {" + many(8, "R g%; ") + "}",
        MAIN + "class A extends Object {A f;} class B extends Object {A f;} relationship R extends Relation (A, B) {A f;} relationship S extends Relation (A, B) {A f;}",
        MAIN + "class A extends Object {A M; A A; A main; A Object; A m; A m(A m) {return m;}}",
        MAIN + "relationship R extends Relation (R, R) {} relationship S extends R (S, R) {} relationship T extends S (S, T) {}",
        MAIN + "relationship R extends Relation (A, B) {} class A extends Object {} class B extends A {}",
        MAIN + "relationship R extends Relation (R, S) {} relationship S extends R (S, T) {} relationship T extends S (T, U) {} relationship U extends T (U, U) {}",
        MAIN + "class A extends Object {} relationship R extends Relation (A, Object) {} relationship S extends R (A, S) {} relationship T extends R (A, Relation) {} relationship U extends R (A, A) {}",
        MAIN + "relationship R extends Relation (Relation, Object) {} relationship S extends R (R, Relation) {}",
        MAIN + "class A extends Object {A m(A x) {return x;}} class B extends A {B m(Object x) {return null;}}",
        MAIN + "class A extends Object {A m(C x) {return x;}} class B extends A {B m(B x) {return x;}} class C extends B {C m(A x) {return null;} A n(A x) {return this.m(x);}}",
        MAIN + "class A extends Object {Object m(set<B> x) {return this;}} class B extends A {A m(set<A> x) {return this;}} class C extends B {B m(set<Object> x) {return this;}}",
        MAIN + "class A extends Object {set<Object> m(A x) {return this:Relation;}} class B extends A {set<Relation> m(A x) {return this:Relation;}}",
        MAIN + "class A extends Object {Object m(Relation x) {return x;}} class B extends A {Relation m(Object x) {return null;}}",
        MAIN + "relationship R extends Relation (R, R) {Object m(S x) {return this;}} relationship S extends R (R, R) {Relation m(R x) {return x;}} relationship T extends S (R, R) {T m(Object x) {return this;}}",
        MAIN + "class A extends Object {A m(A x) {return x;}} class B extends Object {boolean m(boolean x) {return x;}} relationship R extends Relation (A, B) {R m(R x) {return x;}}",
        MAIN + "class A extends Object {boolean m(boolean b) {boolean m; return b;} boolean n(boolean b) {boolean m; return m;}}",
    ],
}


def declared():
    for number, lines in DECLARED.items():
        for line in lines:
            yield number, ENOUGH, line


# ---------------------------------------------------------------- typing

WORLD = (
    "class A extends Object {boolean f; A g; set<A> h; A m(A x) {return x;}} class B extends A {boolean k; B n(B x) {return x;}} relationship R extends Relation (A, B) {boolean s; A t; A o(A x) {return this.t;}} "
    "relationship S extends R (B, B) {boolean u;} class M extends Object {boolean R_; boolean main(boolean b) {A a; B c; R r; S w; Object o; set<A> h; set<B> k; set<R> q; set<Object> e; Relation z; ")

GOOD = [
    # variables and literals
    "b = true; b = false; b = b;", "a = null; c = null; r = null; w = null; o = null; z = null;", "a = c; o = c; o = r; o = w; z = r; z = w; r = w; o = z;",
    "a = a = c; o = a = c; o = r = w;", "c = c; a = (c);", "b = ((b));",
    "o = this; o = (this);", "o = a = c = null; a = c = null;", "e = h; e = k; e = q; h = k; h = h;", "o = (a = c); o = (a = null);", "c = (a = c); c = (a = null);",
    # new
    "new A(); new B(); new M(); new Object();", "a = new A(); a = new B(); o = new Object();", "new A().m(new B());", "new A().f = b; new B().f = new B().k;",
    # fields
    "b = a.f; b = c.f; b = c.k; a = c.g; h = c.h; b = r.s; b = w.s; b = w.u; a = w.t;",
    "a.f = b; c.f = b; c.k = c.f; a.g = c; c.g = a; a.g = null; w.s = w.u; w.t = c; a.h = k;", "a = a.g = c.g = c; a = a.g.g.g; a.g.g.g = c.g;",
    "this.R_ = b; b = this.R_;", "(a).f = (b); (a.g).g = (c);", "a.m(a).g = c.n(c); a.f = a.f = b;", "c = a.g = c;", "b = R.add(a, c).s; R.add(a, c).s = b;", "a = a.g = null;",
    # calls
    "a.m(a); a.m(c); c.m(a); c.n(c); r.o(a); w.o(c);", "a.m(null); c.n(null); w.o(null);", "a = a.m(a).m(a).m(c.n(c)); c = c.n(c).n(null);",
    "b = this.main(b); this.main(this.main(true));", "(c).m((a)); this.main(a == a);", "a = c.m(a = c);",
    # partners, instances, ends
    "k = a.R; k = c.R; k = c.S; q = a:R; q = c:S; e = a.R; h = a.R;", "k = null.R; q = null:R; q = null:S; k = null.S;",
    "e = a.Relation; e = r.Relation; e = this.Relation; e = r:Relation; e = null.Relation; e = null:Relation;", "e = o.Relation; e = o:Relation; e = z:Relation;",
    "a = r.from; c = r.to; c = w.from; c = w.to; o = z.from; o = z.to;", "a = w.from.g; b = r.to.k; b = R.add(a, c).to.k; c.n(w.from);",
    "k = r.from.R; k = r.to.S; q = r.from:R;", "r.from.f = b; r.to.k = b; w.from.k = b;",
    # comparison
    "b = a == a; b = a == c; b = a == r; b = r == w; b = null == null; b = null == a; b = z == null; b = o == this;", "b = (a == c) ; b = a.g == c.g; b = a.m(a) == r.to;",
    "if (a == null) {} else {};", "b = (a = null) == (c = null);", "b = new A() == new A(); b = R.add(a, c) == null;",
    # add and rem
    "R.add(a, c); R.rem(a, c); S.add(c, c); S.rem(c, c); R.add(c, c);", "Relation.add(a, a); Relation.add(r, this); Relation.rem(z, w);",
    "R.add(null, null); R.rem(null, c); S.add(null, c); Relation.add(null, null);", "r = R.add(a, c); r = S.add(c, c); z = R.rem(a, c); o = R.rem(a, c); w = S.rem(c, c);",
    "Relation.add(R.add(a, c), S.rem(c, c));", "R.add(r.from, w.to).s = b;", "r = R.add(a = c, c = null);",
    # statements
    "if (b) {} else {}; if (true) {a = c;} else {c = null;};", "if (b) {if (b) {a = c;} else {};} else {if (b) {} else {R.add(a, c);};};",
    "if (a.f) {} else {}; if (c.n(c).k) {} else {}; if (b = true) {} else {}; if ((b)) {} else {};", "if (a.f = b) {} else {};", "if (this.main(b)) {} else {};",
]

BAD = [
    # variables and literals
    "b = null;", "b = a;", "b = this;", "a = b;", "a = true;", "c = a;", "c = o;", "a = r;", "r = a;", "r = z;", "w = r;", "z = o;", "a = this;", "h = null;", "h = a;",
    "a = h;", "k = h;", "q = h;", "h = e;", "e = b;", "e = o;", "b = h;", "zz = b;", "zz = zz;", "zz = yy;", "b = zz;", "zz = null;", "zz = a.zz;",
    "A = a;", "R = r;", "a = A;", "o = R;", "f = b;", "b = f;", "x = a;", "a = x;", "main = b;", "b = main;", "Object = null;", "a = (zz);", "a = zz = c;", "a = c = zz;",
    "a = c = a;", "zz = a = zz;", "b = a = c;", "o = b;", "b = (b = a);",
    # new
    "new N();", "new R();", "new Relation();", "new a();", "a = new Object();", "c = new A();", "b = new A();", "o = new zz();", "new A().zz = b;", "new R().s = b;",
    "new m().m(a);",
    # fields
    "b = a.k;", "b = a.zz;", "b = zz.f;", "b = b.f;", "b = null.f;", "b = this.f;", "b = o.f;", "b = h.f;", "b = a.m;", "b = z.s;", "b = r.u;", "b = r.f;", "b = a.A;",
    "b = a.a;", "a.f = null;", "a.f = a;", "a.g = b;", "c.g = o;", "a.h = null;", "a.h = e;", "a.k = b;", "a.zz = b;", "zz.f = b;", "b.f = b;", "null.f = b;", "h.f = b;",
    "a.m = b;", "r.u = b;", "z.s = b;", "this.f = b;", "a.f = zz;", "a.zz = zz;", "zz.zz = zz;", "a = a.g.zz.g;", "a = a.zz.g.zz;", "(a).zz = b;", "((zz)).f = b;",
    "a.g.g = b;", "a.f.f = b;", "a.R = k;", "a.R = null;", "a.R = zz;", "c.S = k;", "a.Relation = e;", "null.R = k;", "h.R = k;", "r.from.zz = b;", "a.g = a.f = b;",
    "b = (a.g = c);",
    # calls
    "a.zz(a);", "a.n(c);", "c.zz(b);", "zz.m(a);", "null.m(a);", "b.m(a);", "h.m(a);", "o.m(a);", "this.m(a);", "z.o(a);", "a.m(b);", "a.m(r);", "a.m(h);", "c.n(a);",
    "c.n(o);", "a.m(zz);", "zz.zz(zz);", "a.zz(zz);", "a.R(a);", "a.f(b);", "a.g(a);", "b = a.m(a);", "c = c.m(c);", "this.main(null);", "this.main(a);", "a.m(a.m(b));",
    "a.m(a).zz(a);", "a = null.m(zz);", "(null).m(a);", "(a = null).m(a);", "a.main(b);", "r.m(a);", "a.o(a);", "k = a.R(a);", "a.A(a);",
    # partners, instances, ends
    "k = b.R;", "k = this.R;", "k = o.R;", "k = h.R;", "k = r.R;", "k = a.S;", "k = a.Relation;", "h = r.Relation;", "a = a.R;", "b = a.R;", "q = b:R;", "q = this:R;",
    "q = a:S;", "q = a:A;", "q = a:zz;", "q = a:f;", "q = zz:R;", "q = zz:zz;", "k = a:R;", "q = a.R;", "q = r:R;", "q = h:R;", "e = b.Relation;", "e = b:Relation;",
    "e = h:Relation;", "e = null:A;",
    "e = null:zz;", "k = a.R.R;", "q = a:R:R;", "k = a.R.f;", "a = a.from;", "a = a.to;", "o = this.from;", "o = null.from;", "o = null.to;", "o = b.from;", "o = h.to;",
    "o = q.from;", "o = a:R.from;", "o = zz.from;", "o = o.from;", "c = r.from;", "b = r.to;", "c = z.to;", "a = r.from.from;", "k = zz.R;",
    # comparison
    "b = b == b;", "b = true == false;", "b = b == null;", "b = a == b;", "b = b == a;", "b = h == h;", "b = h == null;", "b = a == h;", "b = zz == a;", "b = a == zz;",
    "b = zz == yy;", "a = a == a;", "b = a == a.f;", "b = (a == c) == (a == c);", "b = (b) == a;", "b = a.R == c.R;", "b = a:R == null;", "b = ((b == zz));",
    # add and rem
    "R.add(b, c);", "R.add(a, b);", "R.add(a, a);", "R.add(o, c);", "R.add(r, c);", "S.add(a, c);", "S.rem(a, c);", "R.rem(c, a);", "R.rem(a, h);", "A.add(a, a);",
    "zz.add(a, c);", "zz.rem(a, c);", "Object.add(a, a);", "a.add(a, c);", "r.rem(a, c);", "R.add(zz, c);", "R.add(a, zz);", "R.add(zz, yy);", "zz.add(yy, xx);",
    "zz.add(a, yy);", "w = R.add(c, c);",
    "b = R.rem(a, c);", "a = R.add(a, c);", "Relation.add(b, a);", "Relation.rem(a, h);", "Relation.add(a, q);", "R.add(a, c).u = b;", "R.add(a, a).s = b;",
    "b = R.add(a, c).s.s;", "R.add(R.add(a, c), c);",
    # statements
    "if (a) {} else {};", "if (null) {} else {};", "if (h) {} else {};", "if (zz) {} else {};", "if (a = null) {} else {};", "if (a.g) {} else {};",
    "if (a.m(a)) {zz = b;} else {};", "if (zz) {yy = b;} else {xx = b;};", "if (b) {zz = b;} else {};", "if (b) {} else {b = zz;};",
    "if (b) {if (a) {} else {b = zz;};} else {};", "if (null) {if (null) {} else {};} else {};",
    "if (b) {} else {if (b == b) {} else {};};", "if (a.zz) {} else {a.zz(a);};", "a.zz(a); if (a) {} else {};", "if (a) {} else {}; zz = b;",
]

RETURNED = [
    # result, expression, whether it fits
    ("boolean", "b", True), ("boolean", "true", True), ("boolean", "null", False), ("boolean", "this", False), ("boolean", "zz", False), ("boolean", "this == null", True),
    ("boolean", "b = false", True), ("boolean", "(b)", True),
    ("M", "null", True), ("M", "this", True), ("M", "new M()", True), ("M", "new N()", True), ("M", "new Object()", False), ("M", "b", False), ("M", "this:Relation", False),
    ("N", "this", False), ("N", "new N()", True), ("N", "null", True), ("N", "zz", False),
    ("Object", "this", True), ("Object", "Relation.add(this, this)", True), ("Object", "b", False), ("Object", "this.Relation", False), ("Object", "null", True),
    ("Relation", "this", False), ("Relation", "W.add(this, this)", True), ("Relation", "null", True),
    ("W", "W.rem(null, null)", True), ("W", "Relation.add(this, this)", False), ("W", "W.add(b, this)", False), ("set<M>", "null", False), ("set<M>", "this.W", True),
    ("set<N>", "this.W", False), ("set<W>", "this:W", True), ("set<Relation>", "this:W", True),
    ("set<Object>", "this:W", True), ("set<Object>", "this.W", True), ("set<W>", "this:Relation", False), ("set<M>", "this", False), ("set<M>", "new N().W", True),
    ("set<boolean_>", "this", None),
]

SELF = [
    # this in relationships, variables of other methods, and what is found upward
    (ACCEPTED, "relationship R extends Relation (A, A) {R f; R m(R x) {return this;} A n(A x) {return this.from;} A o(A x) {return this.to;} Object p(R x) {return this;} boolean q(R x) {return this == this.m(x);}} class A extends Object {} "),
    (ACCEPTED, "relationship R extends Relation (A, A) {R f; R m(R x) {this.f = this; return this.f.m(x);}} relationship S extends R (A, A) {R n(R x) {this.f = this; return this.m(this).m(x);}} class A extends Object {} "),
    (28, "relationship R extends Relation (A, A) {A m(R x) {return this;}} class A extends Object {} "),
    (28, "relationship R extends Relation (A, A) {S m(S x) {return this;}} relationship S extends R (A, A) {} class A extends Object {} "),
    (28, "relationship R extends Relation (A, A) {R m(R x) {return this.from;}} class A extends Object {} "),
    (28, "relationship R extends Relation (A, A) {R m(R x) {return this.g;}} relationship S extends R (A, A) {R g;} class A extends Object {} "),
    (28, "relationship R extends Relation (A, A) {R m(R x) {return this.n(x);}} relationship S extends R (A, A) {R n(R x) {return x;}} class A extends Object {} "),
    (28, "relationship R extends Relation (A, A) {set<A> m(R x) {return this.R;}} class A extends Object {} "),
    (28, "class A extends Object {A m(A x) {A y; return x;} A n(A z) {return y;}} "), (28, "class A extends Object {A m(A x) {return z;} A n(A z) {return z;}} "),
    (28, "class A extends Object {A m(A x) {A y; return y;} A n(A z) {y = z; return z;}} "), (28, "class A extends Object {A f; A m(A x) {return f;}} "),
    (28, "class A extends Object {A m(A x) {return b;}} "), (28, "class A extends Object {A m(A x) {return A;}} "), (28, "class A extends Object {A m(A x) {return m;}} "),
    (28, "class A extends Object {boolean m(boolean x) {return this.main(x);}} "),
    (ACCEPTED, "class A extends Object {A f; A m(A x) {return this.f;}} class B extends A {} class C extends B {A g; A m(A x) {return this.f = this.m(x.f);}} class D extends C {A n(A x) {return this.m(this.f).f = this.g;}} "),
    (28, "class A extends Object {A f;} class B extends A {A g;} class C extends Object {A m(B x) {return x.f.g;}} "),
    (ACCEPTED, "class A extends Object {A f;} class B extends A {A g;} class C extends Object {A m(B x) {return x.g.f;}} "),
    (ACCEPTED, "class A extends Object {Object m(B x) {return x;}} class B extends A {A m(A x) {return x;}} class C extends B {B m(Object x) {return this;} A n(C x) {return x.m(this);}} "),
    (28, "class A extends Object {Object m(B x) {return x;}} class B extends A {A m(A x) {return x;}} class C extends Object {A n(A x) {return x.m(null);}} "),
    (28, "class A extends Object {Object m(B x) {return x;}} class B extends A {A m(A x) {return x;}} class C extends Object {Object n(A x) {return x.m(x);}} "),
    (ACCEPTED, "class A extends Object {Object m(B x) {return x;}} class B extends A {A m(A x) {return x;}} class C extends Object {A n(B x) {return x.m(x.m(x));}} "),
    (ACCEPTED, "class A extends Object {} class B extends Object {A m; A B; A m(A m) {m = this.m = this.m(m); return m;} A b(A B) {return this.B = B;}} "),
    (ACCEPTED, "class R_ extends Object {R_ r; R_ m(R_ R) {return R;} set<R_> n(R_ r) {return r.R;} R_ o(R_ r) {return r.R(r);} R_ R(R_ r) {return r.r;}} relationship R extends Relation (R_, R_) {} "),
    (28, "class R_ extends Object {R_ r; R_ m(R_ r) {return r.R;}} relationship R extends Relation (R_, R_) {} "),
    (28, "class A extends Object {A m(A x) {x.R = x; return x;}} relationship R extends Relation (A, A) {} "),
    (ACCEPTED, "class A extends Object {set<R> m(A R) {R.add(R, R); return R:R;}} relationship R extends Relation (A, A) {} "),
    (ACCEPTED, "class A extends Object {A m(A A) {A = new A(); return A;}} "),
    (28, "class A extends Object {A m(A R) {R.f = R; return R;}} relationship R extends Relation (A, A) {} "),
    (28, "relationship R extends Relation (R, A) {R m(R x) {return R.add(x, x);}} class A extends Object {} "),
    (ACCEPTED, "relationship R extends Relation (R, A) {R m(A x) {return R.add(R.add(null, x), x).from.from;}} class A extends Object {} "),
    (28, "class A extends Object {A m(A x) {zz = x; return x;}} class B extends Object {B m(B x) {yy = x; return x;}} "),
    (28, "relationship R extends Relation (R, R) {R m(R x) {zz = x; return x;}} class B extends Object {B m(B x) {yy = x; return x;}} "),
    (28, "class A extends Object {A m(A x) {return zz;}} relationship R extends Relation (R, R) {R m(R x) {return zz;}} "),
]


def typed():
    for meant, bodies in ((ACCEPTED, GOOD), (28, BAD)):
        for body in bodies:
            yield meant, ENOUGH, WORLD + body + " return b;}}"
    for result, expression, fits in RETURNED:
        meant = {True: ACCEPTED, False: 28, None: 22}[fits]
        yield meant, ENOUGH, "relationship W extends Relation (M, M) {} class M extends Object {" + result + " main(boolean b) {return " + expression + ";}} class N extends M {}"
    for meant, line in SELF:
        yield meant, ENOUGH, line + MAIN
        yield meant, ENOUGH, MAIN + line
    # two faults of type in one body: the first place counts, whatever is judged first
    draw = random.Random(3)
    for _ in range(30):
        yield 28, ENOUGH, WORLD + " ".join(draw.choice(BAD) for _ in range(draw.randrange(2, 5))) + " return b;}}"


# ---------------------------------------------------------------- several faults in one text

FAULTS = {
    11: "#", 12: "|17*(|", 13: "; ", 14: "class L% extends Object {L% m(L% x) {|11*L% y; |return x;}} ",
    21: "class Object extends Object {} ", 22: "class U% extends V% {} ", 23: "class W% extends Object {W% f; W% f;} ",
    24: "relationship X% extends Relation (X%, X%) {} relationship Y% extends X% (Object, Y%) {} ",
    25: "class P% extends Object {P% m(P% x) {return x;}} class Q% extends P% {P% m(Q% x) {return x;}} ",
    26: "class N% extends Object {boolean main(boolean b) {return b;}} ",
    27: "relationship Z% extends Relation (Z%, Z%) {Z% a; Z% b; Z% c; Z% d; Z% e; Z% f; Z% g; Z% h; Z% i;} ",
    28: "class T% extends Object {T% m(T% x) {return zz;}} ",
}

# each declares a row K% with one fault
NOT_DECLARED = [
    "class K% extends Q {} ", "relationship K% extends Q (K%, K%) {} ", "relationship K% extends Relation (Q, K%) {} ", "relationship K% extends Relation (K%, Q) {} ",
    "class K% extends Object {Q f;} ",
    "class K% extends Object {set<Q> f;} ", "class K% extends Object {Q m(K% x) {return x;}} ", "class K% extends Object {K% m(Q x) {return x;}} ",
    "class K% extends Object {K% m(K% x) {Q y; return x;}} ",
]
CLASHES = [
    "class K% extends Object {K% f; K% f;} ", "class J% extends Object {K% f;} class K% extends J% {K% f;} ", "relationship K% extends Relation (K%, K%) {K% K%;} ",
    "class K% extends Object {K% Relation;} ",
    "class K% extends Object {K% m(K% x) {return x;} K% m(K% x) {return x;}} ", "class K% extends Object {K% m(K% x) {K% x; return x;}} ",
    "relationship K% extends Relation (K%, K%) {K% m(K% x) {K% y; K% y; return x;}} ",
]


def mixed():
    def numbered(n, line):
        return re.sub(r"%", str(n), line)

    for i, one in FAULTS.items():
        for j, two in FAULTS.items():
            meant = min(i, j)
            yield meant, ENOUGH, numbered(1, one) + numbered(2, two) + MAIN
            if 20 < i != j > 20:
                yield meant, ENOUGH, MAIN + numbered(1, one) + numbered(2, two)
    for number, table in ((22, NOT_DECLARED), (23, CLASHES)):
        for one in table:
            for two in table:
                if one != two:
                    yield number, ENOUGH, numbered(1, one) + numbered(2, two)
    # all of them at once, the lowest last; and all from some number on
    late = [numbered(1, FAULTS[n]) for n in sorted(FAULTS) if n > 20]
    for k in range(len(late)):
        yield 21 + k, ENOUGH, "".join(late[k:][::-1]) + MAIN
    yield 22, ENOUGH, "class A extends B {C d; E f(G h) {I j; return k;}} relationship L extends N (O, P) {Q r;}"
    yield 22, ENOUGH, "class A extends Object {C d; E f(G h) {I j; return k;}} relationship L extends N (O, P) {Q r;}"
    yield 22, ENOUGH, "class A extends Object {A d; E f(G h) {I j; return k;}} relationship L extends N (O, P) {Q r;}"
    yield 22, ENOUGH, "class A extends Object {A d; A f(G h) {I j; return k;}} relationship L extends N (O, P) {Q r;}"
    yield 22, ENOUGH, "class A extends Object {A d; A f(A h) {I j; return k;}} relationship L extends N (O, P) {Q r;}"
    yield 22, ENOUGH, "class A extends Object {A d; A f(A h) {A j; return k;}} relationship L extends N (O, P) {Q r;}"
    yield 22, ENOUGH, "class A extends Object {A d; A f(A h) {A j; return k;}} relationship L extends Relation (O, P) {Q r;}"
    yield 22, ENOUGH, "class A extends Object {A d; A f(A h) {A j; return k;}} relationship L extends Relation (A, P) {Q r;}"
    yield 22, ENOUGH, "class A extends Object {A d; A f(A h) {A j; return k;}} relationship L extends Relation (A, A) {Q r;}"
    yield 26, ENOUGH, "class A extends Object {A d; A f(A h) {A j; return k;}} relationship L extends Relation (A, A) {A r;}"


# ---------------------------------------------------------------- programs by chance

def by_chance(seed, count):
    """Programs in the grammar, of a few names each, mostly declared well."""
    draw = random.Random(seed)
    for _ in range(count):
        yield chance_program(draw)


def chance_program(draw):
    slip = draw.choice((0, 0, 0.02, 0.1))          # how often a name is any name
    classes = [f"C{i}" for i in range(draw.randrange(1, 5))]
    relationships = [f"R{i}" for i in range(draw.randrange(0, 4))]
    rows = classes + relationships + ["Object", "Relation"]
    names = rows + ["x", "y", "z", "f", "g", "m", "n", "main"]

    def pick(those):
        return draw.choice(names if draw.random() < slip or not those else those)

    def written():
        return draw.choice(["boolean", "set<" + pick(rows) + ">", pick(rows), pick(rows)])

    def item(deep):
        if deep <= 0:
            return draw.choice(["x", "y", "z", "this", "this", "null", "true", "new " + pick(classes) + "()", pick(["x", "y"])])
        d = deep - 1
        return draw.choice([
            lambda: item(0), lambda: item(d) + "." + pick(["f", "g"]), lambda: item(d) + "." + pick(relationships + ["Relation"]), lambda: item(d) + ":" + pick(relationships + ["Relation"]),
            lambda: item(d) + draw.choice([".from", ".to"]), lambda: item(d) + "." + pick(["m", "n"]) + "(" + expression(d) + ")", lambda: "(" + expression(d) + ")",
            lambda: pick(relationships + ["Relation"]) + draw.choice([".add(", ".rem("]) + expression(d) + ", " + expression(d) + ")",
        ])()

    def expression(deep):
        kind = draw.randrange(8)
        if kind == 0:
            return item(deep) + " == " + item(deep)
        if kind == 1:
            return pick(["x", "y", "z"]) + " = " + expression(deep - 1)
        if kind == 2:
            return item(deep - 1) + "." + pick(["f", "g"]) + " = " + expression(deep - 1)
        return item(deep)

    def statement(deep):
        kind = draw.randrange(6)
        if kind == 0 and deep > 0:
            return "if (" + draw.choice(["true", expression(1)]) + ") {" + block(deep) + "} else {" + block(deep) + "};"
        if kind == 1:
            return "new " + pick(classes) + "();"
        if kind == 2:
            return item(1) + ".m(" + expression(1) + ");"
        if kind == 3:
            return pick(relationships + ["Relation"]) + ".add(" + expression(1) + ", " + expression(1) + ");"
        return draw.choice([pick(["x", "y", "z"]), item(1) + "." + pick(["f", "g"])]) + " = " + expression(draw.randrange(3)) + ";"

    def block(deep):
        return " ".join(statement(deep - 1) for _ in range(draw.randrange(2)))

    def method(name, result, parameter):
        locals_ = [written() + " " + v + ";" for v in ("y", "z") if draw.random() < 0.6]
        body = [statement(1) for _ in range(draw.randrange(3) if draw.random() < 0.5 else 0)]
        value = "true" if result == "boolean" else "this." + name + "(x)" if draw.random() < 0.5 else draw.choice(["null", "x", "this"])
        return f"{result} {name}({parameter} x) {{" + " ".join(locals_ + body) + f" return {value};}}"

    text = []
    host = draw.choice(classes)
    todo = classes + relationships
    if draw.random() < 0.5:
        draw.shuffle(todo)
    shapes = {n: (written(), written()) for n in ("m", "n")}
    before = {"C": ["Object"], "R": ["Relation"]}
    for row in todo:
        line = before[row[0]]
        parent = pick(line)
        fields = [written() + " " + pick([f]) + ";" for f in ("f", "g") if draw.random() < (0.5 if parent in ("Object", "Relation") else 0.05)]
        methods = [method(n, *(shapes[n] if draw.random() > slip else (written(), written()))) for n in ("m", "n") if draw.random() < 0.5]
        if row == host:
            methods.append(method("main", draw.choice(["boolean", written()]), "boolean"))
        inside = " ".join(fields + methods)
        if row[0] == "C":
            text.append(f"class {row} extends {parent} {{{inside}}}")
        else:
            ends = [pick(draw.choice([["Object"], rows])) if parent == "Relation" or draw.random() < slip else draw.choice([row, "C0", "Object"]) for _ in range(2)]
            text.append(f"relationship {row} extends {parent} ({ends[0]}, {ends[1]}) {{{inside}}}")
        line.append(row)
    return " ".join(text)


def chances():
    for line in by_chance(1, 150):
        yield None, ENOUGH, line


# ---------------------------------------------------------------- models, cut and changed

def models():
    mill, place = oracle.MILL, oracle.NEW_PLACE
    yield ACCEPTED, ENOUGH, spell((ROOT / "models" / "mill.relj").read_bytes())
    for text in (mill, place):
        for end in range(len(text) + 1):
            yield None, ENOUGH, spell(text[:end])
    signs, letters = b"{}(),;<>.:=", b"xeM_pt"
    for at in range(0, len(mill), 3):
        for b in (letters[at // 3 % len(letters)], signs[at // 3 % len(signs)], 255):
            yield None, ENOUGH, spell(mill[:at] + bytes([b]) + mill[at + 1:])
    # words dropped, doubled, swapped with the next; each name made the name before it
    ws = [w.text for w in oracle.words(mill)]
    for i in range(len(ws)):
        changed = (ws[:i] + ws[i + 1:], ws[:i + 1] + ws[i:], ws[:i] + ws[i:i + 2][::-1] + ws[i + 2:])[i % 3]
        yield None, ENOUGH, " ".join(changed)
    last = "Mill"
    for i, w in enumerate(oracle.words(mill)):
        if w.kind == oracle.NAME:
            yield None, ENOUGH, " ".join(ws[:i] + [last] + ws[i + 1:])
            last = w.text


def large_model():
    """The large model, whole, cut and changed; few of these, since each whole one is a long line."""
    large = (ROOT / "models" / "large.relj").read_bytes()
    nodes = oracle.check(large).counts()[4]
    yield ACCEPTED, ENOUGH, spell(large)
    yield 15, nodes - 1, spell(large)
    for back in (1, 2, 9, 60):
        yield 13, ENOUGH, spell(large[:-back])
    for end in (1, 7, 40, 100, 255, 256, 511, 777, 1024, 1500, 2000, 2500, 3000, 3500, 4000):
        yield 13, ENOUGH, spell(large[:end])
    draw = random.Random(2)
    for end in range(300, 3300, 250):
        at = draw.randrange(end)
        yield None, ENOUGH, spell(large[:at] + bytes([draw.choice(b"k;9.)=")]) + large[at + 1:end])
    # one whole change for each later number: a name taken, one that is not declared, and so on
    def renamed(old, new, count=1):
        assert old in large
        return spell(large.replace(old, new, count))
    yield 21, ENOUGH, renamed(b"class k43 ", b"class k42 ")
    yield 22, ENOUGH, renamed(b"k67 k417;", b"k00 k417;")
    yield 23, ENOUGH, renamed(b"boolean k270;", b"boolean k312;")
    yield 28, ENOUGH, renamed(b"return false;", b"return null;")
    yield 28, ENOUGH, spell(large[:-40] + re.sub(rb"return [^;]*;", b"return zzz;", large[-40:]))
    yield 11, ENOUGH, spell(large[:20000] + b"\xff" + large[20001:])
    yield 13, ENOUGH, spell(large[:-1] + b";")


# ---------------------------------------------------------------- hostile texts

HOSTILE = [
    # beyond a limit by far
    (14, in_main("|16000*a=|a; ")), (14, in_main("|16000*a=|zz; ")), (14, in_main("|1000*a=|a; ")), (14, in_main("|8000*a.f=|a; ")), (14, in_main("a|16000*.f|=a; ")),
    (14, in_main("|900*a.f.f=|a; ")), (14, returned("b|16000*.f|")), (14, returned("b|16000*:R|")),
    (14, returned("b|1000*:R|")), (14, returned("b|6000*.from|")), (14, returned("b|1000*.to|")), (14, returned("b|6000*.m(b)|")), (14, returned("b|1000*.m(b)|")),
    (14, returned("b|500*.m(b=b=b)|")), (14, returned("|15000*b=|b==b")), (14, returned("(|1000*b=|b)")), (14, in_main("|8000*X y;|")),
    (14, in_main("|2900*set<X> y;|")), (14, "class A extends B {|8000*C d;|}"), (14, "class A extends B {|2900*set<C> d;|}"),
    (14, "class A extends B {|1600*A m(A x){return x;}|}"), (14, "1700*class A extends B{}"), (14, "1600*class A extends A {}"),
    (14, "950*relationship A extends B(C,D){}"), (14, "600*class A extends B{C d;E f(G h){return i;}}"), (14, in_main("|8000*a=b;|")), (14, in_main("|2000*if(b){}else{};|")),
    (14, in_main("|1000*if(b){a=b;}else{b=a;};|")), (14, in_main("|3000*new A();|")), (14, in_main("|1500*R.add(a,b);|")),
    (14, in_main("|300*a=(b=(c=(d=(e=(f=(g=(h))))))); |")), (14, in_main("|13*if(b){}else{|a=b=b=b=b;|13*};|")), (14, returned("|14*(|b|16*.f|14*)|")),
    # at the edge of the brackets, and as large as the limits let it be
    (ACCEPTED, in_main("|14*if(b){}else{|14*};|")), (12, in_main("|15*if(b){}else{|15*};|")), (ACCEPTED, in_main("|13*if(b){|b=b;|13*}else{};|")),
    (ACCEPTED, in_main("|600*b=((b));|")), (14, in_main("|1023*b=((b));|")), (ACCEPTED, in_main("|60*b=b=b=b=b=b=b=b=b=b=b=b=b=b=b;|")),
    (ACCEPTED, in_main("b=|6*(b=|b|6*)|; ")), (28, in_main("|682*a=b;|")), (28, in_main("|600*zz=zz;|")), (28, in_main("|600*if(zz){}else{};|")),
    (28, in_main("|500*zz.zz(zz);|")), (28, in_main("|500*zz.add(zz,zz);|")),
    (21, "31*class A extends B {}"), (21, "31*class A extends B {}|31*relationship A extends B (A, A) {}"), (22, many(31, "class C% extends D {} ")),
    (22, many(31, "class C% extends C% {} ")), (23, "class A extends Object {|128*A f;|}"), (23, "class A extends Object {|64*A m(A x){return x;}|}"),
    (23, "class A extends Object {A m(A x) {|10*A x;|return x;}}"), (27, "class A extends Object {" + many(128, "A f%;") + "} " + MAIN),
    (27, "relationship R extends Relation (R, R) {" + many(128, "R f%;") + "} " + MAIN),
    # the deepest line of descent, with a search to its top from its foot
    (ACCEPTED, chain(29, "class C0 extends Object {C0 f; C0 m(C0 x) {return x;}} ", "class C% extends C^ {} ") + "class M extends C29 {boolean main(boolean b) {|400*this.m(this.f);|return this.f == this.m(this);}}"),
    (ACCEPTED, chain(30, "relationship R0 extends Relation (Object, Object) {R0 f; R0 m(R0 x) {return x;}} ", "relationship R% extends R^ (R%, R^) {} ") + in_main("R30 r; |300*r.m(r.f.f);|")),
    (24, chain(29, "relationship R0 extends Relation (R0, R0) {} ", "relationship R% extends R^ (R%, R%) {} ") + "relationship R30 extends R29 (R29, R28) {}"),
    (25, chain(29, "class C0 extends Object {C0 m(C0 x) {return x;}} ", "class C% extends C^ {C% m(C0 x) {return this;}} ") + "class C30 extends C29 {C28 m(C0 x) {return x;}}"),
    (ACCEPTED, chain(29, "class C0 extends Object {C0 m(C0 x) {return x;}} ", "class C% extends C^ {C% m(C0 x) {return this;}} ") + MAIN),
    (28, chain(29, "class C0 extends Object {} ", "class C% extends C^ {} ") + "class M extends C29 {boolean main(boolean b) {return this.f == this.m(this);}}"),
    # long names that differ in their last letter
    (ACCEPTED, many(9, "class " + 30 * "n" + "% extends Object {} ") + "class M extends " + 30 * "n" + "8 {boolean main(boolean " + 30 * "n" + "x) {return " + 30 * "n" + "x;}}"),
    (28, "class M extends Object {boolean main(boolean " + 30 * "n" + "x) {return " + 30 * "n" + "y;}}"), (22, "class " + 30 * "n" + "x extends Object {" + 30 * "n" + "y f;}"),
    (21, "class " + 31 * "n" + " extends Object {} class " + 31 * "n" + " extends Object {}"),
    (26, "class A" + 30 * "a" + " extends Object {} class A" + 29 * "a" + " extends Object {} class " + 30 * "a" + " extends Object {}"),
]


def hostile():
    for meant, line in HOSTILE:
        yield meant, ENOUGH, line


# ---------------------------------------------------------------- the files

def all_cases():
    """Each different case once: its scratch, its line, and what is said of it."""
    said = {}
    tables = (
        examples, passed_grammar, early, limits, heights, scratches, declared, typed, mixed, chances, models, large_model, hostile,
    )
    for table in tables:
        for meant, scratch, line in table():
            if (scratch, line) not in said:
                said[scratch, line] = verdict(scratch, expand(line))
            v = said[scratch, line]
            met = 0 if v.startswith("accepted") else int(v.split()[0])
            assert meant in (None, met), f"{table.__name__}: {meant} was meant, {v} is said of {scratch} {line[:2000]}"
    return said


def main(arguments):
    said = all_cases()
    files = {
        "stdin": "".join(f"{scratch} {line}\n" for scratch, line in said), "stdout": "".join(f"{v}\n" for v in said.values()),
    }
    if arguments == ["--check"]:
        stale = [name for name, text in files.items() if (CRATE / name).read_text() != text]
        print("stale: " + ", ".join(stale) if stale else f"{len(said)} cases, as written")
        return 1 if stale else 0
    for name, text in files.items():
        (CRATE / name).write_text(text)
    kinds = [v.split()[0] for v in said.values()]
    print(f"{len(said)} cases: " + ", ".join(f"{kinds.count(k)} {k}" for k in sorted(set(kinds))))
    return 0


if __name__ == "__main__":
    sys.exit(main(sys.argv[1:]))
