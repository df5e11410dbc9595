#!/usr/bin/env python3
"""Brings the repository's own definitions and lemmas to the spelling of today's library.

usage: python3 tools/respell.py [--report]      at the top of the repository, once, right after port.py

respell.tsv, beside this script, has a row for each name: old, a tab, new. Words are joined by `_`; a dash is left
only between the names of two functions (`length-changed`). A name turns in the code of .antt files, in the clauses
of .rt files, and in code spans of comments and pages. Behind a dot it turns only where it is a field of a record of
specs/ or proofs/, or a name of a module that the file brings in by `as`; generated names, behind `goal.` and in what
`Goals` gives, are not ours. Names in src/, strings, inputs and outputs are never touched.
--report writes nothing and prints names that fall together in one file.
"""
import os
import re
import sys

HERE = os.path.dirname(os.path.abspath(__file__))
WORD = re.compile(r'[^\s(){}.;,@"«»`]+')
SPAN = re.compile(r"`[^`\n]+`")
# Before the table, in these files: a lemma whose name would be that of its function, and a name that two functions had.
FIRST = [("crates/pairs/proofs/", "to_set", "to_set_lem"), ("crates/program/specs/Model.antt", "methodOf", "method_of_variable")]


def table():
    with open(os.path.join(HERE, "respell.tsv"), encoding="utf-8") as f:
        return dict(line.rstrip("\n").split("\t") for line in f)


def sources(root):
    for folder, dirs, files in os.walk(os.path.join(root, "crates")):
        dirs[:] = [d for d in dirs if d != "out"]
        for name in files:
            if name.endswith((".antt", ".rt")):
                yield os.path.join(folder, name)


def code_of(line, mark):
    """The line's code, and its comment."""
    if line.lstrip().startswith(mark):
        return "", line
    at = line.find(" " + mark + " ")
    return (line, "") if at < 0 else (line[:at], line[at:])


def fields_of(root, names):
    """The fields of the records of .antt files, of those that turn."""
    found = set()
    for path in sources(root):
        if not path.endswith(".antt"):
            continue
        depth = None
        with open(path, encoding="utf-8") as f:
            for line in f:
                code, _ = code_of(line.rstrip("\n"), "--")
                if not code.strip():
                    continue
                indent = len(code) - len(code.lstrip())
                if re.match(r"\s*(pub )?record\b", code):
                    depth = indent
                elif depth is not None and indent <= depth:
                    depth = None
                elif depth is not None:
                    it = re.match(r"\s*(?:pub )?([^\s(){}.;,@\"«»]+)\s*:", code)
                    if it and it.group(1) in names:
                        found.add(it.group(1))
    return found


def turn(text, names, fields, aliases, generated):
    def one(match):
        word = match.group(0)
        new = names.get(word)
        if new is None or word in generated:
            return word
        before = text[: match.start()]
        if before.endswith("."):
            holder = re.search(r'([^\s(){}.;,@"«»`]*)\.$', before).group(1)
            if not (word in fields or holder in aliases):
                return word
        return new

    return WORD.sub(one, text)


def strings_apart(text):
    """Pieces of a line: code, and string literals."""
    return re.split(r'("(?:[^"\\\n]|\\.)*")', text)


def respell(path, text, root, names, fields):
    mark = "--" if path.endswith(".antt") else "//"
    aliases, generated = set(), set()
    for it in re.finditer(r"use (\S+) as (\S+?);?$", text, re.M):
        if not re.search(r"\.(Goals|Given)$", it.group(1)):
            aliases.add(it.group(2))
    for it in re.finditer(r"use \S+\.(?:Goals|Given)\.\{([^}]*)\}", text):
        generated.update(w.strip() for w in it.group(1).split(","))
    for where, old, new in FIRST:
        if os.path.relpath(path, root).startswith(where):
            text = re.sub(rf"(?<![\w-]){old}(?![\w-])", new, text)
    lines = []
    for line in text.split("\n"):
        code, comment = code_of(line, mark)
        pieces = strings_apart(code)
        code = "".join(p if i % 2 else turn(p, names, fields, aliases, generated) for i, p in enumerate(pieces))
        comment = SPAN.sub(lambda m: turn(m.group(0), names, fields, aliases, generated), comment)
        lines.append(code + comment)
    return "\n".join(lines)


def report(path, old, new, names):
    """Two names of the old text that are one in the new."""
    was, seen = {}, set(WORD.findall(old))
    for word in sorted(seen):
        turned = names.get(word, word)
        if turned != word and (turned in seen or turned in was):
            print(f"{path}: {word} and {was.get(turned, turned)} are both {turned}")
        was.setdefault(turned, word)


def main():
    root = os.getcwd()
    names = table()
    fields = fields_of(root, names)
    for path in sources(root):
        with open(path, encoding="utf-8") as f:
            old = f.read()
        new = respell(path, old, root, names, fields)
        if "--report" in sys.argv:
            report(os.path.relpath(path, root), old, new, names)
        elif new != old:
            with open(path, "w", encoding="utf-8") as f:
                f.write(new)
    pages = ["README.md"] + [os.path.join("docs", p) for p in sorted(os.listdir("docs")) if p.endswith(".md")]
    for page in pages:
        with open(page, encoding="utf-8") as f:
            old = f.read()
        new = SPAN.sub(lambda m: turn(m.group(0), names, fields, set(), set()), old)
        if new != old and "--report" not in sys.argv:
            with open(page, "w", encoding="utf-8") as f:
                f.write(new)
    return 0


if __name__ == "__main__":
    raise SystemExit(main())
