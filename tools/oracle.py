#!/usr/bin/env python3
"""A second, independent implementation of RelJ, to compare others with.

It is written for clarity and not for speed, and nothing in it is proved.

    oracle.py < model.relj           judge and run: END STEPS CELLS ROWS, or REFUSAL PLACE
    oracle.py --check < model.relj   judge alone, and print the counts of an accepted text
    oracle.py --self-test            the runs that are known by hand

Input is bytes, and a place is a byte's number in the text, from 0.
"""

import sys
from dataclasses import dataclass, field
from typing import NamedTuple, Optional

# ---------------------------------------------------------------- limits

MAX_TEXT = 32768        # bytes of a text
MAX_NAME = 31           # bytes of a name
MAX_OPEN = 16           # brackets ( and { open at a time
MAX_CLASSES = 31
MAX_RELATIONSHIPS = 31
MAX_FIELDS = 128        # in the whole text
MAX_METHODS = 64        # in the whole text
MAX_VARIABLES = 12      # of one method, with this and the parameter
MAX_NODES = 2048        # in the whole text
MAX_HEIGHT = 16
MAX_OWN_FIELDS = 8      # of one cell
MAX_FRAMES = 32


class Refusal(Exception):
    """A refusal: its number and its place (a step's also has its method)."""

    def __init__(self, number, place=0, method=None):
        super().__init__(number, place, method)
        self.number, self.place, self.method = number, place, method


# ---------------------------------------------------------------- words

KEYWORDS = {
    "class", "extends", "relationship", "boolean", "set", "return", "if", "else",
    "true", "false", "null", "this", "new", "add", "rem", "from", "to",
}
SIGNS = "{}(),;<>.:="   # and ==
NAME, END = "name", "end"


class Word(NamedTuple):
    kind: str           # NAME, END, or the keyword or sign itself
    text: str
    place: int


def begins_name(b):
    return b == ord("_") or ord("a") <= b <= ord("z") or ord("A") <= b <= ord("Z")


def continues_name(b):
    return begins_name(b) or ord("0") <= b <= ord("9")


def words(text):
    """The words of a text; refusal 11 at the first byte or word that is not allowed."""
    out, at = [], 0
    while at < len(text):
        b = text[at]
        if b in (9, 10, 13, 32):
            at += 1
        elif begins_name(b):
            end = at
            while end < len(text) and continues_name(text[end]):
                end += 1
            if end - at > MAX_NAME:
                raise Refusal(11, at)
            w = text[at:end].decode("ascii")
            out.append(Word(w if w in KEYWORDS else NAME, w, at))
            at = end
        elif b < 128 and chr(b) in SIGNS:
            sign = "==" if text[at:at + 2] == b"==" else chr(b)
            out.append(Word(sign, sign, at))
            at += len(sign)
        else:
            raise Refusal(11, at)
    return out


def depth(ws):
    """How many brackets are open at most; refusal 12 at the seventeenth."""
    now = most = 0
    for w in ws:
        if w.kind in ("(", "{"):
            now += 1
            if now > MAX_OPEN:
                raise Refusal(12, w.place)
            most = max(most, now)
        elif w.kind in (")", "}"):
            now = max(0, now - 1)
    return most


# ---------------------------------------------------------------- trees

@dataclass(eq=False)
class Node:
    kind: str
    place: int                          # of its first word
    parts: list                         # expressions worked out first, from the left
    height: int
    name: Optional[str] = None          # the name that the node has besides its parts
    blocks: Optional[tuple] = None      # of an if: two lists of statements
    type: Optional["Type"] = None       # an expression's, once it is judged
    link: Optional[int] = None          # the row, field or variable that the name means


class Part(NamedTuple):
    """A node as written: brackets around it count here and not in the node."""
    node: Node
    start: int          # place of the first word, brackets included
    height: int         # brackets included
    form: str           # 'name', 'field', 'call', 'make' or 'other': what may follow


class TypeName(NamedTuple):
    """A type as written."""
    shape: str          # 'boolean', 'row' or 'set'
    name: Optional[str]
    place: int          # of the row's name


@dataclass
class FieldDecl:
    name: str
    place: int
    written: TypeName
    type: Optional["Type"] = None
    owner: Optional["RowDecl"] = None
    number: int = 0


@dataclass
class MethodDecl:
    name: str
    place: int
    result_written: TypeName
    # the parameter, then the locals: name, place, written type
    variables: list
    body: list                          # statements, the return last
    result: Optional["Type"] = None
    types: list = field(default_factory=list)   # of the variables
    owner: Optional["RowDecl"] = None
    number: int = 0


@dataclass
class RowDecl:
    line: str                           # 'class' or 'relationship'
    name: str
    place: int
    parent_name: Optional[str]
    parent_place: int
    end_names: list                     # (name, place) twice for a relationship
    fields: list
    methods: list
    number: int = 0
    parent: Optional[int] = None
    ends: Optional[list] = None         # two types


# ---------------------------------------------------------------- grammar

class Parser:
    """Refusal 13 stands at the first word with which no program goes on.

    There is never a need to go back: what may yet become a place to assign to
    is held as an item until the next word decides.
    """

    def __init__(self, ws, length):
        self.ws = ws + [Word(END, "", length)]
        self.at = 0

    @property
    def kind(self):
        return self.ws[self.at].kind

    @property
    def place(self):
        return self.ws[self.at].place

    def fault(self):
        raise Refusal(13, self.place)

    def take(self, kind):
        if self.kind != kind:
            self.fault()
        self.at += 1
        return self.ws[self.at - 1]

    def program(self):
        rows = []
        while self.kind != END:
            if self.kind == "class":
                rows.append(self.row("class"))
            elif self.kind == "relationship":
                rows.append(self.row("relationship"))
            else:
                self.fault()
        return rows

    def row(self, line):
        self.take(line)
        name = self.take(NAME)
        self.take("extends")
        parent = self.take(NAME)
        ends = []
        if line == "relationship":
            self.take("(")
            ends.append(self.take(NAME))
            self.take(",")
            ends.append(self.take(NAME))
            self.take(")")
        self.take("{")
        fields, methods = [], []
        while self.kind != "}":
            written = self.type()
            member = self.take(NAME)
            if self.kind == ";" and not methods:
                self.take(";")
                fields.append(FieldDecl(member.text, member.place, written))
            else:
                methods.append(self.method(written, member))
        self.take("}")
        return RowDecl(line, name.text, name.place, parent.text, parent.place,
                       [(e.text, e.place) for e in ends], fields, methods)

    def type(self):
        if self.kind == "boolean":
            return TypeName("boolean", None, self.take("boolean").place)
        if self.kind == "set":
            self.take("set")
            self.take("<")
            w = self.take(NAME)
            self.take(">")
            return TypeName("set", w.text, w.place)
        w = self.take(NAME)
        return TypeName("row", w.text, w.place)

    def method(self, result, name):
        self.take("(")
        written = self.type()
        parameter = self.take(NAME)
        variables = [(parameter.text, parameter.place, written)]
        self.take(")")
        self.take("{")
        while self.kind in ("boolean", "set") or (
                self.kind == NAME and self.ws[self.at + 1].kind == NAME):
            written = self.type()
            w = self.take(NAME)
            self.take(";")
            variables.append((w.text, w.place, written))
        body = []
        while self.kind != "return":
            body.append(self.statement())
        place = self.take("return").place
        e = self.expression(False)
        self.take(";")
        self.take("}")
        body.append(Node("return", place, [e.node], e.height + 1))
        return MethodDecl(name.text, name.place, result, variables, body)

    def statement(self):
        if self.kind == "if":
            return self.choice()
        e = self.expression(True)
        self.take(";")
        return Node("action", e.start, [e.node], e.height + 1)

    def choice(self):
        place = self.take("if").place
        self.take("(")
        condition = self.expression(False)
        self.take(")")
        first = self.block()
        self.take("else")
        second = self.block()
        self.take(";")
        height = max([condition.height] + [s.height for s in first + second])
        return Node("if", place, [condition.node], height + 1, blocks=(first, second))

    def block(self):
        self.take("{")
        out = []
        while self.kind != "}":
            out.append(self.statement())
        self.take("}")
        return out

    def expression(self, action):
        """An expression; with action, only one that may stand alone as an action."""
        targets = []
        while True:
            part = self.item()
            if self.kind != "=" or part.form not in ("name", "field"):
                break
            self.take("=")
            targets.append(part)
        if action and not targets:
            if part.form not in ("call", "make"):
                self.fault()
            return part
        if self.kind == "==":
            self.take("==")
            right = self.item()
            node = Node("same", part.start, [part.node, right.node],
                        max(part.height, right.height) + 1)
            part = Part(node, part.start, node.height, "other")
        # the last target takes the value first
        for target in reversed(targets):
            if target.form == "name":
                node = Node("set variable", target.start, [part.node],
                            part.height + 1, target.node.name)
            else:
                node = Node("set field", target.start, [target.node.parts[0], part.node],
                            max(target.node.height, part.height + 1), target.node.name)
            part = Part(node, target.start, node.height, "other")
        return part

    def item(self):
        part = self.atom()
        while self.kind in (".", ":"):
            part = self.suffix(part)
        return part

    def suffix(self, part):
        def grown(kind, form, name=None, other=None):
            parts = [part.node] + ([other.node] if other else [])
            height = max([part.height] + ([other.height] if other else [])) + 1
            node = Node(kind, part.start, parts, height, name)
            return Part(node, part.start, height, form)

        if self.kind == ":":
            self.take(":")
            return grown("instances", "other", self.take(NAME).text)
        self.take(".")
        if self.kind in ("from", "to"):
            kind = self.kind
            self.take(kind)
            return grown(kind, "other")
        if self.kind in ("add", "rem") and part.form == "name":
            return self.relation(part)
        name = self.take(NAME).text
        if self.kind != "(":
            return grown("member", "field", name)
        self.take("(")
        argument = self.expression(False)
        self.take(")")
        return grown("call", "call", name, argument)

    def relation(self, name):
        """The rest of W.add(a, b) or W.rem(a, b) from the keyword on."""
        kind = self.kind
        self.take(kind)
        self.take("(")
        a = self.expression(False)
        self.take(",")
        b = self.expression(False)
        self.take(")")
        node = Node(kind, name.start, [a.node, b.node], max(a.height, b.height) + 1,
                    name.node.name)
        return Part(node, name.start, node.height, "make")

    def atom(self):
        place, kind = self.place, self.kind
        if kind in ("true", "false", "null", "this"):
            self.take(kind)
            return Part(Node(kind, place, [], 1), place, 1, "other")
        if kind == NAME:
            name = self.take(NAME).text
            return Part(Node("variable", place, [], 1, name), place, 1, "name")
        if kind == "new":
            self.take("new")
            name = self.take(NAME).text
            self.take("(")
            self.take(")")
            return Part(Node("new", place, [], 1, name), place, 1, "make")
        self.take("(")
        e = self.expression(False)
        self.take(")")
        return Part(e.node, place, e.height + 1, "other")


def nodes_of(statements):
    """All nodes below a list of statements, in any order; no recursion, trees may be tall."""
    left = list(statements)
    while left:
        n = left.pop()
        yield n
        left.extend(n.parts)
        for block in n.blocks or ():
            left.extend(block)


# ---------------------------------------------------------------- types

class Type(NamedTuple):
    kind: str           # 'boolean', 'null', 'row', 'set'
    line: str = ""      # of a row or set: 'class' or 'relationship'
    row: int = 0        # 0 where the kind has no row


BOOLEAN, NULL = Type("boolean"), Type("null")


def set_of(t):
    return Type("set", t.line, t.row)


class Program:
    """The tables of a text: rows of both lines, fields and methods of the whole text."""

    def __init__(self, rows):
        obj = RowDecl("class", "Object", 0, None, 0, [], [], [])
        rel = RowDecl("relationship", "Relation", 0, None, 0, [], [], [])
        rel.ends = [Type("row", "class", 0)] * 2
        self.declared = rows
        self.lines = {"class": [obj], "relationship": [rel]}
        self.fields, self.methods = [], []
        for r in rows:
            r.number = len(self.lines[r.line])
            self.lines[r.line].append(r)
            for f in r.fields:
                f.owner, f.number = r, len(self.fields)
                self.fields.append(f)
            for m in r.methods:
                m.owner, m.number = r, len(self.methods)
                self.methods.append(m)

    # -- lines of descent

    def upward(self, line, row):
        """A row, its parent, and so on up to the root."""
        at = self.lines[line][row]
        while True:
            yield at
            if at.parent is None:
                return
            at = self.lines[line][at.parent]

    def descends(self, line, row, line2, row2):
        if line == line2:
            return any(r.number == row2 for r in self.upward(line, row))
        return line == "relationship" and row2 == 0     # to Object

    def fits(self, t, u):
        if t == u:
            return True
        if u.kind == "row":
            return t.kind == "null" or (
                t.kind == "row" and self.descends(t.line, t.row, u.line, u.row))
        if t.kind == "set" and u.kind == "set":
            return self.descends(t.line, t.row, u.line, u.row)
        return False

    def find_row(self, name, line=None):
        for ln in ("class", "relationship") if line is None else (line,):
            for r in self.lines[ln]:
                if r.name == name:
                    return Type("row", ln, r.number)
        return None

    def find_field(self, line, row, name):
        for r in self.upward(line, row):
            for f in r.fields:
                if f.name == name:
                    return f
        return None

    def find_method(self, line, row, name):
        for r in self.upward(line, row):
            for m in r.methods:
                if m.name == name:
                    return m
        return None

    def cell_fields(self, line, row):
        """The fields that a cell of this row has itself, in the order of the text."""
        if line == "relationship":
            return list(self.lines[line][row].fields)
        found = [f for r in self.upward(line, row) for f in r.fields]
        return sorted(found, key=lambda f: f.number)

    # -- limits

    def counts(self):
        nodes = sum(1 for m in self.methods for _ in nodes_of(m.body))
        return (len(self.lines["class"]) - 1, len(self.lines["relationship"]) - 1,
                len(self.fields), len(self.methods), nodes)

    def judge_limits(self):
        classes, relationships, fields, methods, nodes = self.counts()
        variables = max((len(m.variables) + 1 for m in self.methods), default=0)
        height = max((s.height for m in self.methods for s in m.body), default=0)
        passed = [
            classes > MAX_CLASSES, relationships > MAX_RELATIONSHIPS, fields > MAX_FIELDS,
            methods > MAX_METHODS, variables > MAX_VARIABLES, nodes > MAX_NODES,
            height > MAX_HEIGHT,
        ]
        if True in passed:
            raise Refusal(14, passed.index(True) + 1)

    # -- declarations: each pass gives all places of one fault

    def judge_declarations(self):
        passes = [
            (21, self.names_taken), (22, self.undeclared), (23, self.members_clash),
            (24, self.ends_misfit), (25, self.overrides_misfit), (26, self.main_wrong),
            (27, self.too_many_fields),
        ]
        for number, places in passes:
            found = list(places())
            if found:
                raise Refusal(number, min(found))
        self.main = next(m for m in self.methods if m.name == "main")

    def names_taken(self):
        seen = {"Object", "Relation"}
        for r in self.declared:
            if r.name in seen:
                yield r.place
            seen.add(r.name)

    def undeclared(self):
        """Also fills in parents, ends and types, which later passes rely on."""
        for r in self.declared:
            parent = self.find_row(r.parent_name, r.line)
            if parent is None or parent.row >= r.number:
                yield r.parent_place
            else:
                r.parent = parent.row
            r.ends = []
            for name, place in r.end_names:
                end = self.find_row(name)
                if end is None:
                    yield place
                r.ends.append(end)
            for f in r.fields:
                f.type = self.meaning(f.written)
                if f.type is None:
                    yield f.written.place
            for m in r.methods:
                m.result = self.meaning(m.result_written)
                if m.result is None:
                    yield m.result_written.place
                m.types = [self.meaning(w) for _, _, w in m.variables]
                for t, (_, _, w) in zip(m.types, m.variables):
                    if t is None:
                        yield w.place

    def meaning(self, written):
        if written.shape == "boolean":
            return BOOLEAN
        row = self.find_row(written.name)
        if row is None or written.shape == "row":
            return row
        return set_of(row)

    def members_clash(self):
        relationships = {r.name for r in self.lines["relationship"]}
        for r in self.declared:
            above = {f.name for up in self.upward(r.line, r.number) if up is not r
                     for f in up.fields}
            seen = set()
            for f in r.fields:
                if f.name in above or f.name in seen or f.name in relationships:
                    yield f.place
                seen.add(f.name)
            seen = set()
            for m in r.methods:
                if m.name in seen:
                    yield m.place
                seen.add(m.name)
                scope = set()
                for name, place, _ in m.variables:
                    if name in scope:
                        yield place
                    scope.add(name)

    def ends_misfit(self):
        for r in self.declared:
            if r.line == "relationship":
                parent = self.lines["relationship"][r.parent]
                for (_, place), end, old in zip(r.end_names, r.ends, parent.ends):
                    if not self.fits(end, old):
                        yield place

    def overrides_misfit(self):
        for m in self.methods:
            r = m.owner
            old = self.find_method(r.line, r.parent, m.name)
            if old and not (self.fits(old.types[0], m.types[0])
                            and self.fits(m.result, old.result)):
                yield m.place

    def main_wrong(self):
        mains = [m for m in self.methods if m.name == "main"]
        if (len(mains) != 1 or mains[0].owner.line != "class"
                or mains[0].types[0] != BOOLEAN):
            yield 0

    def too_many_fields(self):
        for r in self.declared:
            if len(self.cell_fields(r.line, r.number)) > MAX_OWN_FIELDS:
                yield r.place

    # -- bodies

    def judge_bodies(self):
        faults = []
        for m in self.methods:
            scope = {name: i + 1 for i, (name, _, _) in enumerate(m.variables)}
            for s in m.body:
                self.judge(s, m, scope, faults)
        if faults:
            raise Refusal(28, min(faults))

    def judge(self, n, m, scope, faults):
        """Judges a node and all below it; only nodes whose parts have types can be at fault."""
        for p in n.parts:
            self.judge(p, m, scope, faults)
        for block in n.blocks or ():
            for s in block:
                self.judge(s, m, scope, faults)
        if all(p.type is not None for p in n.parts):
            n.type = self.type_of(n, [p.type for p in n.parts], m, scope)
            if n.type is None:
                faults.append(n.place)

    def type_of(self, n, parts, m, scope):
        """The type of a node from the types of its parts, or None.

        A statement that is right gets boolean, which nothing looks at.
        """
        kind = n.kind
        if kind in ("true", "false"):
            return BOOLEAN
        if kind == "null":
            return NULL
        if kind == "this":
            return Type("row", m.owner.line, m.owner.number)
        if kind == "variable":
            if n.name not in scope:
                return None
            n.link = scope[n.name]
            return m.types[n.link - 1]
        if kind == "new":
            row = self.find_row(n.name, "class")
            n.link = row and row.row
            return row
        if kind == "action":
            return BOOLEAN
        if kind == "if":
            return BOOLEAN if parts[0] == BOOLEAN else None
        if kind == "return":
            return BOOLEAN if self.fits(parts[0], m.result) else None
        if kind == "same":
            return BOOLEAN if all(t.kind in ("row", "null") for t in parts) else None
        if kind == "set variable":
            if n.name not in scope:
                return None
            n.link = scope[n.name]
            return parts[0] if self.fits(parts[0], m.types[n.link - 1]) else None
        if kind in ("add", "rem"):
            return self.type_of_relation(n, parts)
        return self.type_of_suffix(n, parts)

    def type_of_relation(self, n, parts):
        row = self.find_row(n.name, "relationship")
        if row is None:
            return None
        first, second = self.lines["relationship"][row.row].ends
        n.link = row.row
        return row if self.fits(parts[0], first) and self.fits(parts[1], second) else None

    def type_of_suffix(self, n, parts):
        e, kind = parts[0], n.kind
        related = self.find_row(n.name, "relationship") if n.name else None
        if kind == "instances" or (kind == "member" and related):
            if related is None:
                return None
            first, second = self.lines["relationship"][related.row].ends
            if not self.fits(e, first):
                return None
            n.link = related.row
            if kind == "instances":
                return set_of(related)
            n.kind = "partners"
            return set_of(second)
        if e.kind != "row":
            return None
        if kind in ("from", "to"):
            if e.line != "relationship":
                return None
            return self.lines["relationship"][e.row].ends[0 if kind == "from" else 1]
        if kind == "call":
            called = self.find_method(e.line, e.row, n.name)
            if called is None or not self.fits(parts[1], called.types[0]):
                return None
            return called.result
        f = self.find_field(e.line, e.row, n.name)
        if f is None or related:
            return None
        n.link = f.number
        if kind == "member":
            return f.type
        return parts[1] if self.fits(parts[1], f.type) else None


def check(text, scratch=MAX_NODES):
    """The program of a text, or Refusal."""
    if len(text) > MAX_TEXT:
        raise Refusal(10, 0)
    ws = words(text)
    depth(ws)
    program = Program(Parser(ws, len(text)).program())
    program.judge_limits()
    if scratch < program.counts()[4]:
        raise Refusal(15, 0)
    program.judge_declarations()
    program.judge_bodies()
    return program


NEW_PLACE = b"class Main extends Object {boolean main(boolean b) {return b;}}"


# ---------------------------------------------------------------- stores and pair tables

# values: True, False, None (null), Cell(number), frozenset of cell numbers

class Cell(NamedTuple):
    number: int


@dataclass
class CellParts:
    line: str
    row: int
    fields: list                # field numbers of the whole text
    values: list
    super: Optional[int] = None
    first: Optional[int] = None
    second: Optional[int] = None


class Store:
    def __init__(self, cells, slots, charge):
        self.max_cells, self.max_slots, self.charge = cells, slots, charge
        self.cells, self.used = [], 0

    def clear(self):
        self.cells, self.used = [], 0

    def room(self, sizes):
        """Whether cells with these numbers of fields can all be made."""
        return (len(self.cells) + len(sizes) <= self.max_cells
                and self.used + sum(map(self.charge, sizes)) <= self.max_slots)

    def make(self, parts):
        assert self.room([len(parts.fields)])
        self.used += self.charge(len(parts.fields))
        self.cells.append(parts)
        return len(self.cells) - 1


def even_store():
    return Store(128, 1024, lambda n: 8)


def packed_store():
    return Store(128, 512, lambda n: min(n, 8))


class PairTable:
    def __init__(self, limit=256):
        self.limit, self.rows = limit, {}       # (relationship, from, to) -> instance

    def clear(self):
        self.rows = {}


# ---------------------------------------------------------------- the bench

@dataclass
class Frame:
    method: MethodDecl
    variables: list             # this, the parameter, the locals
    work: list                  # what is still to do, the next last
    values: list                # worked out and not yet taken


def initial(t):
    return {"boolean": False, "set": frozenset()}.get(t.kind)


class Bench:
    def __init__(self, program, store, table, truth):
        self.program, self.store, self.table = program, store, table
        store.clear()
        table.clear()
        self.frames, self.finished, self.value = [], False, None
        main = program.main
        self.open_frame(main, Cell(self.make("class", main.owner.number)), truth)

    def open_frame(self, method, this, argument):
        variables = [this, argument] + [initial(t) for t in method.types[1:]]
        work = [("reach", s) for s in reversed(method.body)]
        self.frames.append(Frame(method, variables, work, []))

    # -- making

    def make(self, line, row, **ends):
        fields = self.program.cell_fields(line, row)
        return self.store.make(CellParts(
            line, row, [f.number for f in fields], [initial(f.type) for f in fields], **ends))

    def missing(self, row, a, b):
        """The relationships whose instance add would have to make, the topmost first."""
        out = []
        for r in self.program.upward("relationship", row):
            if (r.number, a, b) in self.table.rows:
                break
            out.append(r.number)
        return out[::-1]

    def add(self, row, a, b, refuse):
        todo = self.missing(row, a, b)
        sizes = [len(self.program.cell_fields("relationship", r)) for r in todo]
        if not self.store.room(sizes):
            refuse(32)
        if len(self.table.rows) + len(todo) > self.table.limit:
            refuse(33)
        for r in todo:
            parent = self.program.lines["relationship"][r].parent
            above = None if parent is None else self.table.rows[parent, a, b]
            self.table.rows[r, a, b] = self.make(
                "relationship", r, super=above, first=a, second=b)
        return self.table.rows[row, a, b], len(todo)

    def rem(self, row, a, b):
        found = self.table.rows.get((row, a, b))
        for r, x, y in list(self.table.rows):
            if (x, y) == (a, b) and self.program.descends(
                    "relationship", r, "relationship", row):
                del self.table.rows[r, x, y]
        return found

    def locate(self, cell, number):
        """The cell that stores a field, and where in it; upward through super-instances."""
        while cell is not None:
            parts = self.store.cells[cell]
            if number in parts.fields:
                return parts, parts.fields.index(number)
            cell = parts.super
        return None

    # -- stepping

    def step(self):
        """0 for a rule applied, 1 on a finished bench; Refusal changes nothing."""
        if self.finished:
            return 1
        frame = self.frames[-1]
        while True:
            task, n = frame.work[-1]
            if task == "apply":
                self.apply(frame, n)
                return 0
            frame.work.pop()
            if n.kind in ("true", "false", "null"):     # literals take no step
                frame.values.append({"true": True, "false": False, "null": None}[n.kind])
            else:
                frame.work.append(("apply", n))
                frame.work.extend(("reach", p) for p in reversed(n.parts))

    def apply(self, frame, n):
        def refuse(number):
            raise Refusal(number, n.place, frame.method.number)

        operands = frame.values[len(frame.values) - len(n.parts):]
        if n.kind in ("member", "partners", "instances", "from", "to", "call", "set field"):
            if operands[0] is None:
                refuse(31)
        if n.kind in ("add", "rem") and None in operands:
            refuse(31)
        if n.kind == "call":
            self.call(frame, n, operands, refuse)
            return
        gives = self.result(frame, n, operands, refuse)
        # nothing is refused from here on
        frame.work.pop()
        del frame.values[len(frame.values) - len(operands):]
        if n.kind == "if":
            block = n.blocks[0 if operands[0] else 1]
            frame.work.extend(("reach", s) for s in reversed(block))
        elif n.kind == "return":
            self.frames.pop()
            if self.frames:
                self.frames[-1].values.append(operands[0])
            else:
                self.finished, self.value = True, operands[0]
        elif n.kind != "action":
            frame.values.append(gives)

    def call(self, frame, n, operands, refuse):
        if len(self.frames) >= MAX_FRAMES:
            refuse(34)
        cell = self.store.cells[operands[0].number]
        method = self.program.find_method(cell.line, cell.row, n.name)
        frame.work.pop()
        del frame.values[-2:]
        self.open_frame(method, *operands)

    def result(self, frame, n, operands, refuse):
        """What the rule of a node gives; also does what it does to cells, rows and variables."""
        if n.kind == "this":
            return frame.variables[0]
        if n.kind == "variable":
            return frame.variables[n.link]
        if n.kind == "set variable":
            frame.variables[n.link] = operands[0]
            return operands[0]
        if n.kind == "new":
            if not self.store.room([len(self.program.cell_fields("class", n.link))]):
                refuse(32)
            return Cell(self.make("class", n.link))
        if n.kind == "same":
            return operands[0] == operands[1]
        if n.kind in ("member", "set field"):
            parts, at = self.locate(operands[0].number, n.link)
            if n.kind == "set field":
                parts.values[at] = operands[1]
            return parts.values[at]
        if n.kind in ("partners", "instances"):
            rows = [(to, instance) for (r, a, to), instance in self.table.rows.items()
                    if (r, a) == (n.link, operands[0].number)]
            return frozenset(to if n.kind == "partners" else i for to, i in rows)
        if n.kind in ("from", "to"):
            parts = self.store.cells[operands[0].number]
            return Cell(parts.first if n.kind == "from" else parts.second)
        if n.kind == "add":
            return Cell(self.add(n.link, operands[0].number, operands[1].number, refuse)[0])
        if n.kind == "rem":
            found = self.rem(n.link, operands[0].number, operands[1].number)
            return None if found is None else Cell(found)
        return None     # action, if, return

    # -- the other calls

    def run(self, budget):
        """The answer's number, the steps taken, and the refusal if one was met."""
        steps = 0
        while not self.finished:
            if steps == budget:
                return 35, steps, None
            try:
                self.step()
            except Refusal as r:
                return r.number, steps, r
            steps += 1
        return 1, steps, None

    def admits(self, t, value):
        if t.kind == "boolean":
            return isinstance(value, bool)
        if t.kind == "set":
            return isinstance(value, frozenset) and all(
                self.admits(Type("row", t.line, t.row), Cell(c)) for c in value)
        if value is None:
            return True
        if not isinstance(value, Cell) or not self.present(value.number):
            return False
        parts = self.store.cells[value.number]
        return self.program.descends(parts.line, parts.row, t.line, t.row)

    def present(self, cell):
        return 0 <= cell < len(self.store.cells)

    def judge_pair(self, row, a, b):
        if not 0 <= row < len(self.program.lines["relationship"]):
            raise Refusal(42)
        if not (self.present(a) and self.present(b)):
            raise Refusal(43)

    def relate(self, row, a, b):
        """The instance in force and how many cells were made for it."""
        self.judge_pair(row, a, b)
        first, second = self.program.lines["relationship"][row].ends
        if not (self.admits(first, Cell(a)) and self.admits(second, Cell(b))):
            raise Refusal(44)

        def refuse(number):
            raise Refusal(number)
        return self.add(row, a, b, refuse)

    def unrelate(self, row, a, b):
        self.judge_pair(row, a, b)
        return self.rem(row, a, b)

    def find(self, row, a, b):
        self.judge_pair(row, a, b)
        return self.table.rows.get((row, a, b))

    def field_of(self, cell, number):
        if not self.present(cell):
            raise Refusal(43)
        found = self.locate(cell, number)
        if found is None:
            raise Refusal(45)
        return found

    def write(self, cell, number, value):
        parts, at = self.field_of(cell, number)
        if not self.admits(self.program.fields[number].type, value):
            raise Refusal(44)
        parts.values[at] = value

    def read(self, cell, number):
        parts, at = self.field_of(cell, number)
        return parts.values[at]

    def look(self, cell):
        if not self.present(cell):
            raise Refusal(43)
        return self.store.cells[cell]

    def counts(self):
        return len(self.store.cells), len(self.table.rows)


# ---------------------------------------------------------------- the program

BUDGET = 10000


def console(text):
    """The one line that the console program prints."""
    try:
        program = check(text)
    except Refusal as r:
        return f"{r.number} {r.place}"
    bench = Bench(program, even_store(), PairTable(), True)
    end, steps, _ = bench.run(BUDGET)
    cells, rows = bench.counts()
    return f"{end} {steps} {cells} {rows}"


def check_only(text):
    try:
        c = check(text).counts()
    except Refusal as r:
        return f"{r.number} {r.place}"
    return "accepted: %d classes, %d relationships, %d fields, %d methods, %d nodes" % c


MILL = (
    b"class Lot extends Object {} class Trough extends Object {} "
    b"relationship Malaxed extends Relation (Lot, Trough) {boolean sealed;} "
    b"relationship Warm extends Malaxed (Lot, Trough) {} "
    b"class Mill extends Object {boolean main(boolean b) {Lot p; Trough t; Warm w; "
    b"p = new Lot(); t = new Trough(); w = Warm.add(p, t); w.sealed = b; return w.sealed;}}")


def self_test():
    failed = []

    def expect(what, got, wanted):
        print(f"{'ok  ' if got == wanted else 'FAIL'} {what}: {got}")
        if got != wanted:
            failed.append(what)

    def refused(what, call, wanted):
        try:
            got = call()
        except Refusal as r:
            got = r.number
        expect(what, got, wanted)

    def mill():
        return Bench(check(MILL), even_store(), PairTable(), True)

    start = MILL.index(b"Lot p;")
    short = MILL[:start] + b"Warm w; return w.sealed;}}"
    expect("the mill", console(MILL), "1 18 6 3")
    expect("the program of a new place", console(NEW_PLACE), "1 2 1 0")
    expect("null as object", console(short), "31 1 1 0")
    expect("endless calls",
           console(NEW_PLACE.replace(b"return b;", b"return this.main(b);")), "34 95 1 0")
    for budget, wanted in ((17, (35, 17)), (18, (1, 18)), (0, (35, 0))):
        expect(f"the mill, budget {budget}", mill().run(budget)[:2], wanted)
    bench = mill()
    bench.run(18)
    expect("a finished bench", bench.run(0)[:2], (1, 0))
    refused("write of null to a boolean", lambda: bench.write(5, 0, None), 44)
    expect("relate what is related", bench.relate(1, 1, 2), (4, 0))
    expect("unrelate", bench.unrelate(1, 1, 2), 4)
    expect("the descendant's row is gone", bench.find(2, 1, 2), None)
    expect("the root's row stays", bench.find(0, 1, 2), 3)
    expect("a removed instance still reads its own super-instance", bench.read(5, 0), True)
    expect("relate again", bench.relate(2, 1, 2), (7, 2))
    expect("the new instance has initial values", bench.read(7, 0), False)
    for what, text, wanted in (
            ("the empty text", b"", "26 0"), ("class", b"class", "13 5"),
            ("seventeen (", b"(" * 17, "12 16"), ("sixteen (", b"(" * 16, "13 0")):
        expect(what, console(text), wanted)
    print(f"{len(failed)} failed")
    return 1 if failed else 0


def main(arguments):
    if arguments == ["--self-test"]:
        return self_test()
    if arguments not in ([], ["--check"]):
        print(__doc__, file=sys.stderr)
        return 2
    judge = check_only if arguments else console
    print(judge(sys.stdin.buffer.read()))
    return 0


if __name__ == "__main__":
    sys.exit(main(sys.argv[1:]))
