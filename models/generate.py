#!/usr/bin/env python3
"""Writes large.relj: a large model, near most limits, as a machine would write it.

    python3 models/generate.py > models/large.relj

The same text comes out each time. It is accepted, and it runs to its end: every
object that a method is called on, read or related is known not to be null, calls
go to methods of a lower rank only, and a cell is made for a field only where the
field is still null, so that few cells are made however often a method runs.
"""

import sys

CLASSES, RELATIONSHIPS, FIELDS, METHODS, LOCALS, NODES = 31, 31, 128, 64, 10, 2040
SEED = 296     # one whose run meets every rule of execution


class Dice:
    """A small generator of its own, so that the text depends on nothing else."""

    def __init__(self, seed):
        self.state = seed

    def below(self, n):
        self.state = (self.state * 1103515245 + 12345) % 2**31
        return (self.state >> 8) % n

    def pick(self, things):
        return things[self.below(len(things))]

    def chance(self, percent):
        return self.below(100) < percent


class Row:
    def __init__(self, name, parent, ends=None):
        self.name, self.parent, self.ends = name, parent, ends
        self.fields, self.methods = [], []      # (name, type), Method

    def upward(self):
        row = self
        while row:
            yield row
            row = row.parent

    def all_fields(self):
        return [f for row in self.upward() for f in row.fields]

    def all_methods(self):
        """The methods that a call on this row may mean, the nearest of each name."""
        found = {}
        for row in self.upward():
            for m in row.methods:
                found.setdefault(m.name, m)
        return list(found.values())

    def depth(self):
        return len(list(self.upward()))


class Method:
    def __init__(self, name, row, parameter, rank):
        self.name, self.row, self.parameter, self.rank = name, row, parameter, rank


class Model:
    def __init__(self, seed):
        self.dice, self.number, self.nodes = Dice(seed), 40, 0
        self.object = Row("Object", None)
        self.relation = Row("Relation", None, (self.object, self.object))
        self.classes, self.relationships = [], []
        self.declare_rows()
        self.declare_fields()
        self.declare_methods()

    def name(self, step=1):
        self.number += step
        return f"k{self.number}"

    # -- declarations

    def declare_rows(self):
        for i in range(CLASSES - 1):
            shallow = [c for c in self.classes if c.depth() < 4]
            parent = self.dice.pick(shallow) if shallow and i % 3 else self.object
            self.classes.append(Row(self.name(), parent))
        self.main_class = Row(self.name(), self.object)
        for i in range(RELATIONSHIPS):
            shallow = [r for r in self.relationships if r.depth() < 4]
            if shallow and i % 2:
                parent = self.dice.pick(shallow)
                ends = tuple(self.narrower(e) for e in parent.ends)
            else:
                parent = self.relation
                ends = self.dice.pick(self.wide()), self.dice.pick(self.wide())
                if i == RELATIONSHIPS - 1:      # between instances of a relationship
                    ends = self.relationships[0], self.relation
            self.relationships.append(Row(self.name(), parent, ends))

    def wide(self):
        """Object and the rows right below it, which many objects fit."""
        return [c for c in self.classes if c.depth() == 2] + [self.object]

    def narrower(self, row):
        """The row itself or a row below it."""
        line = self.classes + self.relationships
        return self.dice.pick([r for r in line if row in r.upward()] or [row])

    def rows(self):
        return self.classes + self.relationships

    def declare_fields(self):
        left = FIELDS
        while left:
            row = self.dice.pick(self.rows())
            below = [c for c in self.classes if row in c.upward()] or [row]
            if max(len(c.all_fields()) for c in below) < 8 and len(row.fields) < 3:
                row.fields.append((self.name(3), self.field_type(len(row.fields))))
                left -= 1

    def field_type(self, i):
        if i == 0:
            return "boolean", None
        row = self.dice.pick(self.rows())
        return ("set", row) if self.dice.chance(30) else ("row", row)

    def declare_methods(self):
        for i in range(METHODS - 1):
            row = self.rows()[i % len(self.rows())]
            above = [m for m in row.parent.all_methods()
                     if m.name not in [own.name for own in row.methods]]
            if above and self.dice.chance(50):      # an override, of the same rank
                old = self.dice.pick(above)
                row.methods.append(Method(old.name, row, old.parameter, old.rank))
            else:
                parameter = self.dice.pick(self.wide())
                rank = self.dice.below(14)
                row.methods.append(Method(self.name(7), row, parameter, rank))

    # -- text

    def type_text(self, kind, row):
        return {"boolean": "boolean", "row": row and row.name,
                "set": row and f"set<{row.name}>"}[kind]

    def text(self):
        main = Method("main", self.main_class, None, 99)
        order = self.classes[:20] + self.relationships[:16] \
            + self.classes[20:] + self.relationships[16:]
        # a parent stands before its children in both lines
        bodies = {m: Body(self, m).text() for row in order for m in row.methods}
        out = [self.row_text(row, bodies) for row in order]
        out.append(f"class {self.main_class.name} extends Object{{{MainBody(self, main).text()}}}")
        return "".join(out)

    def row_text(self, row, bodies):
        if row.ends:
            head = f"relationship {row.name} extends {row.parent.name}" \
                   f"({row.ends[0].name},{row.ends[1].name})"
        else:
            head = f"class {row.name} extends {row.parent.name}"
        fields = "".join(f"{self.type_text(*t)} {name};" for name, t in row.fields)
        return f"{head}{{{fields}{''.join(bodies[m] for m in row.methods)}}}"


class Body:
    """One method: ten locals, then statements about objects that are not null."""

    SHARE = 21      # nodes for one method, besides its return

    def __init__(self, model, method):
        self.model, self.dice, self.method = model, model.dice, method
        self.flags = [model.name(999983) for _ in range(3)]
        self.locals = [("boolean", None, f) for f in self.flags]
        self.objects = {"this": method.row}     # never null here
        self.calls = 2
        self.spent = 0
        if method.parameter:
            self.parameter = model.name(999983)
            self.objects[self.parameter] = method.parameter

    def node(self, n):
        self.spent += n
        self.model.nodes += n

    def new_local(self, kind, row):
        name = self.model.name(999983)
        self.locals.append((kind, row, name))
        return name

    def room(self):
        return len(self.locals) < LOCALS

    def objects_of(self, row):
        return [o for o, r in self.objects.items() if row in r.upward()
                or row is self.model.object]

    # -- expressions; each counts its nodes

    def flag(self):
        """A truth value."""
        way = self.dice.below(4)
        readable = [(o, f) for o, r in self.objects.items() for f, t in r.all_fields()
                    if t[0] == "boolean"]
        if way == 0:
            self.node(1)
            return self.dice.pick(["true", "false"])
        if way == 1 and readable:
            o, f = self.dice.pick(readable)
            self.node(2)
            return f"{o}.{f}"
        if way == 2:
            self.node(3)
            a, b = self.dice.pick(list(self.objects)), self.dice.pick(list(self.objects))
            return f"({a}=={b})"
        self.node(1)
        return self.dice.pick(self.flags)

    def condition(self):
        way = self.dice.below(3)
        if way == 0:
            self.node(3)
            return f"{self.dice.pick(list(self.objects))}=={self.dice.pick(list(self.objects))}"
        return self.flag()

    # -- statements; None where this one can't be made

    def set_flag(self):
        self.node(2)
        return f"{self.dice.pick(self.flags)}={self.flag()};"

    def set_field(self):
        o = self.dice.pick(list(self.objects))
        fields = self.objects[o].all_fields()
        if not fields:
            return None
        name, (kind, row) = self.dice.pick(fields)
        if kind == "boolean":
            self.node(3)
            return f"{o}.{name}={self.flag()};"
        if kind == "set":
            value = self.related(row)
        else:
            value = self.dice.pick(self.objects_of(row) or [None])
            if value:
                self.node(1)
        if not value:
            return None
        self.node(3)
        return f"{o}.{name}={value};"

    def related(self, row):
        """A set of this row, or of a row below it, or None."""
        found = []
        for o, r in self.objects.items():
            for w in self.model.relationships:
                if w.ends[0] in r.upward():
                    if row in w.ends[1].upward():
                        found.append(f"{o}.{w.name}")
                    if row in w.upward():
                        found.append(f"{o}:{w.name}")
        if found:
            self.node(2)
            return self.dice.pick(found)
        return None

    def gather(self):
        """A local set of what is related to an object."""
        o = self.dice.pick(list(self.objects))
        usable = [w for w in self.model.relationships if w.ends[0] in self.objects[o].upward()]
        if not (usable and self.room()):
            return None
        w = self.dice.pick(usable)
        self.node(4)
        if self.dice.chance(50):
            return f"{self.new_local('set', w.ends[1])}={o}.{w.name};"
        return f"{self.new_local('set', w)}={o}:{w.name};"

    def make(self):
        """An object for a field of this that is still null, or the one that is there."""
        fields = [(f, r) for f, (k, r) in self.method.row.all_fields()
                  if k == "row" and r in self.model.classes]
        if not (fields and self.room()):
            return None
        f, row = self.dice.pick(fields)
        x = self.new_local("row", row)
        new = self.model.narrower(row).name
        self.node(14)
        self.objects[x] = row
        return f"if(this.{f}==null){{{x}=this.{f}=new {new}();}}else{{{x}=this.{f};}};"

    def pairs(self):
        return [(w, a, b) for w in self.model.relationships
                for a in self.objects_of(w.ends[0]) for b in self.objects_of(w.ends[1])]

    def relate(self):
        pairs = self.pairs()
        if not (pairs and self.room()):
            return None
        w, a, b = self.dice.pick(pairs)
        x = self.new_local("row", w)
        self.objects[x] = w
        self.node(5)
        return f"{x}={w.name}.add({a},{b});"

    def withdraw(self):
        pairs = self.pairs()
        if not pairs or not self.dice.chance(20):
            return None
        w, a, b = self.dice.pick(pairs)
        self.node(4)
        return f"{w.name}.rem({a},{b});"

    def end(self):
        instances = [(o, r) for o, r in self.objects.items() if r.ends]
        if not (instances and self.room()):
            return None
        o, r = self.dice.pick(instances)
        which = self.dice.below(2)
        x = self.new_local("row", r.ends[which])
        self.objects[x] = r.ends[which]
        self.node(4)
        return f"{x}={o}.{('from', 'to')[which]};"

    def call(self):
        if not self.calls:
            return None
        found = [(o, m, a) for o, r in self.objects.items() for m in r.all_methods()
                 if m.rank < self.method.rank for a in self.objects_of(m.parameter)]
        if not found:
            return None
        o, m, a = self.dice.pick(found)
        self.calls -= 1
        self.node(4)
        if self.dice.chance(50):
            return f"{o}.{m.name}({a});"
        self.node(1)
        return f"{self.dice.pick(self.flags)}={o}.{m.name}({a});"

    def choose(self):
        self.node(1)
        condition = self.condition()
        blocks = []
        for _ in range(2):
            ways = [self.set_flag, self.set_field]
            blocks.append(self.dice.pick(ways)() or self.set_flag())
        return f"if({condition}){{{blocks[0]}}}else{{{blocks[1]}}};"

    WAYS = ["make", "relate", "relate", "gather", "call", "call", "call", "end",
            "set_flag", "set_field", "set_field", "choose", "withdraw"]

    def statements(self):
        out = []
        while self.spent < self.SHARE and self.model.nodes < NODES - 30:
            made = getattr(self, self.dice.pick(self.WAYS))()
            if made:
                out.append(made)
        return out

    def text(self):
        statements = "".join(self.statements())
        while self.room():
            self.new_local("row", self.dice.pick(self.model.rows()))
        self.node(1)
        result = f"return {self.condition()};"
        parameter = f"{self.method.parameter.name} {self.parameter}"
        return self.method_text(parameter, statements, result)

    def method_text(self, parameter, statements, result):
        declared = "".join(f"{self.model.type_text(k, r)} {n};" for k, r, n in self.locals)
        return f"boolean {self.method.name}({parameter}){{{declared}{statements}{result}}}"


class MainBody(Body):
    """Makes a few objects, relates them, calls methods on them, answers true."""

    def text(self):
        self.calls = 99
        out = []
        rows = sorted(self.model.classes, key=lambda c: -len(c.all_methods()))
        for row in rows[:LOCALS - 4]:
            x = self.new_local("row", row)
            self.objects[x] = row
            self.node(3)
            out.append(f"{x}=new {row.name}();")
        out.append(self.relate() or "")
        while self.model.nodes < NODES - 10:
            out.append(self.dice.pick([self.call, self.call, self.set_field])() or "")
        while self.room():
            self.new_local("row", self.dice.pick(self.model.rows()))
        self.node(4)
        return self.method_text("boolean b", "".join(out), "return this==this;")


def main():
    sys.stdout.write(Model(SEED).text())


if __name__ == "__main__":
    main()
