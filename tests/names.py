#!/usr/bin/env python3
"""Names by chance: a case file (FORMAT.md) of tables whose names meet, asked in an order by chance, in both naming
modes. The texts are computed by the words of the mode: a holder after the first of its name gets the number that says
how many there are then, and with names apart the next one that makes no name of the table's same space and none that
was printed before in it.

names.py FILE [TABLES]"""
import random
import sys

sys.dont_write_bytecode = True
from cases import Cases
from sections import Table

APART = 8
WORDS = ("x", "y", "x___2", "x___3", "x___4", "x___2___2", "x___2___3", "x___02", "x___1", "x___0", "x___", "x__2", "y___2", "y___5", "___2", "y___4294967295",
         "y___4294967296")
TAG, OTHER = "tag", "other"     # the two spaces: structs, unions, enums and forwards; typedefs and enumerators


class Made:
    """A table, and for each id its kind, name, and what it holds: enumerators, or the id that a typedef is of."""

    def __init__(self, rng):
        self.rng, self.table, self.types = rng, Table(), [None, ("int", "", None)]
        self.table.int()
        # few words, or many: with few of them numbers are passed over in rows
        self.words = rng.sample(WORDS, rng.randrange(2, 9)) + ["x"] * rng.randrange(4)
        for _ in range(rng.randrange(1, 40)):
            self.type()

    def word(self):
        return self.rng.choice(self.words)

    def type(self):
        kind = self.rng.choice(("struct", "union", "enum", "enum", "enum", "struct fwd", "union fwd", "typedef", "typedef"))
        name = self.word()
        if kind in ("struct", "union"):
            getattr(self.table, kind)(name, 0)
            holds = None
        elif kind == "enum":
            name = self.rng.choice((name, ""))
            holds = [(self.word(), n) for n in range(self.rng.randrange(0 if name else 1, 5))]
            self.table.enum(name, *holds)
        elif kind == "typedef":
            holds = self.rng.randrange(1, len(self.types))
            self.table.typedef(name, holds)
        else:
            self.table.fwd(name, union=kind == "union fwd")
            holds = None
        self.types.append((kind, name, holds))

    def names(self, space):
        """All names of the table in a space."""
        found = set()
        for kind, name, holds in self.types[1:]:
            if (kind == "typedef") == (space == OTHER) and kind != "int":
                found.add(name)
            if kind == "enum" and space == OTHER:
                found.update(value for value, _ in holds)
        return found


class Printer:
    def __init__(self, made, apart):
        self.types, self.apart = made.types, apart
        self.table_has = {space: made.names(space) for space in (TAG, OTHER)}
        self.printed = {TAG: set(), OTHER: set()}
        self.holders, self.spelled, self.done = {}, {}, set()
        self.names, self.passed_over = 0, 0

    def spelling(self, space, name):
        """Of the next holder of the name."""
        if not name:
            return ""
        n = self.holders[space, name] = self.holders.get((space, name), 0) + 1
        made = name if n == 1 else f"{name}___{n}"
        self.names += 1
        while self.apart and n > 1 and (made in self.table_has[space] or made in self.printed[space]):
            n += 1
            made = f"{name}___{n}"
            self.passed_over += 1
        assert not (self.apart and made in self.printed[space])
        self.printed[space].add(made)
        return made

    def of(self, id):
        kind, name, _ = self.types[id]
        if id not in self.spelled:
            self.spelled[id] = self.spelling(OTHER if kind == "typedef" else TAG, name)
        return self.spelled[id]

    def mention(self, id):
        kind, name, holds = self.types[id]
        if kind in ("int", "typedef"):
            return "int" if kind == "int" else self.of(id)
        if kind == "enum" and not name:     # in each place anew
            return self.enum("enum", holds)
        return f"{kind.split()[0]} {self.of(id)}"

    def enum(self, head, holds):
        values = "".join(f"\t{self.spelling(OTHER, value)} = {n},\n" for value, n in holds)
        return f"{head} {{\n{values}}}"

    def ask(self, id):
        """The text that the request adds."""
        kind, name, holds = self.types[id]
        if id in self.done or not name:
            return ""
        self.done.add(id)
        if kind == "typedef":
            before, own = self.ask(holds), self.of(id)
            return f"{before}typedef {self.mention(holds)} {own};\n\n"
        head = self.mention(id)
        if kind == "enum" and holds:
            return f"{self.enum(head, holds)};\n\n"
        return f"{head} {{}};\n\n" if kind in ("struct", "union") else f"{head};\n\n"


def main():
    path = sys.argv[1]
    tables = int(sys.argv[2]) if len(sys.argv) > 2 else 200
    cases, names, passed_over = Cases(), 0, 0
    for seed in range(tables):
        rng = random.Random(seed)
        made = Made(rng)
        ids = rng.sample(range(1, len(made.types)), rng.randrange(len(made.types)))
        for modes in (0, APART):
            printer = Printer(made, modes == APART)
            asks = [(id, printer.ask(id)) for id in ids]
            asks.append(("all", "".join(printer.ask(id) for id in range(1, len(made.types)))))
            cases.add(f"names {seed}, modes {modes}", made.table, *asks, modes=modes)
            names, passed_over = names + printer.names, passed_over + printer.passed_over
    with open(path, "wb") as f:
        f.write(cases.file())
    print(f"names: {tables} tables in both modes, {names} names, {passed_over} numbers passed over")


main()
