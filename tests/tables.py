#!/usr/bin/env python3
"""Tables by chance: a case file (FORMAT.md) of tables that opening accepts, with references of all kinds in both directions,
each only opened. For the tests that compute beside the library what it should answer.

tables.py FILE [TABLES]"""
import random
import sys

sys.dont_write_bytecode = True
from cases import OPEN, Cases
from sections import Table

KINDS = ["ptr"] * 8 + ["struct"] * 7 + ["typedef"] * 6 + ["union"] * 2 + ["array"] * 3 + ["proto"] * 3 + ["const", "volatile", "type_tag",
        "enum", "enum", "enum64", "fwd", "int", "float", "decl_tag", "func", "restrict"]
NAMES = ("a", "b", "c", "d", "e", "x___2", "x", "n")
MODES = (0, 0, 2, 8, 10, 1)     # union as struct 1, strong arrays 2, names apart 8


def plan(rng):
    """For each id its kind, its name, and the ids that it holds."""
    kinds = [None, "int"] + [rng.choice(KINDS) for _ in range(rng.randrange(2, 24))]
    named = [rng.random() < (0.75 if kind in ("struct", "union", "enum", "enum64") else 0.98) for kind in kinds]
    bodies = [i for i, kind in enumerate(kinds) if kind in ("struct", "union")]
    followed = [i for i, kind in enumerate(kinds) if i and kind not in ("func", "decl_tag")]
    is_function, refs = set(), [[] for _ in kinds]
    for i, kind in enumerate(kinds):
        # what leads on leads downwards or to a body, so that nothing leads in a circle but through a body
        below = [t for t in followed if t < i] + bodies
        if kind in ("ptr", "typedef", "const", "volatile", "restrict", "type_tag"):
            refs[i] = [rng.choice(below + [0])]
            if kind != "ptr" and refs[i][0] in is_function:
                is_function.add(i)
        elif kind == "array":
            refs[i] = [rng.choice([t for t in below if t not in is_function])]
        elif kind == "proto":
            refs[i] = [rng.choice(below + [0]) for _ in range(rng.randrange(1, 4))]
            is_function.add(i)
        elif kind in ("decl_tag", "func"):
            refs[i] = [rng.randrange(len(kinds))]
    pointers = [i for i, kind in enumerate(kinds) if kind == "ptr"]
    for i in bodies:
        held = [t for t in followed if t not in is_function and (kinds[t] != "fwd" or rng.random() < 0.1)]
        refs[i] = [rng.choice(pointers if pointers and rng.random() < 0.6 else held) for _ in range(rng.randrange(4))]
    return kinds, [rng.choice(NAMES) if n else "" for n in named], refs


def table(rng):
    t = Table()
    for kind, name, refs in list(zip(*plan(rng)))[1:]:
        if kind == "int":
            t.int(rng.choice(("int", "char", "long")), rng.choice((8, 32, 64)))
        elif kind == "float":
            t.float("double", 8)
        elif kind in ("struct", "union"):
            step = rng.choice((64, 64, 32, 0)) if kind == "struct" else 0
            getattr(t, kind)(name, rng.choice((0, 8, 64)), *[(f"m{k}", to, step * k) for k, to in enumerate(refs)])
        elif kind in ("enum", "enum64"):
            getattr(t, kind)(name, *[(rng.choice(NAMES), k) for k in range(rng.randrange(3))])
        elif kind == "array":
            t.array(refs[0], rng.randrange(4))
        elif kind == "proto":
            t.proto(refs[0], *[("", to) for to in refs[1:]])
        elif kind == "fwd":
            t.fwd(name or "f", union=rng.random() < 0.3)
        elif kind in ("typedef", "type_tag", "decl_tag", "func"):
            if kind == "typedef" and rng.random() < 0.03:
                name = "__builtin_va_list"
            getattr(t, kind)(name, refs[0])
        else:
            getattr(t, kind)(refs[0])
    return t


def main():
    path = sys.argv[1]
    tables = int(sys.argv[2]) if len(sys.argv) > 2 else 300
    cases = Cases()
    for seed in range(tables):
        rng = random.Random(seed)
        t = table(rng)
        cases.raw(f"table {seed}", t.section(), [(OPEN, rng.choice((4, 8)), rng.choice(MODES), len(t.section()), t.work(), 0, 0, t.types)], "")
    with open(path, "wb") as f:
        f.write(cases.file())


main()
