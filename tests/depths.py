"""Depth limits: 512 open calls of a group pass, one more is refused by 12.

Each row is a table that grows with n, the largest n that passes, and why.
"""
from cases import Cases
from sections import Table


def body(name, lines):
    return "struct %s {\n%s};\n\n" % (name, "".join("\t%s;\n" % line for line in lines))


def pointers(n):
    """PTR to PTR .. to INT, the first is requested: ordering opens n+1 calls."""
    t = Table()
    for i in range(n):
        t.ptr(i + 2)
    t.int()
    return t, [(1, "")]


def pointer_typedef(n):
    """TYPEDEF of n pointers to INT: ordering and emission open n+2 calls."""
    t = Table()
    t.int()
    for i in range(n):
        t.ptr(i + 1)
    t.typedef("T", n + 1)
    return t, [(n + 2, "typedef int %sT;\n\n" % ("*" * n))]


def ordered_pointers(n):
    """The same, all ids from the INT on: ordering stops at the pointer it knows, emission opens n+2 calls."""
    t, [(_, text)] = pointer_typedef(n)
    return t, [("all", [text])]


def arrays(n):
    """A member of n dimensions: n+2 calls of ordering, emission, alignment and declaration."""
    t = Table()
    t.int()
    for i in range(n):
        t.array(i + 1, 1)
    t.struct("S", 4, ("a", n + 1, 0))
    return t, [(n + 2, body("S", ["int a" + "[1]" * n]))]


def nested(n, table, size, text):
    """The table's last struct in n-1 more nameless ones and a named one; text is the innermost's."""
    first = table.types - 1
    for i in range(n - 1):
        table.struct("", size, ("m", first + i, 0))
    table.struct("S", size, ("m", first + n - 1, 0))
    for level in range(n - 1, -1, -1):
        outer = min(level, 12)
        inner = min(level + 1, 12)
        word = "struct S" if level == 0 else "struct"
        text = "%s {\n%s%s m;\n%s}" % (word, "\t" * inner, text, "\t" * outer)
    return table, [(first + n, text + ";\n\n")]


def nested_int(n):
    """n nested nameless structs with an INT inside: 3n+3 calls of declaration, chain, body."""
    t = Table()
    t.int()
    t.struct("", 4, ("m", 1, 0))
    tabs = min(n + 1, 12), min(n, 12)
    return nested(n, t, 4, "struct {\n%sint m;\n%s}" % ("\t" * tabs[0], "\t" * tabs[1]))


def nested_empty(n):
    """The same with the innermost empty: 3n+1 calls."""
    t = Table()
    t.struct("", 0)
    return nested(n, t, 0, "struct {%s}" % ("\t" * min(n, 12)))


def named(n):
    """n named structs, each in the next, innermost first: alignment opens n+1 calls."""
    t = Table()
    t.int()
    texts = []
    for i in range(n):
        t.struct("s%d" % i, 4, ("m", i + 1, 0))
        texts.append(body("s%d" % i, ["struct s%d m" % (i - 1) if i else "int m"]))
    return t, [("all", texts)]


def typedefs(n, composite):
    t = Table()
    t.int()
    texts = []
    for i in range(n):
        t.typedef("t%d" % i, i + 1)
        texts.append("typedef %s t%d;\n\n" % ("t%d" % (i - 1) if i else "int", i))
    texts.append(body("S", ["t%d m" % (n - 1)]))
    if composite == "union":
        texts[-1] = texts[-1].replace("struct", "union")
        t.union("S", 4, ("m", n + 1, 0))
    else:
        t.struct("S", 4, ("m", n + 1, 0))
    return t, [("all", texts)]


def typedefs_struct(n):
    """n typedefs in a row, then a struct with one member: alignment opens n+2 calls."""
    return typedefs(n, "struct")


def typedefs_union(n):
    """The same with a union: no alignment; size opens n+1 calls."""
    return typedefs(n, "union")


def prototypes(n, last=0):
    """TYPEDEF of n prototypes, each the parameter of the one before, INT that of the last:
    2n+2 calls of declaration and chain."""
    t = Table()
    t.typedef("T", 2)
    for i in range(n + last):
        if i < n:
            t.proto(0, ("", i + 3))
        else:
            t.array(i + 3, 1)
    t.int()
    return t, [(1, "typedef void T(%sint%s%s;\n\n" % ("void(" * (n - 1), "[1]" * last, ")" * n))]


def arrays_in_prototypes(n):
    """255 of them with n dimensions of INT for the last parameter: n+511 calls."""
    return prototypes(255, n)


ROWS = [(pointers, 511), (pointer_typedef, 510), (ordered_pointers, 510), (arrays, 510), (nested_int, 169),
        (nested_empty, 170), (named, 511), (typedefs_struct, 510), (typedefs_union, 511), (prototypes, 255),
        (arrays_in_prototypes, 1)]


def limits():
    """Each row twice. A refused request for all ids keeps the texts before its last id."""
    cases = Cases()
    for row, n in ROWS:
        name = row.__name__.replace("_", " ")
        table, [(what, text)] = row(n)
        cases.add("%s, %d pass" % (name, n), table, (what, "".join(text)))
        table, [(what, text)] = row(n + 1)
        kept = "".join(text[:-1]) if what == "all" else ""
        cases.add("%s, %d are too deep" % (name, n + 1), table, (what, 12, kept))
    return cases
