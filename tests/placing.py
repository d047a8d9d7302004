#!/usr/bin/env python3
"""Placing mode against compilers: structs and unions made by chance, printed by
btfheader --placing, compiled by gcc, and by clang where it is there; every member's
place and every size is compared with the table. Which bodies are refused by 18 is
compared with a direct computation, and what the header says of types that compilers
lay out otherwise than the table is compiled too.

placing.py BTFHEADER FOLDER [TABLES]

Bodies hold numbers, enums of all sizes, pointers, arrays, typedefs, qualified types,
structs and unions with a name or without, members without a name, and bit fields."""
import random
import shutil
import subprocess
import sys
from collections import namedtuple
from sections import Table

UNITS = [("unsigned char", 1), ("signed char", 1), ("unsigned short", 2), ("int", 4), ("unsigned int", 4), ("long", 8), ("unsigned long", 8)]

# width: the widest bit field of the type, 0 if C has none. leaves: of a body without a name, (path, bit, width, size) of what it holds
Type = namedtuple("Type", "id size align width leaves", defaults=(0, None))
# own: the alignment that C gives it, in which a bit field without a name has no part
Body = namedtuple("Body", "is_struct size align own members leaves")


def up(n, unit):
    return (n + unit - 1) // unit * unit


class Made:
    """A table, and what C has to say of its bodies. With short enums all sizes of enum are C's."""

    def __init__(self, rng, short_enums=False):
        self.rng, self.table, self.checks, self.bodies = rng, Table(), [], []
        self.count = 0
        self.enum_sizes = (1, 2, 4, 8) if short_enums else (4, 8)
        self.of = {}
        self.units = [self.known(Type(self.table.int(name, 8 * size), size, size, 8 * size)) for name, size in UNITS]
        self.units.append(self.known(Type(self.table.int("_Bool", 8, encoding=4), 1, 1, 1)))
        self.types = list(self.units)
        for name, size in (("float", 4), ("double", 8)):
            self.types.append(self.known(Type(self.table.float(name, size), size, size)))
        for target in (self.units[0].id, 0, self.table.proto(0), self.table.array(self.units[3].id, 7)):
            self.types.append(self.known(Type(self.table.ptr(target), 8, 8)))

    def known(self, t):
        self.of[t.id] = t
        return t

    def new(self, letter):
        self.count += 1
        return f"{letter}{self.count}"

    # types

    def enum(self, name):
        """One value needs the size."""
        size, signed = self.rng.choice(self.enum_sizes), self.rng.random() < 0.4
        half = 8 * size // 2
        low = 0 if size == 1 or (size == 4 and 1 not in self.enum_sizes) else 1 << half - signed
        most = (1 << 8 * size - signed) - 1
        first = self.rng.randrange(low, most + 1)
        values = [(self.new("E"), -1 - first if signed else first), (self.new("E"), self.rng.randrange(min(most, 100)))]
        kind = self.table.enum64 if size == 8 or self.rng.random() < 0.3 else self.table.enum
        return self.known(Type(kind(name, *values, size=size, signed=signed), size, size, 8 * size))

    def array(self, t):
        n = self.rng.randrange(5)
        leaves = t.leaves and [(f"[{i}]{path}", 8 * t.size * i + bit, width, size)
                               for i in {0, n - 1} if n for path, bit, width, size in t.leaves]
        return self.known(Type(self.table.array(t.id, n), n * t.size, t.align, 0, leaves))

    def named(self):
        """A type of the table that members may share."""
        way, t = self.rng.random(), self.rng.choice(self.types)
        if way < 0.25:
            made = self.enum(self.new("e"))
        elif way < 0.55:
            made = self.array(t)
        elif way < 0.75:
            made = t._replace(id=self.table.typedef(self.new("t"), t.id))
        else:
            made = t._replace(id=self.rng.choice((self.table.volatile, self.table.const))(t.id), width=0)
        self.types.append(self.known(made))

    # members

    def plain(self, depth):
        """A type, and the name of the member: none only for a struct or union without a name."""
        way = self.rng.random()
        if depth < 2 and way < 0.2:
            t = self.nameless(depth + 1)
            if self.rng.random() < 0.5:
                return t, ""
            return (self.array(t) if self.rng.random() < 0.3 else t), self.new("m")
        return (self.enum("") if way < 0.25 else self.rng.choice(self.types)), self.new("m")

    def leaves(self, t, name, bit, width=0):
        if not name and t.leaves is None:
            return []
        own = f".{name}" if name else ""
        if t.leaves is None or width:
            return [(own, bit, width, t.size)]
        return [(own + path, bit + at, w, size) for path, at, w, size in t.leaves]

    def field(self, own):
        """A bit field, in some cases without a name where the alignment does not rest on it."""
        t = self.rng.choice([t for t in self.types if t.width])
        nameless = self.rng.random() < 0.15 and t.align <= own
        return t, "" if nameless else self.new("m"), self.rng.randrange(1, t.width + 1)

    def struct(self, depth):
        rng = self.rng
        at, align, own, members, leaves, packed = 0, 1, 1, [], [], False
        packs = not depth and rng.random() < 0.4
        for _ in range(rng.randrange(7)):
            if rng.random() < 0.6:
                t, name = self.plain(depth)
                start = up(at + rng.choice((0, 0, 0, rng.randrange(40), rng.randrange(300))), 8 if packs else 8 * t.align)
                packed = packed or start % (8 * t.align) != 0
                members.append((name, t.id, start))
                leaves += self.leaves(t, name, start)
                at, own = start + 8 * t.size, max(own, t.align)
            else:
                t, name, width = self.field(own)
                start = at + rng.choice((0, 0, rng.randrange(40), rng.randrange(200)))
                unit = 8 * t.size
                if not packed and start // unit != (start + width - 1) // unit:
                    start = up(start, unit)
                members.append((name, t.id, start, width))
                leaves += self.leaves(t, name, start, width)
                at, own = start + width, max(own, t.align if name else 1)
            align = max(align, t.align)
        size = up(at, 8) // 8 + rng.choice((0, 0, 0, rng.randrange(20)))
        if not packed or rng.random() < 0.5:
            size = up(size, align)
        return Body(True, size, align, 1 if packed or size % align else own, members, leaves)

    def union(self, depth):
        most, align, own, members, leaves = 0, 1, 1, [], []
        for _ in range(self.rng.randrange(1, 5)):
            if self.rng.random() < 0.7:
                t, name = self.plain(depth)
                members.append((name, t.id, 0))
                leaves += self.leaves(t, name, 0)
                most, own = max(most, 8 * t.size), max(own, t.align)
            else:
                t, name, width = self.field(own)
                members.append((name, t.id, 0, width))
                leaves += self.leaves(t, name, 0, width)
                most, own = max(most, width), max(own, t.align if name else 1)
            align = max(align, t.align)
        return Body(False, up(most, 8 * align) // 8, align, own, members, leaves)

    def put(self, name, body):
        self.bodies.append(body)
        add = self.table.struct if body.is_struct else self.table.union
        return self.known(Type(add(name, body.size, *body.members), body.size, body.align, 0, None if name else body.leaves))

    def nameless(self, depth):
        while True:
            body = (self.struct if self.rng.random() < 0.6 else self.union)(depth)
            if body.own == body.align:      # so that C places it as the table does
                return self.put("", body)

    def top(self):
        body = (self.union if self.rng.random() < 0.3 else self.struct)(0)
        name = self.new("s")
        t = self.put(name, body)
        if body.own == body.align:
            self.types.append(t)
        self.check(f"{'struct' if body.is_struct else 'union'} {name}", body)

    def check(self, name, body):
        say = self.checks.append
        say(f'\tif (sizeof({name}) != {body.size}) return fail("{name}: size");')
        for path, bit, width, size in body.leaves:
            if not width:
                say(f'\tif (offsetof({name}, {path[1:]}) != {bit // 8} || sizeof((({name} *)0)->{path[1:]}) != {size})'
                    f' return fail("{name}{path}");')
            else:
                say(f"\t{{ {name} x; memset(&x, 0, sizeof x); x{path}--;")
                say(f'\t  if (!only(&x, sizeof x, {bit}, {width})) return fail("{name}{path}"); }}')

    # what is refused

    def altered(self):
        """A body of the table with some numbers altered."""
        rng, b = self.rng, self.rng.choice(self.bodies)
        members = []
        for name, id, start, *width in b.members:
            if rng.random() < 0.2:
                start = max(0, start + rng.choice((-32, -8, -1, 1, 4, 8, 64)))
            if width and rng.random() < 0.2:
                width = [min(255, max(1, width[0] + rng.choice((-1, 1, 8, 30))))]
            members.append((name, id, start, *width))
        size = max(0, b.size + rng.choice((0, 0, 0, 0, -8, -1, 1, 8)))
        return b.is_struct, size, members

    def fits(self, is_struct, size, members):
        """Whether 18 does not come, by the words of its row."""
        align = max([1] + [self.of[m[1]].align for m in members])
        packed = is_struct and (size % align != 0 or any(m[2] % (8 * self.of[m[1]].align) for m in members if len(m) == 3))
        last = 0
        for _, id, start, *width in members:
            unit = 8 * self.of[id].size
            if start < last if is_struct else start:
                return False
            if not width and start % 8:
                return False
            if width and (width[0] > unit or not packed and start // unit != (start + width[0] - 1) // unit):
                return False
            end = start + (width[0] if width else unit)
            last = end if is_struct else max(last, end)
        return last <= 8 * size if is_struct else 8 * size == up(last, 8 * align)


PROGRAM = """#include <stddef.h>
#include <stdio.h>
#include <string.h>
%s
static int fail(const char *what) { fprintf(stderr, "%%s\\n", what); return 1; }
static int only(const void *p, size_t n, size_t from, size_t width)
{
	const unsigned char *b = p;
	for (size_t i = 0; i < 8 * n; i++)
		if ((b[i / 8] >> i %% 8 & 1) != (i >= from && i < from + width)) return 0;
	return 1;
}
int main(void)
{
%s
	return 0;
}
"""

# each of the ways not to fit, alone: (struct?, size, members); 1 is a byte, 2 an int, 3 a long
REFUSED = [
    ("a member before the end of the one before it", True, 8, [("a", 2, 0), ("b", 1, 24)]),
    ("a plain member off a byte", True, 4, [("a", 1, 4)]),
    ("a bit field wider than its type", True, 8, [("a", 2, 0, 33)]),
    ("a bit field that crosses a unit", True, 8, [("a", 2, 24, 16)]),
    ("a size below the last end", True, 4, [("a", 2, 32)]),
    ("a union's member not at bit 0", False, 8, [("a", 2, 32)]),
    ("a union larger than its largest member", False, 8, [("a", 2, 0)]),
    ("a union smaller than its largest member", False, 2, [("a", 2, 0)]),
]


def with_base():
    t = Table()
    t.int("unsigned char", 8), t.int("int", 32), t.int("long", 64)
    return t


def other_in_c():
    """Bodies that pass, and what compilers make of them, as include/btfdump.h says."""
    t = with_base()
    t.enum("byte", ("E1", 1), size=1), t.enum("two", ("E2", 1), size=2), t.enum64("eight", ("E3", 1), size=8)
    wide = t.int("__int128", 128)
    t.struct("wide", 24, ("a", 3, 0), ("b", wide, 64))
    packed = t.struct("packed", 8, ("a", 1, 0), ("b", 2, 8))
    t.struct("holds_packed", 12, ("a", 1, 0), ("b", packed, 32))
    inner = t.struct("inner", 4, ("a", 2, 0))
    t.struct("nameless", 12, ("a", 2, 0), ("", inner, 32), ("b", 2, 64))
    t.union("field", 8, ("", 3, 0, 3), ("c", 1, 0))
    return t, [("sizeof(enum byte)", 4), ("sizeof(enum two)", 4), ("sizeof(enum eight)", 4), ("offsetof(struct wide, b)", 16),
               ("_Alignof(struct packed)", 1), ("offsetof(struct holds_packed, b)", 1), ("offsetof(struct nameless, b)", 4),
               ("sizeof(union field)", 1)]


def header(btfheader, path, table, *ids):
    with open(path + ".btf", "wb") as f:
        f.write(table.section())
    return subprocess.run([btfheader, "--placing", path + ".btf", *map(str, ids)], capture_output=True, text=True)


def compile_and_run(path, text, what, *flags):
    with open(path + ".c", "w") as f:
        f.write(text)
    for compiler in COMPILERS:
        subprocess.run([compiler, "-std=gnu11", "-w", "-Wno-packed-bitfield-compat", *flags, path + ".c", "-o", path], check=True)
        if subprocess.run([path]).returncode:
            sys.exit(f"placing.py: {what}: not as the table says: {compiler}, {path}.c")


COMPILERS = [it for it in ("gcc", "clang") if shutil.which(it)]


def main():
    btfheader, folder = sys.argv[1:3]
    tables = int(sys.argv[3]) if len(sys.argv) > 3 else 10
    path, count, passed, refused = f"{folder}/placing", 0, 0, 0
    for seed in range(tables):
        made = Made(random.Random(seed), short_enums=seed % 2 == 0)
        for _ in range(70):
            made.named()
            made.top()
        answer = header(btfheader, path, made.table)
        if answer.returncode:
            sys.exit(f"placing.py: table {seed}: {answer.stderr}")
        compile_and_run(path, PROGRAM % (answer.stdout, "\n".join(made.checks)), f"table {seed}",
                        *["-fshort-enums"] * (seed % 2 == 0))
        count += len(made.bodies)
        fit = []
        for _ in range(60):
            body = made.altered()
            id = (made.table.struct if body[0] else made.table.union)(made.new("r"), body[1], *body[2])
            if made.fits(*body):
                fit.append(id)
                continue
            answer = header(btfheader, path, made.table, id)
            if answer.returncode != 1 or "(18)" not in answer.stderr:
                sys.exit(f"placing.py: table {seed}: {body}: not refused by 18: {answer.stderr}")
            refused += 1
        answer = header(btfheader, path, made.table, *fit)
        if answer.returncode:
            sys.exit(f"placing.py: table {seed}: one of {fit}: {answer.stderr}")
        passed += len(fit)
    for what, is_struct, size, members in REFUSED:
        t = with_base()
        (t.struct if is_struct else t.union)("s", size, *members)
        answer = header(btfheader, path, t)
        if answer.returncode != 1 or "(18)" not in answer.stderr or answer.stdout:
            sys.exit(f"placing.py: {what}: not refused by 18")
    t, known = other_in_c()
    text = header(btfheader, path, t).stdout
    checks = "\n".join(f'\tif ({expression} != {value}) return fail("{expression}");' for expression, value in known)
    compile_and_run(path, PROGRAM % (text, checks), "what compilers lay out otherwise")
    print(f"placing mode: {count} bodies of {tables} tables as {' and '.join(COMPILERS)} lay them out; {passed} altered ones pass and"
          f" {refused + len(REFUSED)} are refused, as computed; {len(known)} exceptions")


main()
