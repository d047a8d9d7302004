"""Builds raw .BTF sections: one method a kind, each returns the new type's id.

Layout as in the Linux documentation (Documentation/bpf/btf.rst): a header of
24 bytes, the type area, the string area, all little-endian. Ids count from 1
in the order of the calls; a type may name an id that is added later.

A name is a str (stored once, at its first use), bytes (likewise) or an int,
which is taken as the name offset itself. string() stores one more copy.
"""
import struct

INT, PTR, ARRAY, STRUCT, UNION, ENUM, FWD, TYPEDEF, VOLATILE, CONST, RESTRICT, \
    FUNC, FUNC_PROTO, VAR, DATASEC, FLOAT, DECL_TAG, TYPE_TAG, ENUM64 = range(1, 20)


def words(*numbers):
    return b"".join(struct.pack("<I", n & 0xffffffff) for n in numbers)


class Table:
    def __init__(self):
        self.types = 1          # void counted
        self.enumerators = 0
        self.type_area = b""
        self.string_area = b"\0"
        self.offsets = {b"": 0}

    # names

    def string(self, content):
        """Stores a new copy and gives its offset."""
        content = content.encode() if isinstance(content, str) else content
        offset = len(self.string_area)
        self.string_area += content + b"\0"
        return offset

    def name(self, name):
        if isinstance(name, int):
            return name
        content = name.encode() if isinstance(name, str) else name
        if content not in self.offsets:
            self.offsets[content] = self.string(content)
        return self.offsets[content]

    # records

    def record(self, kind, name, third, count=0, flag=False, rest=b""):
        info = count | kind << 24 | (1 << 31 if flag else 0)
        self.type_area += words(self.name(name), info, third) + rest
        self.types += 1
        return self.types - 1

    def int(self, name="int", bits=32, size=None, offset=0, encoding=1):
        size = (bits + 7) // 8 if size is None else size
        return self.record(INT, name, size, rest=words(bits | offset << 16 | encoding << 24))

    def ptr(self, to):
        return self.record(PTR, 0, to)

    def array(self, element, count, index=0):
        return self.record(ARRAY, 0, 0, rest=words(element, index, count))

    def composite(self, kind, name, size, members):
        """Members (name, type, bit) or (name, type, bit, width); a width sets the kind flag."""
        flag = any(len(m) == 4 for m in members)
        number = self.name(name)
        rest = b""
        for m in members:
            width = m[3] if len(m) == 4 else 0
            rest += words(self.name(m[0]), m[1], m[2] | width << 24)
        return self.record(kind, number, size, len(members), flag, rest)

    def struct(self, name, size, *members):
        return self.composite(STRUCT, name, size, members)

    def union(self, name, size, *members):
        return self.composite(UNION, name, size, members)

    def enum(self, name, *values, size=4, signed=False):
        number = self.name(name)
        rest = b"".join(words(self.name(n), v) for n, v in values)
        self.enumerators += len(values)
        return self.record(ENUM, number, size, len(values), signed, rest)

    def enum64(self, name, *values, size=8, signed=False):
        number = self.name(name)
        rest = b"".join(words(self.name(n), v, v >> 32) for n, v in values)
        self.enumerators += len(values)
        return self.record(ENUM64, number, size, len(values), signed, rest)

    def fwd(self, name, union=False):
        return self.record(FWD, name, 0, flag=union)

    def typedef(self, name, to):
        return self.record(TYPEDEF, name, to)

    def volatile(self, to):
        return self.record(VOLATILE, 0, to)

    def const(self, to):
        return self.record(CONST, 0, to)

    def restrict(self, to):
        return self.record(RESTRICT, 0, to)

    def func(self, name, to, linkage=0):
        return self.record(FUNC, name, to, linkage)

    def proto(self, result, *parameters):
        """Parameters (name, type)."""
        rest = b"".join(words(self.name(n), t) for n, t in parameters)
        return self.record(FUNC_PROTO, 0, result, len(parameters), rest=rest)

    def var(self, name, to, linkage=0):
        return self.record(VAR, name, to, rest=words(linkage))

    def datasec(self, name, size, *entries):
        """Entries (type, offset, size)."""
        rest = b"".join(words(*e) for e in entries)
        return self.record(DATASEC, name, size, len(entries), rest=rest)

    def float(self, name, size):
        return self.record(FLOAT, name, size)

    def decl_tag(self, name, to, component=-1, attribute=False):
        return self.record(DECL_TAG, name, to, flag=attribute, rest=words(component))

    def type_tag(self, name, to, attribute=False):
        return self.record(TYPE_TAG, name, to, flag=attribute)

    # the whole

    def section(self):
        header = struct.pack("<HBBIIIII", 0xeb9f, 1, 0, 24, 0, len(self.type_area),
                             len(self.type_area), len(self.string_area))
        return header + self.type_area + self.string_area

    def work(self):
        """Bytes of work that a session on this table needs."""
        return 4 * (16 * self.types + 8 * self.enumerators + 4096)
