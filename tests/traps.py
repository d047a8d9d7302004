#!/usr/bin/env python3
"""Tables whose text is easy to get wrong, numbered, with the texts that the rules give.

traps.py          writes tests/traps.cases, tests/limits.cases and tests/sample/
traps.py --check  compares them with what it would write

The texts are written by hand from the rules of the Rust, not taken from a run.
"""
import os
import sys

sys.dont_write_bytecode = True
from cases import ALL, ONE, OPEN, SPARE, Cases
from depths import limits
from sections import Table

cases = Cases()
add = cases.add


def table(*rows):
    """A table of rows (kind, arguments ..), ids from 1; "int" stands for the 32-bit INT int."""
    t = Table()
    for row in rows:
        row = (row,) if isinstance(row, str) else row
        kind, *rest = row
        named = rest.pop() if rest and isinstance(rest[-1], dict) else {}
        getattr(t, kind)(*rest, **named)
    return t


def body(head, *lines, end=""):
    """A definition at top level: `struct S`, its lines, what stands after the brace."""
    return head + " {\n" + "".join("\t%s;\n" % line for line in lines) + "}" + end + ";\n\n"


PACKED = " __attribute__((packed))"


def member(number, what, rows, named, size=8):
    """A struct of one member, whose type is the last row; `named` are its name and its declaration."""
    name, declaration = named
    t = table(*rows)
    t.struct("S", size, (name, t.types - 1, 0))
    add("%s %s" % (number, what), t, (t.types - 1, body("struct S", declaration)))


NODE = table("int", ("struct", "node", 16, ("next", 3, 0), ("v", 1, 64)), ("ptr", 2))
NODE_TEXT = "struct node {\n\tstruct node *next;\n\tint v;\n};\n\n"


def ordering():
    add("1 a struct that points to itself", NODE, ("all", NODE_TEXT))
    add("2 a struct that holds itself", table(("struct", "s", 4, ("a", 1, 0))), (1, 13))

    head = ("int", ("typedef", "T", 1), ("ptr", 2), ("struct", "Q", 4, ("a", 1, 0)), ("ptr", 4))
    add("3 typedef behind a pointer, int not seen before: printed late",
        table(*head, ("struct", "S", 24, ("q", 5, 0), ("p", 3, 64), ("i", 1, 128))),
        (6, "struct Q;\n\ntypedef int T;\n\nstruct S {\n\tstruct Q *q;\n\tT *p;\n\tint i;\n};\n\n"))
    add("4 typedef behind a pointer, int seen before: listed",
        table(*head, ("struct", "S", 24, ("i", 1, 0), ("q", 5, 64), ("p", 3, 128))),
        (6, "typedef int T;\n\nstruct Q;\n\nstruct S {\n\tint i;\n\tstruct Q *q;\n\tT *p;\n};\n\n"))
    add("5 a typedef listed twice is printed once",
        table("int", ("typedef", "T", 3), ("proto", 1, ("", 1), ("", 4)), ("struct", "S", 8, ("p", 5, 0)), ("ptr", 2)),
        (2, "struct S;\n\ntypedef int T(int, struct S);\n\nstruct S {\n\tT *p;\n};\n\n"))
    add("6 forward line of the struct in progress, for its typedef",
        table(("struct", "S", 8, ("p", 3, 0)), ("typedef", "T", 1), ("ptr", 2)),
        (1, "struct S;\n\ntypedef struct S T;\n\nstruct S {\n\tT *p;\n};\n\n"))
    add("7 no forward line for a pointer in a nameless struct",
        table(("struct", "S", 8, ("a", 2, 0)), ("struct", "", 8, ("p", 3, 0)), ("ptr", 1)),
        (1, "struct S {\n\tstruct {\n\t\tstruct S *p;\n\t} a;\n};\n\n"))
    add("8 typedef of a pointer that is ordered already",
        table("int", ("struct", "S", 16, ("x", 3, 0), ("y", 4, 64)), ("ptr", 2), ("typedef", "P", 3)),
        (2, "struct S;\n\ntypedef struct S *P;\n\nstruct S {\n\tstruct S *x;\n\tP y;\n};\n\n"))
    add("9 two structs, one in the other, with a pointer back",
        table(("struct", "A", 8, ("b", 2, 0)), ("struct", "B", 8, ("a", 3, 0)), ("ptr", 1)),
        ("all", "struct A;\n\nstruct B {\n\tstruct A *a;\n};\n\nstruct A {\n\tstruct B b;\n};\n\n"))
    for i, ask in enumerate((3, 1, 2)):
        add("10%s a nameless struct behind a pointer to itself, id %d" % ("abc"[i], ask),
            table(("struct", "", 8, ("p", 2, 0)), ("ptr", 1), ("struct", "S", 8, ("q", 2, 0))), (ask, 13))
    itself = table(("union", "U", 8, ("p", 2, 0)), ("ptr", 3), ("array", 1, 2))
    add("11a pointer to an array of the union itself", itself, (1, "union U {\n\tunion U (*p)[2];\n};\n\n"))
    add("11b the same with strong arrays", itself, (1, 13), modes=2)
    other = table(("struct", "A", 8, ("p", 2, 0)), ("ptr", 3), ("array", 4, 2), ("struct", "B", 4, ("a", 5, 0)), "int")
    holder = "struct A {\n\tstruct B (*p)[2];\n};\n\n"
    add("11c pointer to an array of another struct", other, (1, "struct B;\n\n" + holder))
    add("11d the same with strong arrays", other, (1, "struct B {\n\tint a;\n};\n\n" + holder), modes=2)
    add("11e the same with both modes", other, (1, "struct B {\n\tint a;\n};\n\n" + holder), modes=3)

    s = ("int", ("struct", "s", 4, ("a", 1, 0)), ("ptr", 2))
    defined = "struct s {\n\tint a;\n};\n\n"
    add("12a a pointer to a struct defines nothing", table(*s), (3, ""))
    add("12b nor does a parameter that points", table(*s, ("proto", 0, ("p", 3))), (4, ""))
    for letter, what, rows in (
            ("c", "an array", [("array", 2, 2)]), ("d", "a qualifier", [("const", 2)]),
            ("e", "a parameter", [("proto", 0, ("p", 2))]), ("f", "a result", [("proto", 2)]),
            ("g", "a nameless struct behind a pointer", [("ptr", 5), ("struct", "", 4, ("m", 2, 0))])):
        add("12%s %s defines the struct" % (letter, what), table(*s, *rows), (4, defined))
    add("13 functions, variables, sections, tags are not followed",
        table(("func", "f", 77), ("var", "v", 88), ("datasec", ".data", 4, (99, 0, 4)), ("decl_tag", "x", 55)),
        ("all", ""))


def declarations():
    def tag(name):
        return ' __attribute__((btf_type_tag("%s")))' % name

    member("14", "qualifier on a type tag", ["int", ("type_tag", "user", 1), ("const", 2)],
           ("x", 'intconst  __attribute__((btf_type_tag("user"))) x'), 4)
    member("15", "type tag on a qualifier, behind a pointer",
           ["int", ("const", 1), ("type_tag", "user", 2), ("ptr", 3)],
           ("x", "const int" + tag("user") + " *x"))
    pointer = ["int", ("ptr", 1), ("type_tag", "a", 2)]
    member("16a", "qualifier on a tagged pointer", pointer + [("const", 3)], ("p", "int *const " + tag("a") + " p"))
    member("16b", "pointer to a tagged pointer", pointer + [("ptr", 3)], ("p", "int *" + tag("a") + " *p"))
    member("16c", "type tag on a qualified pointer",
           pointer[:2] + [("const", 2), ("type_tag", "a", 3)], ("p", "int * const" + tag("a") + " p"))
    member("17", "type tag on an array", ["int", ("array", 1, 3), ("type_tag", "t", 2)],
           ("x", "int (" + tag("t") + " x)[3]"), 12)
    member("18", "qualifier on a prototype", [("proto", 0), ("const", 1), ("ptr", 2)], ("f", "voidconst  (*f)()"))
    member("19", "function that gives a function pointer",
           ["int", ("proto", 1, ("b", 1)), ("ptr", 2), ("proto", 3, ("a", 1)), ("ptr", 4)],
           ("f", "int (* (*f)(int a))(int b)"))
    member("20", "function that gives a function", ["int", ("proto", 1), ("proto", 2), ("ptr", 3)],
           ("f", "int ( (*f)())()"))
    pointing = ["int", ("ptr", 0), ("proto", 2, ("n", 1))]
    member("21a", "function that gives a pointer", pointing + [("ptr", 3)], ("b", "void * (*b)(int n)"))
    add("21b typedef of a function that gives a pointer", table(*pointing, ("typedef", "F", 3)),
        (4, "typedef void *F(int n);\n\n"))
    member("22a", "qualifier on an array of arrays", ["int", ("array", 1, 3), ("array", 2, 2), ("const", 3)],
           ("b", "int b[2][3]"), 24)
    member("22b", "qualifiers on an array and on its element",
           ["int", ("const", 1), ("array", 2, 4), ("volatile", 3)], ("c", "const int c[4]"), 16)
    member("23", "parameters without a name: pointer to array, array",
           ["int", ("array", 1, 3), ("ptr", 2), ("proto", 0, ("", 3), ("", 2)), ("ptr", 4)],
           ("f", "void (*f)(int(*)[3], int[3])"))
    member("24a", "array of function pointers", ["int", ("proto", 1), ("ptr", 2), ("array", 3, 4)],
           ("f", "int (*f[4])()"), 32)
    member("24b", "function that gives a pointer to an array",
           ["int", ("array", 1, 2), ("ptr", 2), ("proto", 3), ("ptr", 4)], ("f", "int (* (*f)())[2]"))
    member("25a", "three qualifiers, innermost first", ["int", ("const", 1), ("volatile", 2), ("restrict", 3)],
           ("a", "const volatile restrict int a"), 4)
    member("25b", "qualifier on a pointer", ["int", ("ptr", 1), ("const", 2)], ("a", "int * const a"))
    member("25c", "pointer to a qualified pointer", ["int", ("ptr", 1), ("const", 2), ("ptr", 3)],
           ("b", "int * const *b"))
    for letter, parameters, text in (
            ("a", [("x", 0)], "()"), ("b", [("x", 0), ("y", 0)], "(void x, ...)"),
            ("c", [("x", 0), ("y", 1)], "(void x, int y)"), ("d", [("x", 1), ("y", 0)], "(int x, ...)"),
            ("e", [("", 2)], "(const void)")):
        add("26%s parameters %s" % (letter, text),
            table("int", ("const", 0), ("proto", 0, *parameters), ("typedef", "F", 3)),
            (4, "typedef void F%s;\n\n" % text))
    add("26f a parameter of a typedef of void", table(("typedef", "V", 0), ("proto", 0, ("", 1)), ("typedef", "F", 2)),
        (3, "typedef void V;\n\ntypedef void F(V);\n\n"), has=["(V)"])
    add("27 typedef of an array, in an array and behind a pointer",
        table("int", ("array", 1, 3), ("typedef", "A", 2), ("array", 3, 2), ("ptr", 3),
              ("struct", "S", 32, ("b", 4, 0), ("p", 5, 192))),
        (6, "typedef int A[3];\n\n" + body("struct S", "A b[2]", "A *p")))
    add("28a members without a name",
        table("int", ("ptr", 1), ("array", 1, 3), ("ptr", 3),
              ("struct", "S", 40, ("", 1, 0), ("", 2, 64), ("", 3, 128), ("", 4, 256))),
        (5, "struct S {\n\tint;\n\tint *;\n\tint[3];\n\tint(*)[3];\n};\n\n"))
    add("28b an INT without a name", table(("int", ""), ("struct", "S", 4, ("x", 1, 0))),
        (2, "struct S {\n\t x;\n};\n\n"))


def builtin_names():
    name = "__builtin_va_list"
    add("29 a builtin name as a part of a struct's name",
        table("int", ("struct", "x__builtin_va_list_y", 4, ("a", 1, 0)), ("struct", "S", 4, ("m", 2, 0))),
        (3, ";\n\nstruct S {\n\t m;\n};\n\n"))
    add("30 enum with a builtin name", table(("enum", name, ("A", 0)), ("struct", "S", 4, ("m", 1, 0))),
        (2, ";\n\nstruct S {\n\tenum __builtin_va_list m;\n};\n\n"))
    rows = ("int", ("typedef", name, 1), ("struct", "S", 4, ("m", 2, 0)), ("typedef", "T", 2))
    add("31a member of a typedef with a builtin name", table(*rows), (3, "struct S {\n\t__builtin_va_list m;\n};\n\n"))
    add("31b typedef of it", table(*rows), (4, "typedef __builtin_va_list T;\n\n"))
    add("31c alone it has no text", table(*rows), (2, ""))
    rest = [("ptr", 1), ("struct", "S", 8, ("m", 2, 0))]
    add("32a pointer to a FWD with a builtin name", table(("fwd", name), *rest), (3, ";\n\nstruct S {\n\t *m;\n};\n\n"))
    add("32b pointer to a struct with a builtin name", table(("struct", name, 0), *rest),
        (3, "struct S {\n\t *m;\n};\n\n"))
    add("33 alignment 0 is not asked under a builtin name",
        table(("struct", name, 3, ("a", 2, 0)), ("fwd", "x")), (1, "struct x;\n\n;\n\n"))


def padding():
    char = ("int", "char", 8)
    for number, pointer, gap, pads in (
            ("34a", 8, 96, "long: 32;\n\tlong: 64"), ("34b", 8, 40, "long: 40"), ("34c", 8, 33, "long: 33"),
            ("34d", 8, 32, "int: 32"), ("34e", 8, 24, "int: 24"), ("34f", 8, 17, "int: 17"),
            ("34g", 8, 12, "short: 12"), ("34h", 8, 5, "char: 5"), ("35a", 4, 40, "int: 8;\n\tint: 32"),
            ("35b", 4, 100, "int: 4;\n\tint: 32;\n\tint: 32;\n\tint: 32")):
        size = (8 + gap + 1 + 31) // 32 * 4
        add("%s gap of %d bits before a bit field, pointer %d" % (number, gap, pointer),
            table(char, "int", ("struct", "S", size, ("a", 1, 0), ("b", 2, 8 + gap, 1))),
            (3, body("struct S", "char a", pads, "int b: 1")), pointer=pointer)
    add("36a gap of 24 bits before a plain int", table(char, "int", ("struct", "S", 8, ("a", 1, 0), ("b", 2, 32))),
        (3, body("struct S", "char a", "int b")))
    add("36b gap of 32 bits before a plain int", table("int", ("struct", "S", 12, ("a", 1, 0), ("b", 1, 64))),
        (2, body("struct S", "int a", "int: 32", "int b")))
    add("37a plain member after a bit field", table("int", ("struct", "S", 8, ("a", 1, 0, 3), ("b", 1, 32))),
        (2, body("struct S", "int a: 3", "int b")))
    add("37b bit field after a bit field", table("int", ("struct", "S", 8, ("a", 1, 0, 3), ("b", 1, 32, 5))),
        (2, body("struct S", "int a: 3", "int: 29", "int b: 5")))
    add("38 members out of order: the offset is set back",
        table("int", ("struct", "S", 8, ("a", 1, 32), ("b", 1, 0))),
        (2, "struct S {\n\tint: 32;\n\tint a;\n\tint b;\n};\n\n"))
    add("39 gaps in a union", table("int", ("union", "U", 8, ("a", 1, 32), ("b", 1, 0), ("c", 1, 40))),
        (2, "union U {\n\tint: 32;\n\tint a;\n\tint b;\n\tint c;\n};\n\n"))
    add("40 gap in a packed struct", table(char, "int", ("struct", "S", 6, ("a", 1, 0), ("b", 2, 16))),
        (3, body("struct S", "char a", "char: 8", "int b", end=PACKED)),
        has=["\n\tchar a;\n\tchar: 8;\n\tint b;\n} __attribute__((packed))"])
    add("41a no pads after the last member", table("int", ("struct", "S", 16, ("a", 1, 0))),
        (2, body("struct S", "int a")))
    add("41b no members", table(("struct", "E", 3)), (1, "struct E {};\n\n"))
    add("42 no members, inline", table(("struct", "", 0), ("struct", "S", 0, ("a", 1, 0))),
        (2, "struct S {\n\tstruct {\t} a;\n};\n\n"))
    add("43 size of an INT by its bits, not by its size word",
        table(("int", "i8", 8, 4), ("struct", "S", 5, ("a", 1, 0), ("b", 1, 8), ("c", 1, 32))),
        (2, body("struct S", "i8 a", "i8 b", "short: 16", "i8 c")))
    wide = (char, ("int", "i128", 128), ("struct", "S", 24, ("b", 1, 0), ("a", 2, 64)))
    add("44a 128-bit INT, pointer 8", table(*wide), (3, body("struct S", "char b", "i128 a")))
    add("44b 128-bit INT, pointer 4", table(*wide),
        (3, body("struct S", "char b", "int: 24", "int: 32", "i128 a")), pointer=4)
    odd = ("int", ("int", "long", 64), ("struct", "S", 12, ("a", 1, 0), ("b", 2, 32)))
    add("45a 64-bit INT at bit 32, pointer 4", table(*odd), (3, body("struct S", "int a", "long b")), pointer=4)
    add("45b 64-bit INT at bit 32, pointer 8", table(*odd), (3, body("struct S", "int a", "long b", end=PACKED)))
    add("46a member void", table(("struct", "S", 4, ("m", 0, 0))), (1, 15))
    for letter, row in (("b", ("fwd", "F")), ("c", ("int", "i0", 0)), ("d", ("enum", "E", ("A", 0), {"size": 0})),
                        ("e", ("float", "f", 0)), ("f", ("enum64", "E", ("A", 0), {"size": 0}))):
        add("46%s member %s of alignment 0" % (letter, row[0]), table(row, ("struct", "S", 4, ("m", 1, 0))), (2, 15))
    add("47a alignment 0 after the size said packed", table("int", ("struct", "S", 5, ("i", 1, 0), ("v", 0, 32))),
        (2, body("struct S", "int i", "void v", end=PACKED)))
    add("47b alignment 0 after a member off its alignment",
        table("int", ("struct", "S", 8, ("i", 1, 8), ("v", 0, 32))),
        (2, body("struct S", "char: 8", "int i", "void v", end=PACKED)))
    add("47c alignment 0 before a member off its alignment",
        table("int", ("struct", "S", 8, ("v", 0, 0), ("i", 1, 8))), (2, 15))
    add("48a void in a union", table(("union", "U", 4, ("v", 0, 0), ("w", 0, 40))),
        (1, body("union U", "void v", "long: 40", "void w")))
    add("48b bit field of void", table(("struct", "S", 4, ("v", 0, 0, 3))), (1, body("struct S", "void v: 3")))


def overflow():
    char = ("int", "char", 8)
    add("49 size of an array over 32 bits, last member",
        table("int", ("array", 1, 4294967295), ("struct", "S", 4, ("a", 2, 0))), (3, 16))
    add("50a end of the last member over 32 bits",
        table(char, "int", ("array", 1, 536870911), ("struct", "S", 4, ("a", 3, 0), ("b", 2, 4294967288))), (4, 16))
    add("50b eight times a size over 32 bits",
        table(char, ("array", 1, 536870912), ("struct", "S", 1, ("a", 2, 0))), (3, 16))
    add("50c product of two dimensions over 32 bits",
        table("int", ("array", 1, 65536), ("array", 2, 65536), ("struct", "S", 4, ("a", 3, 0))), (4, 16))


def enums_and_names():
    add("51a signed enumerators", table(("enum", "E", ("A", -1), ("B", -2147483648), {"signed": True})),
        (1, "enum E {\n\tA = -1,\n\tB = -2147483648,\n};\n\n"))
    add("51b unsigned enumerator", table(("enum", "E", ("D", -1))), (1, "enum E {\n\tD = 4294967295,\n};\n\n"))
    add("52a signed 64-bit enumerators",
        table(("enum64", "E", ("A", -1), ("B", -2 ** 63), ("C", 2 ** 63 - 1), {"signed": True})),
        (1, "enum E {\n\tA = -1LL,\n\tB = (-9223372036854775807LL - 1),\n\tC = 9223372036854775807LL,\n};\n\n"))
    add("52b unsigned 64-bit enumerators", table(("enum64", "E", ("A", -1), ("B", 2 ** 63))),
        (1, "enum E {\n\tA = 18446744073709551615ULL,\n\tB = 9223372036854775808ULL,\n};\n\n"))
    add("53a enum without values", table(("enum", "E")), (1, "enum E;\n\n"))
    add("53b nameless enum without values", table(("enum", ""), ("struct", "S", 4, ("b", 1, 0))),
        (2, "struct S {\n\tenum b;\n};\n\n"))
    add("54 a nameless enum printed three times",
        table(("enum", "", ("A", 0)), ("struct", "S", 8, ("a", 1, 0), ("b", 1, 32)), ("typedef", "T", 1)),
        ("all", "struct S {\n\tenum {\n\t\tA = 0,\n\t} a;\n\tenum {\n\t\tA___2 = 0,\n\t} b;\n};\n\n"
                "typedef enum {\n\tA___3 = 0,\n} T;\n\n"))
    add("55 enumerators without a name", table(("enum", "E", ("", 0), ("", 1), ("x", 2), ("x", 3))),
        (1, "enum E {\n\t = 0,\n\t___2 = 1,\n\tx = 2,\n\tx___2 = 3,\n};\n\n"))
    add("56 one name in both spaces",
        table("int", ("typedef", "x", 1), ("enum", "x", ("x", 0), ("x", 1)), ("struct", "x", 0), ("struct", "x", 0),
              ("fwd", "x")),
        ("all", "typedef int x;\n\nenum x {\n\tx___2 = 0,\n\tx___3 = 1,\n};\n\n"
                "struct x___2 {};\n\nstruct x___3 {};\n\nstruct x___4;\n\n"))
    add("57 a mention takes the name and keeps it",
        table("int", ("struct", "x", 4, ("a", 1, 0)), ("struct", "x", 4, ("b", 1, 0)), ("ptr", 3),
              ("struct", "S", 8, ("p", 4, 0))),
        (5, "struct x;\n\nstruct S {\n\tstruct x *p;\n};\n\n"),
        (2, "struct x___2 {\n\tint a;\n};\n\n"), (3, "struct x {\n\tint b;\n};\n\n"))
    met = table(("struct", "x", 0), ("struct", "x", 0), ("struct", "x___2", 0))
    add("58a a numbered name meets the same name in the table", met,
        ("all", "struct x {};\n\nstruct x___2 {};\n\nstruct x___2 {};\n\n"))
    add("58b the same with names apart", met, ("all", "struct x {};\n\nstruct x___3 {};\n\nstruct x___2 {};\n\n"),
        modes=8)
    add("58c the name that takes a number comes first", met, (3, "struct x___2 {};\n\n"), (2, "struct x {};\n\n"),
        (1, "struct x___3 {};\n\n"), modes=8)
    names = [("struct", n, 0) for n in ("x___3", "x", "x", "x___4", "x___2", "x", "x___04", "x___2___2", "x___2", "x__9")]
    add("58d numbers in a row, and what takes none", table(*names),
        ("all", "".join("struct %s {};\n\n" % n for n in (
            "x___3", "x", "x___5", "x___4", "x___2", "x___6", "x___04", "x___2___2", "x___2___3", "x__9"))), modes=8)
    add("58e typedefs and enumerators, apart from tags",
        table("int", ("typedef", "x", 1), ("enum", "x___3", ("x", 0), ("x___2", 1), ("x", 2), ("", 3), ("", 4), ("___2", 5))),
        ("all", "typedef int x;\n\nenum x___3 {\n\tx___3 = 0,\n\tx___2 = 1,\n\tx___4 = 2,\n\t = 3,\n\t___3 = 4,\n\t___2 = 5,\n};\n\n"),
        modes=8)
    add("58f the largest numbers", table(*[("struct", n, 0) for n in ("x", "x___4294967295", "x___4294967296", "x", "x___1")]),
        ("all", "struct x {};\n\nstruct x___4294967295 {};\n\nstruct x___4294967296 {};\n\nstruct x___2 {};\n\nstruct x___1 {};\n\n"),
        modes=8)
    t = Table()
    first, second, tail = t.string("x"), t.string("x"), t.string("yx") + 1
    for offset in (first, second, tail, tail + 1):      # the last is the 0 byte that ends yx
        t.struct(offset, 0)
    t.struct("S", 0, ("a", 4, 0))
    add("59 names are equal by content, empty by content", t,
        ("all", "struct x {};\n\nstruct x___2 {};\n\nstruct x___3 {};\n\nstruct S {\n\tstruct {\t} a;\n};\n\n"))
    nameless = ("int", ("typedef", "", 1), ("ptr", 2))
    add("60 a nameless typedef behind a pointer",
        table(*nameless, ("struct", "S", 8, ("p", 3, 0))), (4, "typedef int;\n\nstruct S {\n\t *p;\n};\n\n"), (2, ""))
    listed = table(*nameless, ("struct", "S", 16, ("i", 1, 0), ("p", 3, 64)))
    add("61a a nameless typedef that is listed", listed, (4, 14))
    add("61b a nameless typedef asked for", listed, (2, 14))
    add("62 a cycle behind a nameless typedef", table(("typedef", "", 2), ("struct", "S", 4, ("s", 2, 0))), (1, 13))
    fwd = table(("fwd", ""), ("ptr", 1), ("struct", "S", 8, ("p", 2, 0)))
    add("63a a nameless FWD behind a pointer", fwd, (3, "struct ;\n\nstruct S {\n\tstruct  *p;\n};\n\n"))
    add("63b a nameless FWD asked for", fwd, (1, ""))
    add("64 FWD and struct of one name",
        table(("fwd", "x"), ("ptr", 1), ("struct", "x", 0), ("ptr", 3), ("struct", "S", 16, ("a", 2, 0), ("b", 4, 64))),
        (5, "struct x;\n\nstruct x___2;\n\n" + body("struct S", "struct x *a", "struct x___2 *b")))
    add("65 an enum is defined though only pointed to",
        table(("enum", "E", ("A", 0)), ("ptr", 1), ("struct", "S", 8, ("p", 2, 0))),
        (3, "enum E {\n\tA = 0,\n};\n\nstruct S {\n\tenum E *p;\n};\n\n"))


def tags_levels_modes():
    def tag(name):
        return ' __attribute__((btf_decl_tag("%s")))' % name

    escaped = r"m\"\\\n\t\r" + "\x01"
    assert escaped.encode() == bytes.fromhex("6d 5c22 5c5c 5c6e 5c74 5c72 01")
    add("66 declaration tags of a member and of the whole",
        table("int", ("struct", "S", 4, ("a", 1, 0)), ("decl_tag", bytes.fromhex("6d 22 5c 0a 09 0d 01"), 2, 0),
              ("decl_tag", "packed", 2, -1, True), ("decl_tag", "z", 2, -1), ("decl_tag", "y", 2, 7),
              ("decl_tag", "w", 2, -2), ("decl_tag", "m2", 2, 0)),
        (2, body("struct S", "int a" + tag(escaped) + tag("m2"), end=PACKED + tag("z"))),
        has=[' __attribute__((packed)) __attribute__((btf_decl_tag("z")))'])
    inline = "struct {\n\t\tint a;\n\t}" + tag("t")
    add("67 declaration tags of an inline struct, a typedef, an enum",
        table("int", ("struct", "", 4, ("a", 1, 0)), ("struct", "S", 8, ("x", 2, 0), ("y", 2, 32)),
              ("decl_tag", "t", 2), ("typedef", "T", 1), ("decl_tag", "u", 5), ("decl_tag", "v", 5, 0),
              ("enum", "E", ("A", 0)), ("decl_tag", "w", 8)),
        ("all", body("struct S", inline + " x", inline + " y") + "typedef int T" + tag("u") + ";\n\n"
                "enum E {\n\tA = 0,\n};\n\n"))
    deep = [("struct", "", 4, ("m", i, 0)) for i in range(1, 15)]
    text = "int m"
    for level in range(14, 0, -1):      # the brackets of the struct that lies `level` deep
        text = "struct {\n%s%s;\n%s} m" % ("\t" * min(level + 1, 12), text, "\t" * min(level, 12))
    add("68 no more than 12 tabs", table("int", *deep, ("struct", "S", 4, ("m", 15, 0))), (16, body("struct S", text)))
    assert text.count("\n" + "\t" * 12 + "}") == 3 and "\t" * 13 not in text
    inside = table("int", ("struct", "", 4, ("a", 1, 0)), ("proto", 0, ("s", 2)), ("ptr", 3),
                   ("struct", "S", 8, ("f", 4, 0)), ("typedef", "T", 3))
    add("69a nameless struct in a parameter of a member", inside,
        (5, "struct S {\n\tvoid (*f)(struct {\n\t\tint a;\n\t} s);\n};\n\n"), has=["\t\tint a;\n\t} s)"])
    add("69b nameless struct in a parameter of a typedef", inside, (6, "typedef void T(struct {\n\tint a;\n} s);\n\n"))
    add("70 unions under the word struct",
        table("int", ("union", "U", 4, ("a", 1, 0)), ("union", "", 4, ("a", 1, 0)), ("fwd", "F", True), ("ptr", 4),
              ("fwd", "", True), ("ptr", 6),
              ("struct", "S", 24, ("u", 2, 0), ("n", 3, 32), ("f", 5, 64), ("g", 7, 128))),
        ("all", body("struct /*union*/ U", "int a") + "struct /*union*/ F;\n\n" + "struct /*union*/ ;\n\n"
                + body("struct S", "struct /*union*/ U u", "struct /*union*/ {\n\t\tint a;\n\t} n",
                       "struct /*union*/ F *f", "struct /*union*/  *g")), modes=1)
    one = table("int", ("struct", "S", 4, ("a", 1, 0)))
    add("71 asked three times, printed once", one, (2, body("struct S", "int a")), (2, ""), ("all", ""))
    add("72 all ids refused midway",
        table("int", ("struct", "S", 4, ("a", 1, 0)), ("struct", "C", 4, ("c", 3, 0))),
        ("all", 13, body("struct S", "int a")))
    add("73 FLOAT",
        table(("float", "float", 4), ("float", "double", 8), ("struct", "S", 16, ("f", 1, 0), ("d", 2, 64))),
        (3, body("struct S", "float f", "double d")))
    # The whole run of pads from bit 0 (2.9 MB of text) is in limits.c; here the array before it takes the bits.
    add("74 a bit offset over 24 bits",
        table(("int", "char", 8), "int", ("array", 1, 2097152),
              ("struct", "S", 2097160, ("a", 3, 0), ("b", 2, 16777248))),
        (4, body("struct S", "char a[2097152]", "int: 32", "int b")))


def memory():
    section, work, text = NODE.section(), NODE.work(), NODE_TEXT
    full = len(text)

    def call(what, a, number, value, room=full, length=len(section), lent=work):
        return what, a, 0, length, lent, room, number, value

    opening = call(OPEN, 8, 0, 4)
    cases.raw("75a text slice of exactly the text", section, [opening, call(ALL, 0, 0, full)], text)
    cases.raw("75b text slice one byte shorter", section,
              [opening, call(ALL, 0, 17, 0, room=full - 1), call(ONE, 1, 11, 0)], "")
    two = table(("struct", "A", 0), ("struct", "B", 0))
    length = len("struct A {};\n\n")
    cases.raw("75c text slice one byte short for the second struct", two.section(),
              [call(OPEN, 8, 0, 3, 4, len(two.section()), two.work()),
               call(ALL, 0, 17, length, 2 * length - 1, len(two.section()), two.work()),
               call(ALL, 0, 11, length, 2 * length, len(two.section()), two.work())], "struct A {};\n\n")
    cases.raw("76a work one byte short", section, [call(OPEN, 8, 9, 0, lent=work - 1), opening], "")
    loop = table(("ptr", 2), ("ptr", 1)).section()
    cases.raw("76b a loop of pointers and no work", loop, [call(OPEN, 8, 8, 0, length=len(loop), lent=0)], "")
    void = table(("typedef", "T", 0), ("ptr", 1), ("struct", "Q", 0), ("ptr", 3),
                 ("struct", "S", 16, ("q", 4, 0), ("p", 2, 64)))
    whole = body("struct S", "struct Q *q", "T *p")
    add("77a void not asked before: its typedef is printed late", void, (5, "struct Q;\n\ntypedef void T;\n\n" + whole))
    add("77b void asked before: its typedef is listed", void, (0, ""), (5, "typedef void T;\n\nstruct Q;\n\n" + whole))
    add("77c all ids does not ask for void",
        table(("struct", "S", 16, ("q", 2, 0), ("p", 4, 64)), ("ptr", 3), ("struct", "Q", 0), ("ptr", 5),
              ("typedef", "T", 0)),
        ("all", "struct Q;\n\ntypedef void T;\n\n" + whole + "struct Q {};\n\n"))
    huge = table("int", ("array", 1, 1073741824), ("typedef", "T", 2), ("ptr", 2), ("struct", "S", 8, ("a", 4, 0)))
    add("78 a huge array as typedef and behind a pointer", huge, (3, "typedef int T[1073741824];\n\n"),
        (5, "struct S {\n\tint (*a)[1073741824];\n};\n\n"))
    cases.raw("79a requests with other lengths", section, [
        opening, call(ONE, 2, 0, full, full + SPARE),
        call(ONE, 2, 11, full, full + SPARE, length=len(section) - 1),
        call(ALL, 0, 11, full, full + SPARE, lent=work + 1), call(ALL, 0, 11, full, full + SPARE, lent=work - 1),
        call(ONE, 2, 11, full, full - 1), call(ONE, 4, 11, full, full - 1), call(ONE, 4, 10, full),
        call(ALL, 0, 0, full)], text)
    cases.raw("79b requests before opening and after closing", section, [
        call(ONE, 0, 11, 0), call(ALL, 0, 11, 0), opening, call(ALL, 0, 17, 0, full - 1),
        call(ONE, 0, 11, 0), call(ONE, 9, 11, 0), call(ALL, 0, 11, 0)], "")


def main():
    for part in (ordering, declarations, builtin_names, padding, overflow, enums_and_names, tags_levels_modes, memory):
        part()
    numbers = {int("".join(c for c in name.split()[0] if c.isdigit())) for name in cases.names}
    assert numbers == set(range(1, 80)), sorted(set(range(1, 80)) - numbers)
    depths = limits()
    files = {"traps.cases": cases.file(), "limits.cases": depths.file(),
             "sample/node.btf": NODE.section(), "sample/node.h": NODE_TEXT.encode()}
    here = os.path.dirname(os.path.abspath(__file__))
    for name, new in files.items():
        path = os.path.join(here, name)
        if sys.argv[1:] != ["--check"]:
            with open(path, "wb") as out:
                out.write(new)
            continue
        with open(path, "rb") as old:
            if old.read() != new:
                sys.exit("tests/%s is not what tests/traps.py gives" % name)
    print("traps.py: 79 numbers, %d cases, %d depth limits" % (len(cases.names), len(depths.names)))


main()
