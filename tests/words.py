#!/usr/bin/env python3
"""words.py LIBRARY: the fixed words of the text, in the sources and in a built static library.

Each stands once, in the table of crates/base_keywords/src/table.rt, which has at most 512 bytes; what is written is put from it, and
what is read is compared with it. In the sources no other byte string, row of characters or row of numbers has one of them.
In the library none stands in other read-only data, and no function has one in the operands of its code."""
import glob
import os
import re
import struct
import subprocess
import sys

HERE = os.path.join(os.path.dirname(os.path.abspath(__file__)), "..")
# Byte strings beside the table, by their files: a word that is compared and never written, the escapes of a C string, tables of
# digits, and what the programs say of themselves.
OTHERS = {
    "btf_type_table/src/name.rt": [rb"__builtin_va_list"],
    "btf_type_table/src/escape.rt": [rb'\\[\\"nrt]'],
    "session_cut_marks/src/roles.rt": [rb"[0-9]+"],
    "btfdump_run/src/printed.rt": [rb"refused ", rb"\n"],
    "btfdump_replay/src/main.rt": [rb"\.btf", rb"\.out", rb" differs\n", rb" sections, ", rb" differ\n", rb"names", rb""],
}
TABLE = "base_keywords/src/table.rt"
# Signs are no words; they stand where they are put.
SIGNS = rb"[^A-Za-z0-9_]{1,4}"
ESCAPES = {"n": "\n", "r": "\r", "t": "\t", "0": "\0"}


def fixed_words():
    """the words that lines are assembled from, as base_keywords defines them; the longest of them without its signs too"""
    text = open(os.path.join(HERE, "crates/base_keywords/specs/table/Fixed.antt"), encoding="utf-8").read()
    body, = re.findall(r"^fixed_words =\n(.*?)\n\n", text, re.S | re.M)
    return [w.encode() for w in re.findall(r'ascii "(.*?)"', body)] + [b"__attribute__"]


def plain(quoted):
    """the bytes of a quoted text"""
    quoted = re.sub(r"\\x([0-9a-fA-F]{2})", lambda m: chr(int(m[1], 16)), quoted)
    return re.sub(r"\\(.)", lambda m: ESCAPES.get(m[1], m[1]), quoted).encode("latin-1")


def sources():
    """file and text without comments of each source"""
    for path in sorted(glob.glob(os.path.join(HERE, "crates/*/src/**/*.rt"), recursive=True)):
        name = os.path.relpath(path, os.path.join(HERE, "crates"))
        yield name, re.sub(r"^\s*//.*$", "", open(path, encoding="utf-8").read(), flags=re.M)


def in_sources(words):
    """the table, and what is wrong"""
    tables, wrong, count = [], [], 0
    char = r"b'(?:[^'\\]|\\.[^']*)'"
    for name, text in sources():
        for quoted in re.findall(r'\bb"((?:[^"\\]|\\.)*)"', text, re.S):
            literal = plain(quoted)
            count += 1
            if name == TABLE:
                tables.append(literal)
            elif re.fullmatch(SIGNS, literal) and not any(w in literal for w in words):
                continue
            elif not any(re.fullmatch(o, literal) for o in OTHERS.get(name, [])):
                wrong.append(f"{name} has the byte string {literal}")
        rows = [b"".join(plain(c[2:-1]) for c in re.findall(char, row)) for row in re.findall(rf"{char}(?:\s*,\s*{char})+", text)]
        rows += [bytes(int(n) % 256 for n in row.split(",")) for row in re.findall(r"\b\d+(?:\s*,\s*\d+)+\b", text)]
        wrong += [f"{name} has {w} in a row of bytes" for w in words for row in rows if w in row]
    if len(tables) != 1:
        wrong.append(f"base_keywords has {len(tables)} byte strings")
    return tables[0], wrong, count


def sections(elf):
    """flags and bytes of each section of a 64-bit object file"""
    start, = struct.unpack_from("<Q", elf, 40)
    size, count = struct.unpack_from("<HH", elf, 58)
    for k in range(count):
        _, kind, flags, _, at, length = struct.unpack_from("<IIQQQQ", elf, start + k * size)
        if kind == 1:  # SHT_PROGBITS
            yield flags, elf[at:at + length]


def operands(library):
    """the constants in the code of each function, in their order, as bytes"""
    code = subprocess.run(["objdump", "-d", "--no-show-raw-insn", library], check=True, capture_output=True, text=True).stdout
    for function in re.split(r"\n\n", code):
        name = re.search(r"^[0-9a-f]+ <(.*)>:", function, re.M)
        if name:
            numbers = [int(n, 16) for n in re.findall(r"\$0x([0-9a-f]+)", function)]
            yield name[1], [n.to_bytes(8, "little").rstrip(b"\0") for n in numbers if n]


def spelled(word, pieces):
    """whether constants that follow one another, with at most four others between two of them, spell the word; each is a part
    of it, of any length, and may repeat the end of what came before it. A long word is looked for from its second byte on,
    as the first may be tested apart. Single tests for a sign are no word of that sign: `suffixes` tests three times for _."""
    if len(word) > 4:
        word = word[1:]
    least = 2 if len(set(word)) == 1 else 1
    for first in range(len(pieces)):
        done, gap, longest = 0, 0, 0
        for piece in pieces[first:]:
            end = max((p + len(piece) for p in range(done + 1) if word.startswith(piece, p)), default=0)
            if end > done:
                done, gap, longest = end, 0, max(longest, len(piece))
                if done == len(word):
                    if longest >= least:
                        return True
                    break
            elif done == 0 or gap == 4:
                break
            else:
                gap += 1
    return False


def main(library):
    words = fixed_words()
    table, wrong, literals = in_sources(words)
    if len(table) > 512:
        wrong.append(f"the table has {len(table)} bytes")
    elf = subprocess.run(["ar", "p", library], check=True, capture_output=True).stdout
    loaded = [(flags, content) for flags, content in sections(elf) if flags & 2]  # SHF_ALLOC
    code = [content for flags, content in loaded if flags & 4]  # SHF_EXECINSTR
    data = [content for flags, content in loaded if not flags & 4]
    constants = b"\0".join(data)
    if constants.count(table) != 1:
        wrong.append(f"the table stands {constants.count(table)} times")
    functions = [(name, pieces, pieces[::-1]) for name, pieces in operands(library)]
    if len(functions) < 50:
        wrong.append(f"the code of {len(functions)} functions was found")
    for word in words:
        if constants.count(word) != 1 or table.count(word) != 1:
            wrong.append(f"{word.decode()} stands {constants.count(word)} times, in the table {table.count(word)}")
        wrong += [f"{name} has {word.decode()} in its code" for name, on, back in functions if len(word) > 2 and (spelled(word, on) or spelled(word, back))]
    if wrong:
        sys.exit("words: " + "; ".join(wrong))
    print(f"words: each of {len(words)} stands once, in a table of {len(table)} bytes; {literals} byte strings, {len(functions)} functions;"
          f" read-only data {sum(map(len, data))} bytes, code {sum(map(len, code))}")


main(sys.argv[1])
