#!/usr/bin/env python3
"""Writes the modules vectors (programs), answered (sessions) and deep (both, at the limits of depth) of crate proof_examples: stored sections, on which
the prover computes the rules and must find what the Rust gave.

  tools/vectors.py            writes specs and proofs of the crate, in the layout of rt fmt
  tools/vectors.py --check    only says whether they hold what it would write

What it reads:
  crates/btfdump_replay/data  NAME.btf, a section, and NAME.out, what the program prints of it
  oracle/answers.cases        sections, requests and the Rust's answers (tests/FORMAT.md)

A section's types are read after the Linux documentation (Documentation/bpf/btf.rst), its fields kept under the Rust's names.
What is taken: see `small` and `plain`.
"""
import collections
import glob
import os
import re
import struct
import sys

HERE = os.path.dirname(os.path.dirname(os.path.abspath(__file__)))
CRATES = ("vectors", "answered", "deep")
WIDTH = 150     # columns
DEEP = " " * 4
BIG = "-big-endian"     # the end of the name of a section that is another one turned


# the section

def read_types(section):
    """The types, void first, each as antt writes it; and the largest offset of a member."""
    order = ">" if section[:2] == b"\xeb\x9f" else "<"
    magic, version, flags, header, type_off, type_len, str_off, str_len = struct.unpack_from(order + "HBBIIIII", section)
    assert magic == 0xEB9F and version == 1
    at, end, strings = header + type_off, header + type_off + type_len, header + str_off
    types, far = ["Void"], 0

    def word(place):
        return struct.unpack_from(order + "I", section, place)[0]

    def name(off):
        start = strings + off
        return quoted(section[start:].split(b"\0")[0])

    while at < end:
        off, info, third = struct.unpack_from(order + "III", section, at)
        count, kind, flag = info % 65536, info >> 24 & 31, boolean(info >> 31)
        at += 12
        if kind == 1:                                   # INT
            types.append(f"Int (ascii {name(off)}) {word(at) & 255}")
            at += 4
        elif kind == 2:                                 # PTR
            types.append(f"Ptr {third}")
        elif kind == 3:                                 # ARRAY
            types.append(f"Array {word(at)} {word(at + 8)}")
            at += 12
        elif kind in (4, 5):                            # STRUCT, UNION
            members = []
            for _ in range(count):
                offset = word(at + 8)
                bit, width = (offset % 2**24, offset >> 24) if info >> 31 else (offset, 0)
                members.append(f"member {name(word(at))} {word(at + 4)} {bit} {width}")
                far = max(far, bit)
                at += 12
            types.append(f"Composite {boolean(kind == 4)} (ascii {name(off)}) {third} {listed(members)}")
        elif kind == 6:                                 # ENUM
            values = []
            for _ in range(count):
                values.append(f"value {name(word(at))} {word(at + 4)}")
                at += 8
            types.append(f"Enum {flag} (ascii {name(off)}) {third} {listed(values)}")
        elif kind == 7:                                 # FWD
            types.append(f"Fwd {flag} (ascii {name(off)})")
        elif kind == 8:                                 # TYPEDEF
            types.append(f"Typedef (ascii {name(off)}) {third}")
        elif kind in (9, 10, 11):                       # VOLATILE, CONST, RESTRICT
            types.append(f"Mod {('volatile', 'const', 'restrict')[kind - 9]} {third}")
        elif kind == 12:                                # FUNC
            types.append(f"Func (ascii {name(off)})")
        elif kind == 13:                                # FUNC_PROTO
            params = []
            for _ in range(count):
                params.append(f"param {name(word(at))} {word(at + 4)}")
                at += 8
            types.append(f"FuncProto {third} {listed(params)}")
        elif kind == 14:                                # VAR
            types.append(f"Var (ascii {name(off)})")
            at += 4
        elif kind == 15:                                # DATASEC
            types.append(f"Datasec (ascii {name(off)})")
            at += 12 * count
        elif kind == 16:                                # FLOAT
            types.append(f"Float (ascii {name(off)}) {third}")
        elif kind == 17:                                # DECL_TAG
            types.append(f"DeclTag {flag} (ascii {name(off)}) {third} {word(at)}")
            at += 4
        elif kind == 18:                                # TYPE_TAG
            types.append(f"TypeTag {flag} (ascii {name(off)}) {third}")
        else:                                           # ENUM64
            assert kind == 19
            values = []
            for _ in range(count):
                values.append(f"value {name(word(at))} {word(at + 8) << 32 | word(at + 4)}")
                at += 12
            types.append(f"Enum64 {flag} (ascii {name(off)}) {third} {listed(values)}")
    assert at == end
    return types, far


# antt

def turned(section):
    """The section with the most significant byte of every word first."""
    header, type_off, type_len = struct.unpack_from("<III", section, 4)
    out = bytearray(section)
    out[:2] = section[1::-1]
    for at in list(range(4, 24, 4)) + list(range(header + type_off, header + type_off + type_len, 4)):
        out[at:at + 4] = section[at:at + 4][::-1]
    return bytes(out)


def boolean(b):
    return "true" if b else "false"


def quoted(content):
    out = ""
    for c in content:
        if chr(c) in '"\\':
            out += "\\" + chr(c)
        elif 32 <= c < 127:
            out += chr(c)
        else:
            out += {9: "\\t", 10: "\\n", 13: "\\r"}.get(c) or "\\u{%x}" % c
    return '"' + out + '"'


def hexadecimal(section):
    return f'"{section.hex()}"'


def listed(items):
    return "(" + " ∷ ".join(items + ["[]"]) + ")" if items else "[]"


def broken(words, indent):
    """The words, on lines of up to WIDTH columns where they allow it."""
    lines = [[]]
    for w in words:
        if lines[-1] and len(indent + " ".join(lines[-1] + [w])) > WIDTH:
            lines.append([])
        lines[-1].append(w)
    return ("\n" + indent).join(" ".join(ws) for ws in lines)


def filled(items):
    """A list on several lines."""
    return "(" + broken([items[0]] + ["∷ " + t for t in items[1:] + ["[]"]], DEEP) + ")"


# what is taken

# At the limits of depth: hundreds of types, a second each, and too many bytes to be read one by one. The prover's limit of steps for one lemma
# is near: a few in a file.
LIMITS = "decl-depth-nameless-171 pointer-chain-511 pointer-chain-512 1-328-1 1-944-2 1-1440-0 1-3452-2 1-4856-2".split()


def small(types, far, text):
    """Few types, no far member (each of its pads is computed), little text."""
    return len(types) <= 24 and sum(map(len, types)) <= 4000 and far <= 16384 and len(text) <= 720


def plain(calls):
    """One opening, accepted; then up to ten requests, each lent as much section and work as the first, and no less text than was written.
    (11 to other lengths is answered before the rules of a session.)"""
    if calls[0][0] != 0 or calls[0][6] != 0 or len(calls) > 11 or any(c[0] == 0 for c in calls[1:]):
        return False
    length = 0
    for c in calls[1:]:
        if c[3:5] != calls[0][3:5] or c[5] < length:
            return False
        length = c[7]
    return True


def programs():
    """Of crates/btfdump_replay/data: the name, the numbers, the entry."""
    for path in sorted(glob.glob(os.path.join(HERE, "crates/btfdump_replay/data/*.btf"))):
        name = os.path.basename(path)[:-4]
        text = contents(path[:-4] + ".out")
        refused = re.fullmatch(rb"refused (\d+)\n", text)
        number = int(refused[1]) if refused else 0
        if 1 <= number <= 9:
            continue
        section = contents(path)
        if name.endswith(BIG):
            twin = path[:-len(BIG + ".btf")]
            assert section == turned(contents(twin + ".btf")) and text == contents(twin + ".out"), name
        types, far = read_types(section)
        if name in LIMITS:
            yield name, [number], (8, 0), f"gives  -- {name}\n{DEEP}(program (listed 8 false\n{DEEP}{filled(types)}))\n{DEEP}{quoted(text)}"
        elif len(section) <= 2000 and small(types, far, text):      # each byte is read
            yield name, [number], (8, 0), f"prints  -- {name}\n{DEEP}{hexadecimal(section)}\n{DEEP}{filled(types)}\n{DEEP}{quoted(text)}"


def sessions():
    """Of oracle/answers.cases: the name, the numbers, the entry."""
    for name, section, calls, text in cases(os.path.join(HERE, "oracle/answers.cases")):
        if not plain(calls):
            continue
        types, far = read_types(section)
        if name not in LIMITS and not small(types, far, text):
            continue
        pointer, modes = calls[0][1:3]
        assert calls[0][7] == len(types) and modes in (0, 1)
        asks = [f"all {c[5]}" if c[0] == 2 else f"one {c[5]} {c[1]}" for c in calls[1:]]
        answers = [f"({c[6]}, {c[7]})" for c in calls[1:]]
        yield (name, [c[6] for c in calls[1:]], (pointer, modes),
               f"session {pointer} {boolean(modes)}  -- {name}\n{DEEP}{filled(types)}\n{DEEP}{listed(asks)}\n{DEEP}{listed(answers)}\n{DEEP}{quoted(text)}")


def contents(path):
    with open(path, "rb") as f:
        return f.read()


def cases(path):
    """The cases of a file: name, section, calls, text."""
    data = contents(path)
    at = 8

    def taken(n):
        nonlocal at
        at += n
        return data[at - n:at]

    def number():
        return struct.unpack("<I", taken(4))[0]

    assert data[:8] == b"BTFCASE1"
    for _ in range(number()):
        name, section = taken(number()).decode(), taken(number())
        calls = [struct.unpack("<8I", taken(32)) for _ in range(number())]
        yield name, section, calls, taken(number())
    assert at == len(data)


# the files

BASE = """-- Written by tools/vectors.py. What the vectors are made of: a session beside the Rust's answers to it.
use Rattle.std.specs.Prelude.{ℕ, Bool, List, [], ◌∷◌}
use Prim.Native.String.{String}
use Rattle.spec_bytes.specs.text.Text.{ascii}
use Rattle.spec_c_dumper.specs.rules.Machine.{Req}
use Rattle.spec_c_dumper.specs.rules.Types.{Member, Param, Enumerator, BtfType}
use Rattle.spec_c_dumper.specs.rules.Listed.{listed}
use Rattle.spec_c_dumper.specs.needs.Session.{Dump, dump, dump_types}

abbrev pub member : String → ℕ → ℕ → ℕ → Member
member name type_id bit_offset bit_size = record { name = ascii name; type_id = type_id; bit_offset = bit_offset; bit_size = bit_size }

abbrev pub param : String → ℕ → Param
param name type_id = record { name = ascii name; type_id = type_id }

abbrev pub value : String → ℕ → Enumerator
value name bits = record { name = ascii name; value = bits }

-- what the rules give, and what the Rust gave
pub record Vector : Type 0 where
  pub is : Dump
  pub wanted : Dump

-- pointer size, union_as_struct, types; requests (`one`: room of the text slice, id; `all`: room); number and value of each answer, and the
-- text after the last
abbrev pub session : ℕ → Bool → List BtfType → List Req → List (ℕ × ℕ) → String → Vector
session ptr_sz union_as_struct types requests answers text = record {
  is = dump_types (listed ptr_sz union_as_struct types) requests;
  wanted = dump answers (ascii text);
}

abbrev pub all_given : List Vector → List Dump
all_given [] = []
all_given (v ∷ vs) = v.is ∷ all_given vs

abbrev pub all_wanted : List Vector → List Dump
all_wanted [] = []
all_wanted (v ∷ vs) = v.wanted ∷ all_wanted vs
"""

SPECS = """-- Written by tools/vectors.py. {title}
-- That they are equal is `{name}_hold` of proofs/{module}.
use Rattle.std.specs.Prelude.{{true, false, List, [], ◌∷◌}}
use Rattle.spec_bytes.specs.text.Text.{{ascii}}
{uses}
use Rattle.spec_c_dumper.specs.rules.Types.{{volatile, const, restrict, Void, Int, Ptr, Array, Composite, Enum, Enum64, Fwd, Typedef, Mod, Func, Var, Datasec, FuncProto, Float, DeclTag, TypeTag}}

abbrev pub {name} : List {kind}
{name} =
    {entries}
    ∷ []
"""

PROOFS = """-- Written by tools/vectors.py. By computation, the rules give what the Rust gave on the sections of specs/{module}.
use mathlib.Core.Path.{{◌≡◌, refl}}
{uses}

pub {name}_hold : all_given {name} ≡ all_wanted {name}
unfolding {names}
{name}_hold = refl
"""

READING = """-- Written by tools/vectors.py. The types that the bytes of a section spell, record after record, each read as the table of spec_type_table reads it.
use Rattle.std.specs.Prelude.{ℕ, zero, suc, ◌+◌, ◌*◌, ◌-◌, true, false, List, [], ◌∷◌, length, ltb, leb, Some, None}
use Prim.Native.String.{String}
use Rattle.spec_bytes.specs.text.Text.{ascii}
use Rattle.spec_linux_btf.specs.Section.{is_big_endian, word_of}
use Rattle.spec_c_dumper.specs.rules.Types.{BtfType, Void}
use Rattle.spec_c_dumper.specs.rules.Listed.{listed}
use Rattle.spec_c_dumper.specs.needs.Session.{program}
use Rattle.spec_type_table.specs.declared.types.TypeTable.{TypeTable}
use Rattle.spec_type_table.specs.Records.{vlen_of, kind_of, extra_of, record_at}
use Rattle.spec_type_table.specs.Table.{type_of}

-- 0 to 9, a to f
abbrev pub digit : ℕ → ℕ
digit c = elim (leb 97 c) [ true ↦ c - 87 | false ↦ c - 48 ]

-- the bytes, two digits each
unfoldable pub pairs : List ℕ → List ℕ
pairs [] = []
pairs (a ∷ []) = []
pairs (a ∷ b ∷ l) = (digit a * 16 + digit b) ∷ pairs l

-- the records from a place on: n at most
unfoldable pub types_from : TypeTable → List ℕ → ℕ → ℕ → ℕ → List BtfType
types_from b s end zero at = []
types_from b s end (suc n) at =
    let r = record_at b s at in
    elim (ltb at end) [
      | false ↦ []
      | true ↦ elim (extra_of (kind_of r.info) (vlen_of r.info)) [ Some k ↦ type_of b s r ∷ types_from b s end n (at + 12 + k) | None ↦ [] ]
    ]

-- struct btf_header: hdr_len at 4, type_off at 8, type_len at 12, str_off at 16
unfoldable pub types_of : List ℕ → List BtfType
types_of s = Void ∷ types_from
    (record { ptr_sz = 8; union_as_struct = false; big_endian = is_big_endian s; strong_arrays = false; placing = false; types = 0; strs = word_of s 4 + word_of s 16 })
    s
    (word_of s 4 + word_of s 8 + word_of s 12)
    (length s)
    (word_of s 4 + word_of s 8)

-- what the rules read and print, and what is to be read and was printed
pub record Printed : Type 0 where
  pub read : List BtfType
  pub types : List BtfType
  pub is : List ℕ
  pub wanted : List ℕ

-- section, types, text
abbrev pub prints : String → List BtfType → String → Printed
prints section types text = record {
  read = types_of (pairs (ascii section));
  types = types;
  is = program (listed 8 false types);
  wanted = ascii text;
}

abbrev pub all_read : List Printed → List (List BtfType)
all_read [] = []
all_read (p ∷ ps) = p.read ∷ all_read ps

abbrev pub all_types : List Printed → List (List BtfType)
all_types [] = []
all_types (p ∷ ps) = p.types ∷ all_types ps

abbrev pub all_given : List Printed → List (List ℕ)
all_given [] = []
all_given (p ∷ ps) = p.is ∷ all_given ps

abbrev pub all_wanted : List Printed → List (List ℕ)
all_wanted [] = []
all_wanted (p ∷ ps) = p.wanted ∷ all_wanted ps
"""

READS = """-- Written by tools/vectors.py. By computation, the bytes of the sections of specs/{module} are read as their types.
use mathlib.Core.Path.{{◌≡◌, refl}}
use Rattle.spec_bytes.specs.words.Words.{{word_at, word_at_big, word_in}}
use Rattle.spec_linux_btf.specs.Section.{{is_big_endian, word_of}}
use Rattle.spec_type_table.specs.Names.{{up_to_zero, name_at}}
use Rattle.spec_type_table.specs.Records.{{section_word, record_at, member_of, extra_of}}
use Rattle.spec_type_table.specs.Table.{{from, param_of, value_of, value64_of, type_of}}
use Rattle.proof_examples.specs.vectors.Reading.{{pairs, types_from, types_of, all_read, all_types}}
use Rattle.proof_examples.specs.vectors.{module}.{{{name}}}

pub {name}_read : all_read {name} ≡ all_types {name}
unfolding is_big_endian word_of word_in word_at_big word_at up_to_zero name_at section_word record_at member_of extra_of from param_of value_of value64_of type_of pairs types_from types_of
{name}_read = refl
"""

# the crate, what is taken, whether of LIMITS, the most lines of a file, the files' names, the kind of an entry, the title, where the lists of
# both sides are, what an entry uses
GROUPS = [
    ("vectors", programs, False, 470, "Programs", "Printed", "Sections of crates/btfdump_replay/data: bytes, types, and what the program prints.",
     "Rattle.proof_examples.specs.vectors.Reading", [
         "use Rattle.proof_examples.specs.vectors.Base.{member, param, value}",
         "use Rattle.proof_examples.specs.vectors.Reading.{Printed, prints}"]),
    ("deep", programs, True, 150, "DeepPrograms", "Sample", "Sections of crates/btfdump_replay/data at the limits of depth, each beside what the program prints.",
     "Rattle.spec_c_dumper.specs.rules.Samples", [
         "use Rattle.spec_c_dumper.specs.rules.Listed.{listed}",
         "use Rattle.spec_c_dumper.specs.rules.Samples.{Sample, gives}",
         "use Rattle.spec_c_dumper.specs.needs.Session.{program}",
         "use Rattle.proof_examples.specs.vectors.Base.{member}"]),
    ("answered", sessions, False, 470, "Sessions", "Vector", "Sections and requests of oracle/answers.cases, each beside the answers.",
     "Rattle.proof_examples.specs.vectors.Base", [
         "use Rattle.spec_c_dumper.specs.rules.Machine.{one, all}",
         "use Rattle.proof_examples.specs.vectors.Base.{member, param, value, Vector, session}"]),
    ("deep", sessions, True, 150, "DeepSessions", "Vector", "Sections and requests of oracle/answers.cases at the limits of depth, each beside the answers.",
     "Rattle.proof_examples.specs.vectors.Base", [
         "use Rattle.spec_c_dumper.specs.rules.Machine.{one, all}",
         "use Rattle.proof_examples.specs.vectors.Base.{member, param, value, Vector, session}"]),
]


def unfolded():
    """The `use` lines of all that is unfolded, and the names: those of crates/spec_c_dumper/proofs/needs/Samples.antt, and what its samples need not."""
    text = contents(os.path.join(HERE, "crates/spec_c_dumper/proofs/needs/Samples.antt")).decode()
    uses = [u for u in text.split("\n") if re.match(r"use Rattle(?!.*\.Samples\.)", u)]
    names = re.search(r"\nunfolding (.*?)\nprograms_hold", text, re.S)[1].split()
    return uses + ["use Rattle.spec_bytes.specs.signed.Signed.{twos, signed, signed_ll}"], names + ["twos", "signed", "signed_ll"]


def chunks(entries, most):
    """Entries for one file after another, about as many lines in each."""
    lines = sum(e.count("\n") + 1 for e in entries)
    number = -(-lines // most)
    parts, before = [[] for _ in range(number)], 0
    for e in entries:
        parts[before * number // lines].append(e)
        before += e.count("\n") + 1
    return parts


def only_used(text):
    """The text with the names in its `use` lines that it uses."""
    body = "\n".join(line for line in text.split("\n") if not line.startswith("use ")) + "\n"
    words = set(re.findall(r"[^\s(){};,.]+", body))

    def line(m):
        names = [n for n in m[2].split(", ") if n.strip("◌") in words or n in words]
        return f"use {m[1]}.{{{', '.join(names)}}}\n" if names else ""
    return re.sub(r"^use (\S+)\.\{([^}]*)\}\n", line, text, flags=re.M)


def files():
    """Each file that is written, by its path below crates/proof_examples/."""
    out = {"specs/vectors/Base.antt": BASE, "specs/vectors/Reading.antt": READING}
    specs, proofs = {"vectors": ["Base", "Reading"], "answered": [], "deep": []}, {c: [] for c in CRATES}
    uses, names = unfolded()
    for crate, taken, limits, most, group, kind, title, lists, spec_uses in GROUPS:
        for i, part in enumerate(chunks([e[3] for e in taken() if (e[0] in LIMITS) == limits], most)):
            module, name = f"{group}{i}", re.sub(r"(?<=.)([A-Z])", r"_\1", group).lower() + str(i)
            specs[crate].append(module)
            proofs[crate].append(module)
            out[f"specs/{crate}/{module}.antt"] = SPECS.format(title=title, module=module, name=name, kind=kind, uses="\n".join(spec_uses), entries="\n    ∷ ".join(part))
            more = [f"use {lists}.{{all_given, all_wanted}}", f"use Rattle.proof_examples.specs.{crate}.{module}.{{{name}}}"]
            out[f"proofs/{crate}/{module}.antt"] = PROOFS.format(module=module, name=name, uses="\n".join(uses + more), names=broken(names, "    "))
            if kind == "Printed":
                proofs[crate].insert(i, f"Read{i}")
                out[f"proofs/{crate}/Read{i}.antt"] = READS.format(module=module, name=name)
    for crate in CRATES:
        out[f"specs/{crate}.antt"] = "".join(f"pub mod {m}\n" for m in specs[crate])
        out[f"proofs/{crate}.antt"] = "".join(f"pub mod {m}\n" for m in proofs[crate])
    return {p: only_used(text) for p, text in out.items()}


def summary():
    for taken in (programs, sessions):
        entries = list(taken())
        numbers = collections.Counter(n for e in entries for n in e[1])
        settings = collections.Counter(e[2] for e in entries)
        print(f"{taken.__name__}: {len(entries)};",
              "answers", ", ".join(f"{n}: {k}" for n, k in sorted(numbers.items())) + ";",
              "pointer size and union_as_struct", ", ".join(f"{p} {u}: {k}" for (p, u), k in sorted(settings.items())))


def main():
    made = files()
    below = os.path.join(HERE, "crates/proof_examples")
    stands = {os.path.relpath(p, below): contents(p).decode() for c in CRATES for d in ("specs", "proofs") for p in glob.glob(f"{below}/{d}/{c}/*.antt") + [f"{below}/{d}/{c}.antt"]}
    if sys.argv[1:] == ["--check"]:
        differ = sorted(p for p in made.keys() | stands.keys() if made.get(p) != stands.get(p))
        if differ:
            sys.exit("tools/vectors.py: not what it would write: " + ", ".join(differ))
    else:
        for p in stands.keys() - made.keys():
            os.remove(os.path.join(below, p))
        for p, text in made.items():
            with open(os.path.join(below, p), "w") as f:
                f.write(text)
    summary()


if __name__ == "__main__":
    main()
