#!/usr/bin/env python3
"""The picture of the crates and the list of one section's walk, for docs/ARCHITECTURE.md.

  tools/architecture.py           writes docs/architecture.svg and the list in docs/ARCHITECTURE.md
  tools/architecture.py --check   exits 1 where these are not what it would write, or the walk has too many crates

The picture is drawn from crates.txt. The walk is every function that btfdump_open and btfdump_dump_types call, directly or
not, read from crates/*/src; but for `u32::from`, whose text does not say from which type.
"""
import glob
import os
import re
import sys

ROOT = os.path.dirname(os.path.dirname(os.path.abspath(__file__)))
PAGE = "docs/ARCHITECTURE.md"
PICTURE = "docs/architecture.svg"
ROOTS = ("btfdump_open", "btfdump_dump_types")
CRATES_AT_MOST = 20
BEGIN, END = "<!-- walk: written by tools/architecture.py -->", "<!-- end of walk -->"

# The layers from bytes to text, each by the first word of its crates' names; then what is proved and what is believed.
LAYERS = (
    ("base", "base: bytes, words, numbers, keywords"),
    ("btf", "btf: the type table, and opening"),
    ("c_dumper", "c_dumper: ordering and emission"),
    ("session", "session: the record, and the calls by value"),
    ("btfdump", "btfdump: the library for C, and the programs"),
    ("spec", "spec: definitions to be believed"),
    ("proof", "proof, claims: theorems, no function"),
)
CODE = ("base", "btf", "c_dumper", "session", "btfdump")


def read(path):
    with open(os.path.join(ROOT, path), encoding="utf8") as file:
        return file.read()


def layer_of(crate):
    for layer in ("c_dumper", "btfdump", "btf", "base", "session", "spec"):
        if crate == layer or crate.startswith(layer + "_"):
            return layer
    return "proof"


def dependencies():
    """Of each crate of crates.txt the crates that it names, in the file's order."""
    needs = {}
    for line in read("crates.txt").split("\n"):
        line = line.split("#")[0].strip()
        if line:
            name, deps = line.split(":")
            needs[name.split()[0]] = deps.split()
    return {name: [d for d in deps if d in needs] for name, deps in needs.items()}


# ---- the walk ----

def paths_of(use):
    """The paths that the text of a `use` names: one, or those of its braces."""
    path, brace, names = "".join(use.split()).partition("{")
    return [path + n for n in names.rstrip("}").split(",") if n] if brace else [path]


class Source:
    """One file of src/: what it imports and which functions it has."""

    def __init__(self, path):
        parts = path.split("/")
        self.crate = parts[1]
        self.module = "/".join(parts[3:])[:-len(".rt")]
        text = re.sub(r"//.*", "", read(path))
        self.uses = {p.split("::")[-1]: p for u in re.findall(r"^(?:pub(?:\(crate\))? )?use ([^;]+);", text, re.M) for p in paths_of(u)}
        self.bodies = {}
        for m in re.finditer(r'^(?:pub(?:\(crate\))? )?(?:extern "C" )?fn (\w+).*?^\{\n(.*?)^\}', text, re.M | re.S):
            self.bodies[m.group(1)] = m.group(2)
        for m in re.finditer(r"^impl(?:<[^>]*>)? (?:[\w<>']+ for )?(\w+)[^{]*\{\n(.*?)^\}", text, re.M | re.S):
            for f in re.finditer(r"^    (?:pub(?:\(crate\))? )?fn (\w+).*?^    \{\n(.*?)^    \}", m.group(2), re.M | re.S):
                self.bodies[f"{m.group(1)}::{f.group(1)}"] = f.group(2)


def sources():
    paths = sorted(glob.glob(os.path.join(ROOT, "crates/*/src/**/*.rt"), recursive=True))
    files = [Source(os.path.relpath(p, ROOT)) for p in paths]
    return {(f.crate, f.module): f for f in files}


def resolve(files, source, path):
    """The place (crate, module, function) that a path names in a file, re-exports followed; None for what is no function."""
    parts = path.split("::")
    if len(parts) == 1:
        if path in source.bodies:
            return source.crate, source.module, path
        return resolve(files, source, source.uses[path]) if path in source.uses else None
    if parts[0] == "crate":
        parts[0] = source.crate
    elif (parts[0], "lib") not in files and (parts[0], "main") not in files:
        parts = [source.crate] + source.module.split("/") + parts
    crate, modules, name = parts[0], parts[1:-1], parts[-1]
    target = files.get((crate, "/".join(modules) or "lib"))
    if target is None:
        return None
    if name in target.bodies:
        return crate, target.module, name
    return resolve(files, target, target.uses[name]) if name in target.uses else None


# Methods of std that types of the repository have too: told by a receiver that is a constant.
OF_STD = ("get", "put", "len", "min", "max", "push", "from")


def methods_of(files):
    """Where each method stands, by its name alone and by its type and name."""
    places = {}
    for f in files.values():
        for n in f.bodies:
            if "::" in n:
                places.setdefault(n, []).append((f.crate, f.module, n))
                places.setdefault(n.split("::")[1], []).append((f.crate, f.module, n))
    return places


def calls(files, methods, source, body):
    """The functions and methods that a body calls, as they stand in it."""
    def method(name):
        near = sorted(methods.get(name, []), key=lambda f: (f[:2] != (source.crate, source.module), f[0] != source.crate))
        return near[:1]

    found = []
    pattern = r"(?:(?<![\w.])|(?<=\.\.))([a-z_]\w*(?:::\w+)*)(?:::<[^>]*>)?\s*\(|\b([A-Z]\w*::\w+)\s*\(|([\w)\]]+)\s*\.(\w+)\("
    for m in re.finditer(pattern, body):
        if m.group(1):
            found.append(resolve(files, source, m.group(1)))
        elif m.group(2):
            found += method(m.group(2).removeprefix("Self::"))
        elif m.group(4) not in OF_STD or re.fullmatch(r"[A-Z][A-Z_]+", m.group(3)):
            found += method(m.group(4))
    return [f for f in found if f]


def walk(files):
    """Functions in the order in which the walk first comes to them."""
    methods = methods_of(files)
    start = [(f.crate, f.module, n) for n in ROOTS for f in files.values() if n in f.bodies]
    if len(start) != len(ROOTS):
        sys.exit("architecture.py: no function " + " or ".join(ROOTS))
    seen, todo = {}, start[::-1]
    while todo:
        place = todo.pop()
        if place in seen:
            continue
        seen[place] = None
        source = files[place[:2]]
        todo += reversed(calls(files, methods, source, source.bodies[place[2]]))
    return list(seen)


def walk_list(places):
    """The walk by crate and module, in the order in which it comes to them."""
    crates = {}
    for crate, module, name in places:
        crates.setdefault(crate, {}).setdefault(module.split("/")[0], []).append(name)
    lines = [f"{len(places)} functions in {len(crates)} crates (at most {CRATES_AT_MOST}), in the order in which the walk first comes to them.", ""]
    for crate, modules in crates.items():
        lines.append(f"- `{crate}`")
        for module, names in modules.items():
            lines.append(f"  - {module}: {', '.join(names)}")
    return "\n".join(lines), len(crates)


# ---- the picture ----

WIDTH, BOX, HIGH, GAP, ROW, HEAD = 1180, 196, 26, 20, 62, 30


def reduced(needs):
    """Each crate's needs without those that another of its needs has already."""
    above = {}

    def all_of(name):
        if name not in above:
            above[name] = set(needs[name]).union(*[all_of(d) for d in needs[name]])
        return above[name]

    return {n: [d for d in deps if not any(d in all_of(e) for e in deps if e != d)] for n, deps in needs.items()}


def rows_of(crates, needs):
    """The crates of a layer in rows: each below those of its layer that it needs, at most five a row."""
    level = {}

    def level_of(name):
        if name not in level:
            level[name] = max((level_of(d) + 1 for d in needs[name] if d in crates), default=0)
        return level[name]

    rows = []
    for n in range(max(map(level_of, crates)) + 1):
        same = [c for c in crates if level[c] == n]
        rows += [same[i:i + 5] for i in range(0, len(same), 5)]
    return rows


def picture(needs):
    out, place, y, count = [], {}, 56, 0
    for key, title in LAYERS:
        crates = [c for c in needs if layer_of(c) == key]
        if not crates:
            continue
        rows = rows_of(crates, needs)
        height = HEAD + ROW * len(rows) - (ROW - HIGH) + 14
        out.append(f'<rect x="10" y="{y}" width="{WIDTH - 20}" height="{height}" rx="6" class="{"code" if key in CODE else "text"}"/>')
        out.append(f'<text x="22" y="{y + 19}" class="title">{title}</text>')
        for i, row in enumerate(rows):
            left = (WIDTH - len(row) * BOX - (len(row) - 1) * GAP) / 2
            if len(row) < 5:  # rows are moved against each other, so that few lines run behind a box
                left += (count % 3 - 1) * 0.6 * BOX
            count += 1
            for j, crate in enumerate(row):
                place[crate] = (left + j * (BOX + GAP), y + HEAD + i * ROW)
        y += height + 26
    code = {n: [d for d in deps if layer_of(d) in CODE] for n, deps in needs.items() if layer_of(n) in CODE}
    spec = {n: [d for d in deps if layer_of(d) == "spec"] for n, deps in needs.items() if layer_of(n) == "spec"}
    for graph in (reduced(code), reduced(spec)):
        for name, deps in graph.items():
            for d in deps:
                x1, y1 = place[d][0] + BOX / 2, place[d][1] + HIGH
                x2, y2 = place[name][0] + BOX / 2, place[name][1]
                mid = max((y2 - y1) / 2, 14)
                out.append(f'<path d="M{x1:.0f} {y1:.0f}C{x1:.0f} {y1 + mid:.0f} {x2:.0f} {y2 - mid:.0f} {x2:.0f} {y2:.0f}"/>')
    for crate, (x, top) in place.items():
        out.append(f'<rect x="{x:.0f}" y="{top:.0f}" width="{BOX}" height="{HIGH}" rx="4" class="box"/>')
        out.append(f'<text x="{x + BOX / 2:.0f}" y="{top + 17:.0f}" class="name">{crate}</text>')
    style = ("text{font-family:sans-serif;font-size:12px}.title{font-weight:bold;fill:#333}.name{text-anchor:middle;font-size:11px}"
             ".code{fill:#eef4fb}.text{fill:#f6f3ea}.box{fill:#fff;stroke:#567}path{fill:none;stroke:#89a;stroke-width:1}")
    note = "A line leads from a crate to one that uses it; what another line implies is left out, and so are the lines from the layer of definitions."
    return "\n".join([f'<svg xmlns="http://www.w3.org/2000/svg" width="{WIDTH}" height="{y}" viewBox="0 0 {WIDTH} {y}">',
                      f"<style>{style}</style>", f'<rect width="{WIDTH}" height="{y}" fill="#fff"/>',
                      '<text x="14" y="24" class="title">The crates by layer, from bytes to text (drawn by tools/architecture.py from crates.txt)</text>',
                      f'<text x="14" y="42">{note}</text>', *out, "</svg>", ""])


def main():
    text, crates = walk_list(walk(sources()))
    page = read(PAGE)
    head, rest = page.split(BEGIN)
    made = {PAGE: head + BEGIN + "\n" + text + "\n" + END + rest.split(END)[1], PICTURE: picture(dependencies())}
    bad = [f"the walk has {crates} crates"] if crates > CRATES_AT_MOST else []
    for path, content in made.items():
        if sys.argv[1:] == ["--check"]:
            if not os.path.exists(os.path.join(ROOT, path)) or read(path) != content:
                bad.append(f"{path} is not what tools/architecture.py writes")
        else:
            with open(os.path.join(ROOT, path), "w", encoding="utf8") as file:
                file.write(content)
    print("architecture.py: " + text.split("\n")[0])
    for line in bad:
        print("architecture.py: " + line)
    return 1 if bad else 0


if __name__ == "__main__":
    sys.exit(main())
