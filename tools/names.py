#!/usr/bin/env python3
"""Checks the documents: exits 1 where one names what is not there, or is longer than it may be.

  tools/names.py              checks the documents
  tools/names.py --comments   checks the comments of the sources too

Documents are README.md, docs/, and the README of bench/, oracle/ and tests/, but not docs/PORT.md and
docs/DESIGN-PASS.md, which quote names that were.
What stands in a block of code is not looked at.

- A path, given from the root or from the document's folder, exists.
- `crate::module` and `crate::module::item` exist; so does every crate that is named, and every name in `such quotes`.
- In docs/CLAIMS.md a theorem is defined in a file of its row.
- A note of docs/changes has at most 400 words, a cell of docs/DECISIONS.md at most 60.
- In comments: a crate, a path below crates/ and `crate::module` exist.
"""
import glob
import os
import re
import sys

ROOT = os.path.dirname(os.path.dirname(os.path.abspath(__file__)))
NOTE_WORDS, CELL_WORDS = 400, 60
FOLDERS = r"(?:\.ci|bench|crates|docs|include|oracle|tests|tools)"
MADE = re.compile(r"build/|crates/\w+/out/")  # folders that the commands make
# files of others: the Rust original, the Linux page, the system
FOREIGN = {"include/uapi/linux/btf.h", "Documentation/bpf/btf.rst", "btf.h", "btf.rst", "c_dumper.rs", "types.rs", "lib.rs", "src/c_dumper.rs"}
ENDINGS = r"\.(?:antt|rt|md|py|sh|c|h|cases|svg|txt|btf|sed|edit)"
PLAIN = {"a", "above", "and", "below", "by", "folder", "for", "has", "in", "is", "of", "that", "with"}  # words after "crate" that are no crate
LAYER = r"(?:base|btf|c_dumper|session|btfdump|spec|proof)_\w+"


def read(path):
    with open(os.path.join(ROOT, path), encoding="utf8") as file:
        return file.read()


def documents():
    found = ["README.md", "bench/README.md", "oracle/README.md", "tests/README.md"]
    found += [os.path.relpath(p, ROOT) for p in glob.glob(os.path.join(ROOT, "docs/**/*.md"), recursive=True)]
    found.remove("docs/PORT.md")
    found.remove("docs/DESIGN-PASS.md")
    return sorted(found)


def sources():
    """The text of each file of the repository that is no document."""
    texts = {}
    for top in (".ci", "bench", "crates", "include", "oracle", "tests", "tools"):
        for folder, folders, names in os.walk(os.path.join(ROOT, top)):
            folders[:] = [f for f in folders if f != "out"]
            for name in names:
                if re.search(r"\.(antt|rt|c|h|py|sh|rs|sed|edit)$", name) or top == ".ci":
                    path = os.path.relpath(os.path.join(folder, name), ROOT)
                    texts[path] = read(path)
    return texts


def file_names():
    """The names of all files under crates/, without their endings: modules, and stored sections."""
    return {name.split(".")[0] for folder, _, names in os.walk(os.path.join(ROOT, "crates")) if not MADE.match(os.path.relpath(folder, ROOT) + "/") for name in names}


def exists(path, folder):
    if path in FOREIGN or MADE.match(path):
        return True
    return any(glob.glob(os.path.join(ROOT, base, path)) for base in ("", folder))


def paths_in(text):
    for m in re.finditer(rf"(?<![\w/.<-])({FOLDERS}/[\w./*-]*[\w*]|[\w./*-]*\w{ENDINGS})(?![\w/])", text):
        yield m.group(1)


def has_module(crate, module):
    return any(glob.glob(os.path.join(ROOT, "crates", crate, p)) for p in
               (f"src/{module}.rt", f"specs/{module}.antt", f"proofs/{module}.antt", f"specs/{module}", f"proofs/{module}"))


def has_item(crate, module, item, texts):
    """Whether a file of the module, or of the crate where no module is given, has the item or passes it on."""
    place = rf"crates/{crate}/src/" + (rf"{module}(?:/.*)?" if module else ".*") + r"\.rt$"
    inside = [text for path, text in texts.items() if re.match(place, path)]
    return any(re.search(rf"\b(?:fn|struct|enum|const|mod) {item}\b|^pub use [^;]*\b{item}\b[^;]*;", text, re.M) for text in inside)


def check_names(doc, text, texts, words, bad):
    crates = set(os.listdir(os.path.join(ROOT, "crates")))
    folder = os.path.dirname(doc)
    for path in paths_in(text):
        if not exists(path.rstrip("."), folder):
            bad.append(f"{doc}: no path {path}")
    for m in re.finditer(r"(?<![\w:])([a-z][a-z0-9_]*)::(\w+)(?:::(\w+))?", text):
        crate, module, item = m.groups()
        if crate in ("std", "core", "crate"):
            continue
        if crate not in crates:
            bad.append(f"{doc}: no crate {crate} ({m.group(0)})")
        elif not has_module(crate, module) and not has_item(crate, None, module, texts):
            bad.append(f"{doc}: no module {m.group(0)}")
        elif item and not has_item(crate, module, item, texts):
            bad.append(f"{doc}: no item {m.group(0)}")
    for quoted in re.findall(r"`([^`\n]+)`", text):
        if re.fullmatch(LAYER, quoted) and quoted not in crates and quoted not in words:
            bad.append(f"{doc}: no crate or name {quoted}")
        elif re.fullmatch(r"[A-Za-z][\w'-]*(?<!_)", quoted) and quoted not in words and quoted not in crates:
            bad.append(f"{doc}: no name {quoted}")


def check_claims(doc, text, texts, bad):
    for line in text.split("\n"):
        cells = [c.strip() for c in line.strip().strip("|").split("|")]
        if len(cells) < 4 or "`" not in cells[1]:
            continue
        files = [p for p in re.findall(r"`(crates/[^`]+)`", cells[2])]
        for name in re.findall(r"`([^`]+)`", cells[1]):
            pattern = rf"^\s*(?:(?:pub|abbrev|unfoldable|data|record) )*(?:extern \"C\" )?(?:fn )?{re.escape(name)}(?:\s|\(|:|$)"
            if not any(re.search(pattern, texts.get(f, ""), re.M) for f in files):
                bad.append(f"{doc}: {name} is not defined in {', '.join(files)}")


def check_lengths(doc, text, bad):
    if doc.startswith("docs/changes/") and not doc.endswith("README.md") and len(text.split()) > NOTE_WORDS:
        bad.append(f"{doc}: {len(text.split())} words, {NOTE_WORDS} at most")
    if doc == "docs/DECISIONS.md":
        for line in text.split("\n"):
            for cell in line.strip("|").split("|") if line.startswith("|") else []:
                if len(cell.split()) > CELL_WORDS:
                    bad.append(f"{doc}: a cell of {len(cell.split())} words, {CELL_WORDS} at most: {' '.join(cell.split()[:8])} ..")


def check_comments(texts, bad):
    crates = set(os.listdir(os.path.join(ROOT, "crates")))
    for path, text in sorted(texts.items()):
        if not re.match(r"(?:crates/\w+/(?:src|specs|proofs)|bench|oracle|tests|tools)/", path):
            continue
        for comment in re.findall(r"^\s*(?://+|--|#|\*) (.*)$", text, re.M):
            for name in re.findall(r"(?<![\w/])crates/[\w/.]*\w", comment):
                if not MADE.match(name) and not glob.glob(os.path.join(ROOT, name)) and not glob.glob(os.path.join(ROOT, name + ".*")):
                    bad.append(f"{path}: no path {name}")
            for crate in re.findall(r"\bcrate `?([a-z_0-9]+)`?", comment):
                if crate not in crates and crate not in PLAIN:
                    bad.append(f"{path}: no crate {crate}")
            for crate, module in re.findall(r"`([a-z_0-9]+)::([a-z_0-9]+)`", comment):
                if not has_module(crate, module):
                    bad.append(f"{path}: no module {crate}::{module}")


def main():
    texts = sources()
    words = file_names()
    for text in texts.values():
        words.update(re.findall(r"[A-Za-z_][\w-]*", text))
        words.update(re.findall(r"[A-Za-z_][\w'-]*", text))
    bad = []
    for doc in documents():
        whole = read(doc)
        check_lengths(doc, whole, bad)
        text = re.sub(r"^```.*?^```", "", whole, flags=re.M | re.S)
        check_names(doc, text, texts, words, bad)
        if doc == "docs/CLAIMS.md":
            check_claims(doc, text, texts, bad)
    if "--comments" in sys.argv[1:]:
        check_comments(texts, bad)
    for line in bad:
        print("names.py: " + line)
    print(f"names.py: {len(documents())} documents, {len(bad)} faults")
    return 1 if bad else 0


if __name__ == "__main__":
    sys.exit(main())
