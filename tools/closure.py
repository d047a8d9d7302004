#!/usr/bin/env python3
"""Counts what must be believed to read the claims: the files of specs/ that the statements of demands 1 to 3 import, directly or not.

  tools/closure.py [-v]       exits with 1 where a count is over its limit; -v lists the files

The libraries of the kit are not counted. Comments and blank lines are, so a limit is one of what a reader has before them. A file must stand in a
crate that has definitions only (its name starts with spec_ or is claims, and its src/ has no function but those of an `impl`: conversions of
a type from and to its number stand where the type is), and name no struct of the code.
"""
import os
import re
import sys

HERE = os.path.dirname(os.path.dirname(os.path.abspath(__file__)))
STATEMENTS = ["crates/claims/specs/Demand1.antt", "crates/claims/specs/Demands.antt"]
MOST_FILES = 36
MOST_LINES = 3600
USE = re.compile(r"^\s*(?:unfoldable )?(?:pub )?use\s+Rattle\.(\w+?)\.(specs|proofs)\.([\w.]+?)(?:\.\{|\s+as\b|\s*$)")


def imports(path):
    """The files that a file imports, and the structs of the code that it names."""
    files, structs = [], []
    for line in open(os.path.join(HERE, path), encoding="utf-8"):
        found = USE.match(line)
        if not found:
            continue
        crate, kind, module = found.groups()
        if not os.path.isdir(os.path.join(HERE, "crates", crate)):
            continue
        if module.startswith("declared"):
            structs.append(f"{crate}: {module}")
        else:
            files.append(f"crates/{crate}/{kind}/{module.replace('.', '/')}.antt")
    return files, structs


def closure(roots):
    """All files that the roots import, with their lines, and all structs that these name."""
    lines, structs, todo = {}, set(), list(roots)
    while todo:
        path = todo.pop()
        if path in lines:
            continue
        with open(os.path.join(HERE, path), encoding="utf-8") as file:
            lines[path] = len(file.read().splitlines())
        files, named = imports(path)
        structs.update(named)
        todo += files
    return lines, structs


def has_code(crate):
    """Whether src/ of a crate has a function that stands by itself."""
    for folder, _, files in os.walk(os.path.join(HERE, "crates", crate, "src")):
        for name in files:
            if re.search(r"^(pub )?(extern \"C\" )?fn ", open(os.path.join(folder, name), encoding="utf-8").read(), re.M):
                return True
    return False


def main():
    lines, structs = closure(STATEMENTS)
    crates = sorted({path.split("/")[1] for path in lines})
    over = []
    if len(lines) > MOST_FILES:
        over.append(f"more than {MOST_FILES} files")
    if sum(lines.values()) > MOST_LINES:
        over.append(f"more than {MOST_LINES} lines")
    over += [f"{crate} is not in the layer of definitions" for crate in crates if not (crate.startswith("spec_") or crate == "claims") or has_code(crate)]
    over += [f"a struct of the code is named, {name}" for name in sorted(structs)]
    over += [f"{path} is a proof" for path in sorted(lines) if "/proofs/" in path]
    print(f"demands 1 to 3 are stated in {len(lines)} files of {sum(lines.values())} lines: {', '.join(crates)}")
    if "-v" in sys.argv:
        for path in sorted(lines):
            print(f"{lines[path]:6} {path}")
    for what in over:
        print(f"closure: {what}")
    sys.exit(1 if over else 0)


if __name__ == "__main__":
    main()
