#!/usr/bin/env python3
"""Counts what keeps the crates readable, one line a count, and exits 1 where a count is over its limit.

  tools/house.py [-v]     -v names each place that is counted

Looked at: src/*.rt and specs/*.antt of every crate; files whose first line says that a script wrote them are left aside. An attribute may be
longer than a line: rt fmt keeps it in one.
"""
import glob
import os
import re
import sys

ROOT = os.path.dirname(os.path.dirname(os.path.abspath(__file__)))
COLUMNS, FUNCTION, FILE, CRATES, PARAMETERS = 140, 40, 500, 40, 8

# What has a name is not written as a number, except where it gets its name.
BARE = [
    ("a refusal", r"\b(?:stop|stop_at|refused)\((?:[^()]|\([^()]*\))*,\s*[1-9]\d*\)"),
    ("a refusal", r"\b(?:turn_of|tally_of)\(\w+,\s*[1-9]"),
    ("a refusal", r"::(?:No|Refused)\([1-9]"),
    ("a word of a type", r"\b(?:get|put)_field\((?:[^(),]|\([^()]*\))*,(?:[^(),]|\([^()]*\))*,\s*\d+"),
    ("a word of a holder", r"\bholder_word\([^,]*,\s*[1-9]"),
    ("a kind", r"\bkind_of\([^()]*\)\s*[=!]=\s*\d+"),
    ("a kind", r"\bkind\s*[=!]=\s*[1-9]"),
    ("a limit", r"\b(?:262144|262145|1073741824|47244640256)\b"),
    ("a power of two", r"\b(?:4294967295|4294967296)\b"),
]


def text_of(path):
    with open(path) as f:
        return f.read()


def by_script(text):
    return "ritten by tools/" in text.split("\n", 1)[0]


def crates():
    lines = [line.split("#")[0].strip() for line in text_of(os.path.join(ROOT, "crates.txt")).split("\n")]
    return [line.split(":")[0].split()[0] for line in lines if line]


def sources(part, ending):
    for path in sorted(glob.glob(os.path.join(ROOT, "crates", "*", part, "**", "*." + ending), recursive=True)):
        text = text_of(path)
        if not by_script(text):
            yield os.path.relpath(path, ROOT), text


def functions(text):
    """(name, line, number of parameters, lines between the braces of the body); the formatter closes a body by a brace in the indent of its fn."""
    lines = text.split("\n")
    for n, line in enumerate(lines):
        m = re.match(r'^(\s*)(?:pub )?(?:extern "C" )?fn (\w+)', line)
        if not m:
            continue
        end = next(i for i in range(n, len(lines)) if lines[i].rstrip() == m.group(1) + "}" or (i == n and lines[i].endswith("}")))
        head = " ".join(lines[n:end + 1])
        depth, i = 1, head.index("(") + 1
        start = i
        while depth:
            depth += {"(": 1, ")": -1}.get(head[i], 0)
            i += 1
        given = [p for p in head[start:i - 1].split(",") if p.strip()]
        opened = next((k for k in range(n, end) if lines[k].rstrip() == m.group(1) + "{"), None)
        if opened is None:
            opened = next((k for k in range(n, end) if lines[k].endswith("{") and not re.match(r"\s*(ensures|requires) ", lines[k])), n)
        yield m.group(2), n + 1, len(given), max(0, end - opened - 1)


def asking(text):
    """(name, line) of the public functions that ask something of their callers."""
    for m in re.finditer(r'(?m)^( *)pub (?:extern "C" )?fn (\w+)', text):
        head = text[m.start():text.find("\n" + m.group(1) + "{\n", m.start())]
        if re.search(r"\n\s+requires \{", head):
            yield m.group(2), text.count("\n", 0, m.start()) + 1


def code_lines(text):
    """The lines of code: no comment, no contract, no import, no constant."""
    clause = False
    for n, line in enumerate(text.split("\n"), 1):
        bare = line.split("//")[0]
        clause = clause or re.match(r"\s*((ensures|requires|invariant|measure)\*?( \w+)?|ghost \w+:) \{", bare) is not None
        if not clause and not re.match(r"\s*((pub )?const |(ghost )?use )", bare):
            yield n, bare
        if clause and bare.rstrip().endswith("}"):
            clause = False


def edits():
    """Edits whose old text is not exactly once in the file that they name: they would try nothing."""
    found = glob.glob(os.path.join(ROOT, "crates", "*", "must-fail", "*.edit")) + glob.glob(os.path.join(ROOT, "tests", "edits", "*", "*.edit"))
    for path in sorted(found):
        crate = path.split(os.sep)[-3] if "must-fail" in path else path.split(os.sep)[-2]
        text = ""
        for line in text_of(path).split("\n"):
            if line.startswith("file: "):
                file = os.path.join(ROOT, "crates", crate, line[6:])
                text = text_of(file) if os.path.exists(file) else ""
            elif line.startswith("old: ") and text.count(line[5:]) != 1:
                yield os.path.relpath(path, ROOT)


def main():
    code = list(sources("src", "rt"))
    both = code + list(sources("specs", "antt"))
    all_functions = [(path,) + f for path, text in code for f in functions(text)]
    names = set(crates())
    bare = []
    for path, text in code:
        for n, line in code_lines(text):
            bare += [f"{path}:{n}: {what}: {line.strip()}" for what, pattern in BARE if re.search(pattern, line)]
    counts = [
        ("crates", sorted(names), CRATES),
        (f"lines over {COLUMNS} columns", [f"{p}:{n}" for p, t in both for n, l in enumerate(t.split("\n"), 1)
                                              if len(l) > COLUMNS and not l.lstrip().startswith(("#[tactic(", "#![tactic("))], 0),
        (f"functions over {FUNCTION} lines", [f"{p}:{n}: {f}, {size}" for p, f, n, _, size in all_functions if size > FUNCTION], 0),
        (f"files over {FILE} lines", [f"{p}: {t.count(chr(10))}" for p, t in both if t.count("\n") > FILE], 0),
        (f"functions with more than {PARAMETERS} parameters", [f"{p}:{n}: {f}, {k}" for p, f, n, k, _ in all_functions if k > PARAMETERS], 0),
        ("public functions with a requires", [f"{p}:{n}: {f}" for p, t in code for f, n in asking(t)], 0),
        ("numbers that have a name", bare, 0),
        ("functions that do nothing", [f"{p}: {s}" for p, t in code for s in re.findall(r"fn same\(x: \w+\) -> \w+", t)], 0),
        ("modules with the name of a crate", [p for p, _ in both if os.path.basename(p).rsplit(".", 1)[0] in names], 0),
        ("edits without their text", list(edits()), 0),
    ]
    over = False
    for what, found, limit in counts:
        too_many = limit is not None and len(found) > limit
        over = over or too_many
        print(f"{what}: {len(found)}" + (f" (at most {limit})" if limit else "") + (" OVER" if too_many else ""))
        if "-v" in sys.argv or (too_many and what != "crates"):
            for place in found[:None if "-v" in sys.argv else 10]:
                print(f"  {place}")
    sys.exit(1 if over else 0)


main()
