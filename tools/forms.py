#!/usr/bin/env python3
"""Counts the forms that docs/DESIGN-PASS.md speaks of, in src/, and what proofs/ has of answers: `python3 tools/forms.py [FOLDER] [--list]`.

FOLDER is a checkout (this one if none is given); with --list each place is printed, as FILE:LINE.
"""
import pathlib
import re
import sys

FUNCTION = re.compile(r"^\s*(?:pub(?:\([a-z]+\))? )?fn (\w+)(?:<[^>]*>)?\((.*?)\)", re.S | re.M)
STRUCT = re.compile(r"struct \w+(?:<[^>]*>)? \{(.*?)^\}", re.S | re.M)
ENUM = re.compile(r"enum (\w+)(?:<[^>]*>)? \{(.*?)^\}", re.S | re.M)
LOOP = re.compile(r"^( *)(?:while|loop)\b([^\n]*)\{\n(.*?)^\1\}", re.S | re.M)
# functions that did what std or a derive does: copies, equality, order, conversions, tests of a byte
BY_HAND = r"(?:copy_(?:two|four|eight)|same(?:_bytes)?|stands_at|contains|larger|smaller|less|more|magnitude|join|checked|product|octets|is_multiple" \
    r"|as_i32|as_i64|coded|code|digit|is_digit|void|closed|no_base|failed|refuse|(?:run|word|base)_sign)"
STEP = re.compile(r"^ *(\w+)(?:\.\w+)? [+-]= (\w+);$", re.M)


def structs(text, wanted):
    return [m.start() for m in STRUCT.finditer(text) if wanted(m.group(1))]


def flag_and_value(body):
    """A field that says whether the others mean something."""
    return bool(re.search(r"\b(ok|is_sound|is_set|found|is_some): bool", body))


def number_or_none(body):
    """A field that is a refusal's number, or 0 for none."""
    return bool(re.search(r"\b(number|stop): u32", body))


def result_shaped(text):
    """An enum of two variants of which one says that there is nothing, or that it was refused."""
    return [m.start() for m in ENUM.finditer(text) if len(re.findall(r"^    \w+[^\n]*,$", m.group(2), re.M)) == 2]


def counting(text):
    """A loop whose own counter is raised by a step that does not depend on what was read."""
    found = []
    for m in LOOP.finditer(text):
        counters = {w for w, step in STEP.findall(m.group(3))}
        head = set(re.findall(r"\w+", m.group(2)))
        if counters & head:
            found.append(m.start())
    return found


def walking(text):
    counted = set(counting(text))
    return [m.start() for m in LOOP.finditer(text) if m.start() not in counted]


def functions(text, pattern):
    return [m.start() for m in FUNCTION.finditer(text) if re.search(pattern, " ".join(m.group(2).split()))]


def words(text, pattern):
    return [m.start() for m in re.finditer(pattern, text)]


def tested_indexes(text):
    """An index that is compared with the length before the element is taken: what `get` says."""
    return words(text, r"if (\w+) < (\w+)\.len\(\)[^{\n]*\{\n[^\n]*\b\2\[\1\]")


def clauses(text):
    """(name, requires clause) of each function that has one."""
    for m in re.finditer(r"\bfn (\w+)[^{]*?\brequires(?: \w+)? \{", text):
        at, depth = m.end(), 1
        while depth:
            depth += {"{": 1, "}": -1}.get(text[at], 0)
            at += 1
        yield m.group(1), text[m.end():at - 1]


def facts(files):
    """Facts that three functions or more ask of their callers, however they name what they speak of."""
    asked = {}
    for path in files:
        text = path.read_text()
        for name, clause in clauses(text):
            for fact in re.split(r"\)\s*×\s*\(?|\s×\s", " ".join(clause.split())):
                shape = re.sub(r"\b[a-z]\w*(?:\.\w+)*\.(?:now|old)\b", "_", fact.strip(" ()"))
                shape = re.sub(r"\b(?:self|[a-z]|id|at|len|left)(?:\.\w+)*\b", "_", shape)
                asked.setdefault(shape, []).append((path, name))
    return {shape: places for shape, places in asked.items() if len(places) >= 3}


def shapes(files):
    """Functions of four lines and more whose bodies are the same but for names and numbers."""
    found = {}
    for path in files:
        text = path.read_text()
        for m in re.finditer(r"^( *)(?:pub(?:\([a-z]+\))? )?fn (\w+).*?^\1\{\n(.*?)^\1\}", text, re.S | re.M):
            body = re.sub(r"//[^\n]*", "", m.group(3))
            if body.count("\n") < 4:
                continue
            names = {}
            shape = re.sub(r"\b\w+\b", lambda w: names.setdefault(w.group(), str(len(names))), " ".join(body.split()))
            found.setdefault(shape, []).append((path, text.count("\n", 0, m.start()) + 1))
    return {shape: places for shape, places in found.items() if len(places) >= 2}


FORMS = [
    ("1: structs of a flag and a value that it speaks of", lambda t: structs(t, flag_and_value)),
    ("1: constants of kinds used", lambda t: words(t, r"\bkind::[A-Z][A-Z_0-9]*\b")),
    ("1: constants of refusals used", lambda t: words(t, r"\brefusal::[A-Z][A-Z_0-9]*\b")),
    ("1: structs with a number that is 0 for none", lambda t: structs(t, number_or_none)),
    ("1: own enums of two variants", result_shaped),
    ("3: loops that count an index", counting),
    ("3: other loops by while", walking),
    ("4: functions that do what std or a derive does", lambda t: words(t, r"\bfn " + BY_HAND + r"\(")),
    ("4: conversions by From, equality and defaults by derive", lambda t: words(t, r"\bimpl From<|derive\([^)]*(?:PartialEq|Default)")),
    ("6: indexes tested by hand", tested_indexes),
    ("7: parameters and enums that choose a step", lambda t: words(t, r"\b(?:placing|has_table|is_set): bool\b|\benum (?:Each|Part)\b")),
    ("5: functions over a table and its section", lambda t: functions(t, r"\bb: TypeTable, section: &\[u8\]")),
    ("5: functions over a text and a place in it", lambda t: functions(t, r"\btext: &mut \[u8\], at: usize")),
]


def main():
    args = [a for a in sys.argv[1:] if not a.startswith("--")]
    root = pathlib.Path(args[0] if args else pathlib.Path(__file__).resolve().parent.parent)
    files = sorted(root.glob("crates/*/src/**/*.rt"))
    for name, find in FORMS:
        places = []
        for path in files:
            text = path.read_text()
            places += [(path, text.count("\n", 0, at) + 1) for at in find(text)]
        print(f"{len(places):5} in {len({p for p, _ in places}):3} files  {name}")
        if "--list" in sys.argv:
            for path, line in places:
                print(f"        {path.relative_to(root)}:{line}")
    answers = sorted(root.glob("crates/*/proofs/**/Answers.antt"))
    given = sum(len(re.findall(r"^pub ", path.read_text(), re.M)) for path in answers)
    print(f"{given:5} in {len(answers):3} files  8: answers of goals")
    for name, groups in (("5: facts that three functions or more ask", facts(files)), ("2: bodies of one shape", shapes(files))):
        print(f"{len(groups):5} in {sum(map(len, groups.values())):3} functions  {name}")
        if "--list" in sys.argv:
            for shape, places in groups.items():
                print(f"        {shape[:120]}: " + ", ".join(f"{p.relative_to(root)}:{what}" for p, what in places))


if __name__ == "__main__":
    main()
