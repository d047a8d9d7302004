#!/usr/bin/env python3
"""Turns the repository's own definitions and lemmas to the spelling of the kit's PORTING.md: words in snake case.

usage: tools/spelling.py [FOLDER]      once, after the kit's port.py; FOLDER is the top of the repository

camelCase and dashed names that specs/ and proofs/ declare become snake case, in .antt files, in the clauses and `ghost use`
items of .rt files and in the edits. A name with a capital first, a generated label (behind a dot, where no record of the
repository has such a field) and a name that a file imports from the library stay. Where two names fall together in a file,
the lemma gets `_lem` or the table OTHER below gives a name. Functions of src/, exported names and strings keep theirs.
"""

import collections
import os
import re
import sys

WORD = re.compile(r'[^\s(){}.;,@"«»]+')
QUOTED = re.compile(r'"[^"\n]*"')
COMMENT = re.compile(r'(?<![^\s(){}.;,@"«»])--[^\n]*')
DECLARED = re.compile(
    r"(?m)^\s*(?:abbrev |unfoldable |pub |private )*(?:(?:data|record|ruleset)\s+)?"
    r'([^\s(){}.;,@"«»]+)(?:\s+[({][^:\n]*:[^)}\n]*[)}])*\s*:(?!=)'
)
USE = re.compile(r"(?m)^\s*(?:pub |unfoldable |ghost )*use\s+([^\s{;]+?)\.?(?:\{([^}]*)\})?(?:\s+as\s+(\S+))?;?\s*$")
CLAUSE = re.compile(r"\b(?:requires|ensures|ghost)\b[^{;\n]*\{")
# The names of the documentation that are fields of the code too, and what else falls together with a name of another kind.
OTHER = {
    "hdrLen": "hdr_len_of",
    "typeOff": "type_off_of",
    "typeLen": "type_len_of",
    "strOff": "str_off_of",
    "strLen": "str_len_of",
    "bigEndian": "is_big_endian",
    "bit-size": "bit_size",
    "bitSize": "bit_size_of",
    "nextOne": "called_one",
    "nextAll": "called_all",
    "nextList": "called_list",
}
# A field of the rules' session and one of the claims' records: they stand behind different heads.
BESIDE = {"isOpen"}


def part(p):
    if not p or p[0].isupper():
        return p
    return re.sub(r"([a-z0-9₀-₉])([A-Z]+)", lambda m: m[1] + "_" + m[2].lower(), p)


def snake(name):
    """The spelling by the rules: each part in snake case, joined by `_`; a dash stays beside a part that begins with a capital."""
    if name[0].isupper() or not re.fullmatch(r"[\w'₀-₉⁰-⁹-]+", name) or not re.search("[A-Za-z]", name):
        return name
    parts = [part(p) for p in name.split("-")]
    out = parts[0]
    for a, b in zip(parts, parts[1:]):
        out += ("_" if a and b and not a[0].isupper() and not b[0].isupper() else "-") + b
    return out


def files(top):
    for folder, folders, names in os.walk(os.path.join(top, "crates")):
        folders[:] = sorted(f for f in folders if f != "out")
        for name in sorted(names):
            if name.endswith((".antt", ".rt", ".edit")):
                yield os.path.join(folder, name)
    for folder, _, names in os.walk(os.path.join(top, "tests", "edits")):
        for name in sorted(names):
            if name.endswith(".edit"):
                yield os.path.join(folder, name)


def heads(text):
    """The words that do not stand behind a dot."""
    return {m[0] for m in WORD.finditer(text) if m.start() == 0 or text[m.start() - 1] != "."}


def foreign(text, own):
    """The names that a file takes from modules that are not the repository's."""
    out = set()
    for m in USE.finditer(text):
        crate = m[1].split(".")
        if m[2] and not (crate[0] == "Rattle" and len(crate) > 1 and crate[1] in own):
            for item in m[2].split(","):
                words = item.split()
                if words:
                    out.add(words[-1])
                    if len(words) == 1:
                        out.add(words[0])
    return out


def fields_of(text):
    """The names declared inside a record or a data: they may stand behind a dot."""
    out, inside = set(), False
    for line in text.split("\n"):
        if re.match(r"\s*(pub |unfoldable |abbrev )*(record|data)\b", line):
            inside = True
        elif line and not line[0].isspace():
            inside = False
        elif inside:
            m = DECLARED.match(line)
            if m:
                out.add(m[1])
    return out


class Spelling:
    def __init__(self, top):
        self.top = top
        self.own = set(os.listdir(os.path.join(top, "crates")))
        self.text, self.declared, self.fields = {}, collections.defaultdict(list), set()
        for path in files(top):
            with open(path, encoding="utf-8") as f:
                self.text[path] = f.read()
            if path.endswith(".antt"):
                bare = COMMENT.sub("", self.text[path])
                self.fields |= fields_of(bare)
                for m in DECLARED.finditer(bare):
                    self.declared[m[1]].append(path)
        self.table = {n: OTHER.get(n, snake(n)) for n in self.declared}
        self.apart()

    def apart(self):
        """Where a dashed lemma and another name of one file fall together, the lemma gets `_lem`."""
        self.local = collections.defaultdict(dict)
        for path, text in self.text.items():
            if not path.endswith(".antt") or path.endswith("/Proof.antt"):
                continue
            groups = collections.defaultdict(set)
            bare = COMMENT.sub("", text)
            for w in heads(bare):
                groups[self.table.get(w, snake(w))].add(w)
            for new, words in groups.items():
                if len(words) < 2 or words & BESIDE:
                    continue
                dashed = [w for w in words if "-" in w and w in self.table]
                if dashed and len(dashed) < len(words):
                    for w in dashed:
                        self.table[w] = snake(w) + "_lem"
                elif new in words and new in self.declared and path in self.declared[new]:
                    self.scoped(path, bare, new)
                else:
                    print(f"look: {path}: {sorted(words)} fall together")

    def scoped(self, path, bare, name):
        """A lemma that has its snake case already: it gets `_lem` in its file and where a file takes it from there."""
        module = "Rattle." + os.path.relpath(path, os.path.join(self.top, "crates"))[:-5].replace("/", ".")
        for other, text in self.text.items():
            takes = other == path
            for m in USE.finditer(text) if other.endswith(".antt") else ():
                takes = takes or m[1] == module and m[2] and name in [i.split()[0] for i in m[2].split(",") if i.split()]
            if takes:
                self.local[other][name] = name + "_lem"
                print(f"here: {other}: {name} is {name}_lem")

    def new_word(self, path, word, dotted, kept):
        if word in kept and not dotted:
            return word
        if dotted:
            return self.table.get(word, word) if word in self.fields or word in self.modules else word
        if word in self.local[path]:
            return self.local[path][word]
        if word in self.table:
            return self.table[word]
        return word

    def antt(self, path, text):
        bare = COMMENT.sub("", text)
        kept = foreign(bare, self.own)
        # names of whole modules of the repository, behind whose dot a declared name stands
        self.modules = set()
        aliases = set()
        for m in USE.finditer(bare):
            end = m[1].split(".")[-1]
            if m[2] is None and not re.fullmatch(r"Tie|Reads|Lts|Statement|Given|Goals|TheVariants|Cycle", end):
                aliases.add(m[3] or end)
        here = heads(bare)
        here |= {self.table[w] for w in here if w in self.table}

        def word(m):
            at = m.start()
            dotted = at > 0 and text[at - 1] == "."
            if dotted:
                head = re.search(r'([^\s(){}.;,@"«»]+)\.$', text[:at][-200:])
                if head and head[1] in aliases and m[0] in self.table:
                    return self.table[m[0]]
                return self.new_word(path, m[0], True, kept)
            new = self.new_word(path, m[0], False, kept)
            if new == m[0] and m[0] not in kept and m[0] not in self.table and snake(m[0]) not in here and not path.endswith("/Proof.antt"):
                return snake(m[0])  # a variable
            return new

        out, at = [], 0
        for m in COMMENT.finditer(text):
            out.append(self.turn(text, at, m.start(), word))
            out.append(self.comment(m[0]))
            at = m.end()
        out.append(self.turn(text, at, len(text), word))
        return "".join(out)

    def turn(self, text, start, end, word):
        """The words of text[start:end] turned, but for those in quotes."""
        out, at = [], start
        quoted = [(m.start(), m.end()) for m in QUOTED.finditer(text, start, end)]
        for m in WORD.finditer(text, start, end):
            if any(a <= m.start() < b for a, b in quoted):
                continue
            out.append(text[at : m.start()])
            out.append(word(m))
            at = m.end()
        out.append(text[at:end])
        return "".join(out)

    def comment(self, text):
        """In a comment a name in camel case turns; a dashed one may be two words of prose."""
        return re.sub(
            r"(?<![\w.-])[a-z]\w*[A-Z]\w*(?![\w-])",
            lambda m: self.table.get(m[0], m[0]),
            text,
        )

    def rt(self, path, text):
        out, at = [], 0

        def word(m):
            at = m.start()
            dotted = at > 0 and m.string[at - 1] == "."
            return self.new_word(path, m[0], dotted, ())

        self.modules = set()
        spans = []
        for m in re.finditer(r"(?m)^\s*ghost use [^;]*;", text):
            spans.append((m.start(), m.end()))
        for m in CLAUSE.finditer(text):
            depth, end = 1, m.end()
            while depth and end < len(text):
                depth += {"{": 1, "}": -1}.get(text[end], 0)
                end += 1
            spans.append((m.end(), end))
        spans.sort()
        for start, end in spans:
            if start < at:
                continue
            out.append(self.comment_rt(text[at:start]))
            out.append(self.turn(text, start, end, word))
            at = end
        out.append(self.comment_rt(text[at:]))
        return "".join(out)

    def comment_rt(self, text):
        return re.sub(r"//[^\n]*", lambda m: self.comment(m[0]), text)

    def edit(self, path, text):
        self.modules = set()

        def word(m):
            dotted = m.start() > 0 and m.string[m.start() - 1] == "."
            if "-" in m[0] and m[0] not in self.declared:
                return m[0]
            return self.new_word(path, m[0], dotted, ())

        spec = False
        out = []
        for line in text.split("\n"):
            if line.startswith("file:"):
                spec = line.rstrip().endswith(".antt")
            elif line.startswith(("old:", "new:")) and (spec or re.search("requires|ensures|≡|ghost", line)):
                line = line[:4] + self.turn(line, 4, len(line), word)
            out.append(line)
        return "\n".join(out)

    def run(self):
        n = 0
        for path, text in self.text.items():
            new = {"antt": self.antt, "rt": self.rt, "edit": self.edit}[path.rsplit(".", 1)[1]](path, text)
            if new != text:
                n += 1
                with open(path, "w", encoding="utf-8") as f:
                    f.write(new)
        turned = {a: b for a, b in self.table.items() if a != b}
        print(f"{len(turned)} names in {n} files")
        for a in sorted(turned):
            if turned[a] != snake(a):
                print(f"{a}\t{turned[a]}")


if __name__ == "__main__":
    Spelling(sys.argv[1] if len(sys.argv) > 1 else ".").run()
