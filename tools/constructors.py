#!/usr/bin/env python3
"""Gives back their own names to definitions and constructors of specs/ that tools/spelling.py took for lemmas (`_lem`), since a
definition of the same name stands beside them in one file. Run once, after tools/spelling.py, at the top of the repository."""

import os
import re

# the name that spelling.py gave, and the name now; in the one file where both are in scope the constructor comes `as` itself
TABLE = {
    "decl_tag_lem": "decl_tag",
    "no_params_lem": "no_params",
    "member_offset_lem": "member_offset_bits",
    "bit_field_lem": "bit_field",
}
BESIDE = "crates/spec_cut/proofs/section/Lines.antt"
SAMPLES = "crates/spec_c_dumper/specs/rules/Samples.antt"


def main():
    for top in ("crates", "tests/edits"):
        for folder, folders, names in os.walk(top):
            folders[:] = [f for f in folders if f != "out"]
            for name in names:
                path = os.path.join(folder, name)
                if not name.endswith((".antt", ".edit")):
                    continue
                with open(path, encoding="utf-8") as f:
                    text = f.read()
                new = text
                for old, now in TABLE.items():
                    if path == SAMPLES and old == "bit_field_lem":
                        now = "is_bit_field"
                    if path == BESIDE and old != "member_offset_lem":
                        first = True
                        def one(m, now=now):
                            nonlocal first
                            mine = {"decl_tag": "its_decl_tag", "no_params": "none_shown"}[now]
                            if first:
                                first = False
                                return f"{now} as {mine}"
                            return mine
                        new = re.sub(rf"\b{old}\b", one, new)
                    else:
                        new = re.sub(rf"\b{old}\b", now, new)
                if new != text:
                    with open(path, "w", encoding="utf-8") as f:
                        f.write(new)


main()
