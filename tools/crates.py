#!/usr/bin/env python3
"""Puts crates.txt into the order in which rt checks it best: crates of one level together, the longest first.

  tools/crates.py LOG     LOG is what rt ci or rt check printed, from nothing

rt checks the crates of a level, which need nothing of each other, a few at a time, and waits for all of these before it starts the next few. So
those that stand side by side should take about as long.
"""
import os
import re
import sys

HERE = os.path.dirname(os.path.dirname(os.path.abspath(__file__)))


def main():
    path = os.path.join(HERE, "crates.txt")
    text = open(path).read()
    head = text[:text.index("# level 0")]
    lines = [line.split("#")[0].strip() for line in text.split("\n")]
    needs = {name.strip(): deps.split() for name, deps in (line.split(":") for line in lines if line)}
    took = {name: int(n) for name, n in re.findall(r"^rt: (\w+) proved \((\d+) s\)", open(sys.argv[1]).read(), re.M)}
    level = {}

    def level_of(name):
        if name not in level:
            level[name] = max((level_of(d) + 1 for d in needs[name] if d in needs), default=0)
        return level[name]

    order = sorted(needs, key=lambda name: (level_of(name), -took.get(name, 5), name))
    with open(path, "w") as out:
        out.write(head)
        for i, name in enumerate(order):
            if i == 0 or level[name] != level[order[i - 1]]:
                out.write(f"# level {level[name]}\n")
            out.write(f"{name}: {' '.join(needs[name])}\n".replace(": \n", ":\n"))


if __name__ == "__main__":
    main()
