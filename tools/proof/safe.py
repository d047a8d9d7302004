#!/usr/bin/env python3
"""Fills the start of a proof that the check printed with the usual answers.

    tools/proof/safe.py CRATE FOLDER [--inv TERM] [--mu TERM] [--mu NAME=TERM ..]
                        [--finv F=TERM ..] [--fmu F=TERM ..] [--set NEED=TERM ..] [--use LINE ..]

FOLDER is the function's folder below crates/CRATE/proofs. --inv and --mu: the loop's invariant and measure; in a cycle
of calls --mu NAME=TERM is the measure of the function NAME, --finv and --fmu those of the loop of F. --set answers one
need, --use adds an import. Arithmetic needs get `omega arith`, all others `search needs`.
"""
import re
import sys


def options(words):
    got = {k: [] for k in ("--inv", "--mu", "--finv", "--fmu", "--set", "--use")}
    for k, v in zip(words[0::2], words[1::2]):
        got[k].append(v)
    return got


def name_claims(s):
    """In a cycle the printed lines repeat the callees' claims at each need: names them once."""
    defs = ""
    for f in dict.fromkeys(re.findall(r"(\S+)-lts\.Need-", s)):
        m = re.search(re.escape(f) + r"-lts\.Need-\S+ (\((?:[^()]*)\)) \(" + re.escape(f) + r"-at t\)", s)
        if m:
            s = s.replace(m.group(1), f"({f}-claims t)").replace(f"({f}-claims t)\n    (", f"({f}-claims t) (")
            defs += f"abbrev {f}-claims : ℕ → {f}-lts.Claims\n{f}-claims t = " + m.group(1).replace("\n", "\n    ") + "\n\n"
    at = [s.index("\n-- src/")] + [s.find("\nabbrev " + x) for x in re.findall(r"^abbrev (\S+-Inv-\S+)", s, re.M)]
    i = min(a for a in at if a > 0)
    s = s[: i + 1] + defs + s[i + 1 :]
    for m in re.findall(r"^abbrev μ-(\S+) :", s, re.M):
        s = re.sub(r"(\S+-" + re.escape(m) + r"-requires\S* t c κs) = \?", r"\1 = (omega arith, tt)", s)
    return s


def put(s, pattern, term):
    return re.sub(pattern, lambda m: m.group(1) + " = " + term, s, flags=re.M)


def usual(m):
    arith = r"(^|-)(add|mul|sub|div|rem|cast|shared-slice-read|slice-read|slice-write|part)-|-less"
    return m.group(0)[:-1] + ("omega arith" if re.search(arith, m.group(1)) else "search needs")


def imports(s, terms, more):
    lines = list(more)
    if "omega" in s:
        lines.append("use native.Mathlib.Omega.{arith}")
    if "search needs" in s:
        lines.append("use borrow.Author.Needs.{needs}")
    if "≡" in terms:
        lines.append("use mathlib.Core.Path.{_≡_}")
    if "length " in terms:
        lines.append("use lib.ListN.{length}")
    nat = [f"_{o}_" for o in "≤<+-*" if f" {o} " in terms]
    old = re.search(r"^use Prim.Native.Nat.\{([^}]*)\}$", s, re.M)
    if nat and old:
        have = [x.strip() for x in old.group(1).split(",")]
        both = have + [x for x in nat if x not in have]
        s = s.replace(old.group(0), "use Prim.Native.Nat.{" + ", ".join(both) + "}")
    elif nat:
        lines.append("use Prim.Native.Nat.{" + ", ".join(nat) + "}")
    return "".join(x + "\n" for x in lines if x not in s) + s


def main():
    crate, folder, o = sys.argv[1], sys.argv[2], options(sys.argv[3:])
    path = f"crates/{crate}/proofs/{folder}/Proof.antt"
    s = open(path).read()
    if "PlainCycle" in s and "-- src/" in s:
        s = name_claims(s)
    s = re.sub(r"^-- src/.*\n", "", s, flags=re.M)
    for v in o["--inv"]:
        s = put(s, r"^(\S*Inv-loop\S* [^\n]*) = \?$", v)
    for flag, part in (("--finv", "Inv"), ("--fmu", "μ")):
        for f, v in (x.split("=", 1) for x in o[flag]):
            s = put(s, r"^(" + re.escape(f) + "-" + part + r"-loop\S* [^\n]*) = \?$", v)
    for v in o["--mu"]:
        named = re.match(r"^([\w\-]+)=(.*)$", v)
        s = put(s, r"^(μ-" + re.escape(named.group(1)) + r" κs a) = \?$", named.group(2)) if named else put(s, r"^(\S*μ-loop\S* [^\n]*) = \?$", v)
    for need, v in (x.split("=", 1) for x in o["--set"]):
        s = put(s, r"^(" + re.escape(need) + r"(?: t)? c(?: κs)?) = .*$", v)
    s = re.sub(r"^(\S+)(?: t)? c(?: κs)? = \?$", usual, s, flags=re.M)
    terms = " ".join(sum((o[k] for k in ("--inv", "--mu", "--finv", "--fmu")), []))
    open(path, "w").write(imports(s, terms, o["--use"]))


main()
