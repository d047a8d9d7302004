#!/bin/bash
# The tests outside the language, on the static library and the program that are built: run.sh
# Each prints one line; any failure ends the script with a status that is not 0. What needs nothing of each other runs at the same time.
set -euo pipefail
cd "$(dirname "$0")/.."

library=crates/btfdump_c/out/libbtfdump_c.a
[ -f "$library" ] || { echo "run.sh: build $library first: (cd crates/btfdump_c && rt lib)" >&2; exit 1; }
built=crates/btfdump/out/btfdump
[ -f "$built" ] || { echo "run.sh: build $built first: (cd crates/btfdump && rt run <stdin)" >&2; exit 1; }
out=build/tests
mkdir -p "$out"

compile() { # NAME SOURCE FLAG ..
	local name=$1 source=$2
	shift 2
	gcc -std=c11 -O2 -g -Wall -Wextra -Werror "$@" -Iinclude "$source" "$library" -lpthread -o "$out/$name"
}
at_once=()
start() { # COMMAND ..: beside this script; what it says is kept
	"$@" >"$out/said.${#at_once[@]}" 2>&1 &
	at_once+=($!)
}
finish() { # waits for what was started, and prints what each said
	local i
	for i in "${!at_once[@]}"; do
		wait "${at_once[$i]}" || { cat "$out/said.$i" >&2; exit 1; }
		cat "$out/said.$i"
	done
	at_once=()
}

for name in replay limits guard lists ceilings causes field declarations cut visits program stack; do start compile "$name" "tests/$name.c"; done
start compile btfheader tools/btfheader.c
finish

# the example of the README, on the sample section
sed -n '/^```c$/,/^```$/p' README.md | sed '/^```/d' >"$out/readme.c"
compile readme "$out/readme.c"
"$out/readme" <tests/sample/node.btf | cmp - tests/sample/node.h
echo "README: its example prints the sample"

python3 tests/traps.py --check
python3 -B tests/words.py "$library"
needs=$(nm -u "$library" | awk '$1 == "U" { print $2 }' | sort -u | tr '\n' ' ')
[ "$needs" = "memset " ] || { echo "run.sh: of the C library the archive needs ${needs}and not memset alone" >&2; exit 1; }
echo "library: of the C library it needs memset alone"

shopt -s nullglob
# by chance: tables with references of all kinds; names that meet, in both naming modes, with the texts that Python computes
python3 -B tests/tables.py "$out/tables.cases" 100
python3 -B tests/names.py "$out/names.cases" 100
files=(tests/*.cases oracle/*.cases "$out/tables.cases")
say() { # LABEL COMMAND ..
	local line
	line=$("${@:2}") || { echo "$line" >&2; exit 1; }
	echo "$1: $line"
}
# a struct over 20 unions, each twice in the next, and an array and a pointer: the count is taken in Python, over what the alignment of the struct needs
PYTHONPATH=tests python3 -B - "$out/unions.btf" >"$out/unions.txt" <<'END'
import sys
from sections import Table
t = Table()
ways = {}               # of each type, its members or what its alignment is that of
inner = t.int()
ways[inner] = []
other = t.ptr(inner)    # its target is not looked at
ways[other] = []
for i in range(20):
    outer = t.union("u%d" % i, 4, ("a", inner, 0), ("b", inner, 0))
    ways[outer] = [inner, inner]
    inner = outer
row = t.array(inner, 3)
ways[row] = [inner]
name = t.typedef("n", row)
ways[name] = [row]
top = t.struct("S", 24, ("p", other, 0), ("r", name, 64), ("u", inner, 160))
ways[top] = [other, name, inner]
members = lambda i: len(ways[i]) if i == top or i not in (row, name) else 0
seen, left = set(), [top]
while left:
    i = left.pop()
    if i not in seen:
        seen.add(i)
        left += ways[i]
open(sys.argv[1], "wb").write(t.section())
print(sum(1 + members(i) for i in seen), top)
END
# the program as LLVM builds it; and as Rattle's own compiler does, where rt ci left that too
start "$out/program" "$built" crates/btfdump_replay/data/*.btf "${files[@]}"
[ ! -f "$built.by-rattle" ] || start "$out/program" "$built.by-rattle" crates/btfdump_replay/data/*.btf
start "$out/causes" "${files[@]}" "$out/names.cases"
for file in "${files[@]}" "$out/names.cases"; do
	start say "$file" "$out/replay" "$file"
	start say "$file, most significant byte first" "$out/replay" -b "$file"
done
start "$out/limits"
for name in lists ceilings field cut visits; do start "$out/$name" "${files[@]}"; done
start "$out/declarations"
start "$out/stack" tests/limits.cases
start "$out/visits" -k $(cat "$out/unions.txt") "$out/unions.btf"
start "$out/guard" 20000 1 "${files[@]}"
if command -v valgrind >/dev/null; then
	start say valgrind valgrind -q --error-exitcode=1 "$out/guard" 300 1 tests/traps.cases
fi
start python3 -B tests/placing.py "$out/btfheader" "$out"
finish

# btfheader: prints, of a file, of standard input, of ids, and refuses with a status and words.
header() { # WHAT STATUS EXPECTED-TEXT ARGUMENT ..
	local what=$1 status=$2 expected=$3 got=0
	shift 3
	"$out/$program" "$@" >"$out/header.txt" 2>"$out/header.err" || got=$?
	if [ "$got" != "$status" ] || ! cmp -s "$out/header.txt" "$expected" ||
		{ [ "$status" != 0 ] && ! [ -s "$out/header.err" ]; }; then
		echo "$program: $what: status $got, expected $status" >&2
		cat "$out/header.err" >&2
		exit 1
	fi
}
node=tests/sample/node.btf text=tests/sample/node.h
printf 'struct node {\n\tstruct node *next;\n\tint: 32;\n\tint v;\n};\n\n' >"$out/narrow.h"
# a section of 100 bytes with 3 MB of text: pads before a far member
PYTHONPATH=tests python3 -B - "$out" <<'END'
import sys
from sections import Table
t = Table()
t.int()
t.struct("S", 2097160, ("b", 1, 16777248))
open(sys.argv[1] + "/far.btf", "wb").write(t.section())
pads = "\tlong: 32;\n" + "\tlong: 64;\n" * 262144
open(sys.argv[1] + "/far.h", "w").write("struct S {\n" + pads + "\tint b;\n};\n\n")
t = Table()
for name in ("x", "x", "x___2"):
    t.struct(name, 0)
open(sys.argv[1] + "/met.btf", "wb").write(t.section())
for name, second in (("met", 2), ("apart", 3)):
    open(f"{sys.argv[1]}/{name}.h", "w").write("struct x {};\n\nstruct x___%d {};\n\nstruct x___2 {};\n\n" % second)
END
programs=(btfheader)
if echo 'int main(void){return 0;}' | gcc -xc -fsanitize=address,undefined - -o "$out/probe" 2>/dev/null; then
	compile btfheader_sanitized tools/btfheader.c -fsanitize=address,undefined -fno-sanitize-recover=all
	programs+=(btfheader_sanitized)
fi
for program in "${programs[@]}"; do
	header "a file" 0 "$text" "$node"
	header "standard input" 0 "$text" - <"$node"
	header "standard input by default" 0 "$text" --union-as-struct <"$node"
	header "a table without arrays, strong" 0 "$text" --strong-arrays "$node"
	header "names that meet" 0 "$out/met.h" "$out/met.btf"
	header "names apart" 0 "$out/apart.h" --names-apart "$out/met.btf"
	header "a ceiling" 0 "$text" --ceiling 6 "$node"
	header "a ceiling that the last id passes" 1 "$text" --ceiling 5 "$node"
	header "a ceiling for each id" 0 "$text" --ceiling 4 "$node" 2 2 2
	header "a ceiling of 65 bits" 2 /dev/null --ceiling 18446744073709551616 "$node"
	header "a pointer of 4 bytes" 0 "$out/narrow.h" -p 4 "$node"
	header "a long text" 0 "$out/far.h" "$out/far.btf"
	header "a long text, by id" 0 "$out/far.h" "$out/far.btf" 2
	header "one id" 0 "$text" "$node" 2
	header "ids, one of them twice" 0 "$text" "$node" 1 2 3 2
	header "an id without text" 0 /dev/null "$node" 1
	header "no such id, after a text" 1 "$text" "$node" 2 4
	header "no section" 1 /dev/null /dev/null
	header "pointer size 5" 1 /dev/null -p 5 "$node"
	header "a long input" 1 /dev/null /dev/zero
	header "an ELF file" 1 /dev/null "$out/guard"
	header "no file" 2 /dev/null "$out/none"
	header "no number" 2 /dev/null "$node" 1x
	header "an unknown option" 2 /dev/null -x
done
"$out/btfheader" --help | grep -q usage
echo "btfheader: 24 uses, ${programs[*]}"
echo "run.sh: all passed, $SECONDS seconds"
