#!/bin/bash
# More edits that the gate would refuse, beside those of crates/*/must-fail that it tries: edits.sh [CRATE ..]
# Each alters a contract that another edit alters too, and the prover must refuse it. Those of btfdump, whose main has no
# contract, are proved: the program is built, and tests/program.c must find it wrong (tests/run.sh compiles that).
# Works in a copy, and begins with what `rt check` kept in the crates' out/. Each crate is checked there first: in one that is
# not proved as it stands, a refusal says nothing of an edit.
set -euo pipefail
cd "$(dirname "$0")/.."
top=$PWD
copy=$(mktemp -d)
trap 'rm -rf "$copy"' EXIT
crates=("$@")
[ $# -gt 0 ] || crates=($(ls tests/edits))
cp -a crates crates.txt "$copy"
[ ! -f HANDLES ] || cp -a HANDLES "$copy"
rm -rf "$copy"/crates/*/must-fail

program_runs() { # builds the copy's program and runs it on the stored sections; what the test says stands in $said
	(cd "$copy/crates/btfdump" && rt run <stdin >"$copy/printed" 2>"$copy/built") || { cat "$copy/built"; exit 1; }
	said=$("$top/build/tests/program" "$copy/crates/btfdump/out/btfdump" "$copy"/crates/btfdump_replay/data/*.btf)
}
programs() {
	local edit
	[ -x build/tests/program ] || { echo "edits.sh: first tests/run.sh" >&2; exit 1; }
	program_runs || { echo "$said"; echo "edits.sh: the program is wrong as it stands"; exit 1; }
	for edit in tests/edits/btfdump/*.edit; do
		cp -a crates/btfdump/src/. "$copy/crates/btfdump/src/"
		python3 - "$edit" "$copy/crates/btfdump" <<'END'
import sys
for line in open(sys.argv[1]):
    word, _, text = line.rstrip("\n").partition(": ")
    if word == "file":
        path = f"{sys.argv[2]}/{text}"
    elif word == "old":
        old = text
    elif word == "new":
        whole = open(path).read()
        if whole.count(old) != 1:
            sys.exit(f"edits.sh: {sys.argv[1]}: not once: {old}")
        open(path, "w").write(whole.replace(old, text))
END
		if program_runs || ! grep -q '; [1-9][0-9]* differ$' <<<"$said"; then
			echo "$said"
			echo "edits.sh: $edit: NOT FOUND WRONG"
			exit 1
		fi
		echo "$edit: found wrong, ${said##*; }"
	done
}

proved=()
for crate in "${crates[@]}"; do
	if [ "$crate" = btfdump ]; then
		programs
	else
		cp -a "tests/edits/$crate" "$copy/crates/$crate/must-fail"
		proved+=("$crate")
	fi
done
cd "$copy"
for crate in "${proved[@]}"; do
	said=$(cd "crates/$crate" && rt check 2>&1) || {
		echo "$said"
		echo "edits.sh: $crate is not proved as it stands"
		exit 1
	}
done
[ ${#proved[@]} = 0 ] || rt must-fail "${proved[@]}"
