#!/bin/sh
# Our library beside the Rust, on the same sections, in one run.
#   bench/run.sh [quick]       quick: wall times only
# Tables: the kernel's own where /sys/kernel/btf/vmlinux is readable, else one of
# that shape and size; generated tables of 1, 2, 4 and 8 times 15,820 types; hostile ones.
# The Rust is built as cargo's release profile has it, unchanged. Its opening is
# Btf::load_raw and CDumper::new, all ids is dump_types with a filter that takes all.
# print! writes a line at a time to standard output, which is /dev/null here; "into
# memory" has no system call at all and is the kindest case for the Rust.
# Ours is lent the work words that document 01 names and exactly the text needed.
set -eu
cd "$(dirname "$0")/.."
oracle/build.sh bench
bench=build/oracle/target/plain/bench
tables=build/bench
kernel=/sys/kernel/btf/vmlinux
"$bench" make "$tables"
test -r "$kernel" || kernel="$tables/generated-8.btf"

# bytes of text that all ids of a section take
text() { TEXT=134217728 "$bench" memory ours "$1" | sed 's/.*text \([0-9]*\) bytes.*/\1/'; }

# instructions of one of the four, counted inside the measured functions alone. (valgrind counts a `rep stosb` once for
# each byte; with these thresholds the C library clears and copies by vector stores, for both sides.)
plain=glibc.cpu.x86_rep_stosb_threshold=1000000000:glibc.cpu.x86_rep_movsb_threshold=1000000000
instructions() {
	case $1 in
	ours-open) in=measured_ours_open ;;
	ours-all) in=measured_ours_all ;;
	rust-open) in='measured_rust_load --toggle-collect=measured_rust_new' ;;
	rust-all) in=measured_rust_all ;;
	esac
	# shellcheck disable=SC2086
	GLIBC_TUNABLES=$plain TEXT=$3 valgrind --tool=callgrind --callgrind-out-file="$tables/callgrind.$1" --main-stacksize=8388608 \
		--toggle-collect=$in "$bench" count "$1" "$2" 2>&1 | sed -n 's/.*Collected : //p'
}

echo "wall time (medians of 15 rounds, 31 for tables under 3 MB)"
for t in "$kernel" "$tables"/generated-[1248].btf; do "$bench" time "$t"; done
echo "hostile tables (one run each)"
"$bench" hostile "$tables"
test "${1:-}" != quick || exit 0

echo "peak memory, $kernel"
TEXT=$(text "$kernel") "$bench" memory ours "$kernel"
"$bench" memory rust "$kernel"

echo "stack of our calls"
"$bench" stack "$kernel"

echo "instructions"
for t in "$kernel" "$tables"/generated-[1248].btf; do
	n=$(text "$t")
	for what in open all; do
		ours=$(instructions ours-$what "$t" "$n")
		rust=$(instructions rust-$what "$t" "$n")
		ratio=$(awk "BEGIN { printf \"%.3f\", $ours / $rust }")
		echo "$(basename "$t") $what: ours $ours Rust $rust ratio $ratio"
	done
done
