#!/bin/sh
# Builds the Rust original, unchanged, and the driver that runs it beside our library.
#   oracle/build.sh            driver linked with crates/btfdump_c/out/libbtfdump_c.a
#   oracle/build.sh rust       driver of the Rust alone
#   oracle/build.sh bench      the program of bench/, without overflow checks
# Needs rustc, cargo and Debian's librust-regex-dev librust-aho-corasick-dev
# librust-object-dev librust-scroll-dev librust-scroll-derive-dev. No network.
# Everything made here goes to build/oracle.
set -eu
cd "$(dirname "$0")/.."
from=../shared/docs/src/src
to=build/oracle
crates=/usr/share/cargo/registry
archive=crates/btfdump_c/out/libbtfdump_c.a

test -d "$crates" || { echo "oracle: no $crates; install the librust packages named above" >&2; exit 1; }
test -d "$from" || { echo "oracle: no $from" >&2; exit 1; }

# a file is only written where its content changes, so that cargo builds once
put() { cmp -s "$1" "$2" || cp "$1" "$2"; }

mkdir -p "$to/btfdump/src" "$to/counted/src" "$to/driver" "$to/bench"
put oracle/workspace.toml "$to/Cargo.toml"
put oracle/btfdump.toml "$to/btfdump/Cargo.toml"
put oracle/counted.toml "$to/counted/Cargo.toml"
put oracle/driver.toml "$to/driver/Cargo.toml"
put bench/bench.toml "$to/bench/Cargo.toml"
put oracle/driver/build.rs "$to/driver/build.rs"
put oracle/driver/build.rs "$to/bench/build.rs"

# the original: three files as they are, and an empty file for each module we do not have
for f in lib.rs types.rs c_dumper.rs; do
	put "$from/$f" "$to/btfdump/src/$f"
	cmp "$from/$f" "$to/btfdump/src/$f"
done
: > "$to/btfdump/src/btf_index.rs"
: > "$to/btfdump/src/relocator.rs"

# the counted copy: the same files with a counter at each function of a depth group
for f in lib.rs types.rs c_dumper.rs; do
	sed -f "oracle/counted.sed" "$from/$f" > "$to/counted/$f.new"
	put "$to/counted/$f.new" "$to/counted/src/$f"
done
: > "$to/counted/src/btf_index.rs"
: > "$to/counted/src/relocator.rs"
put oracle/counted.rs "$to/counted/src/counted.rs"
n=$(cat "$to"/counted/src/c_dumper.rs "$to"/counted/src/types.rs | grep -c 'crate::counted::')
test "$n" = 9 || { echo "oracle: $n counters instead of 9 in the counted copy" >&2; exit 1; }

what="--release -p driver"
if [ "${1:-}" = bench ]; then what="--profile plain -p bench"; fi
if [ "${1:-}" != rust ]; then
	test -f "$archive" || { echo "oracle: no $archive; run: (cd crates/btfdump_c && rt lib)" >&2; exit 1; }
	what="$what --features ours"
	cmp -s "$archive" "$to/linked.a" || cp "$archive" "$to/linked.a"
fi

# RUSTC_BOOTSTRAP: what print! writes is taken by std::io::set_output_capture
export RUSTC_BOOTSTRAP=1
cargo build --quiet --offline --manifest-path "$to/Cargo.toml" --target-dir "$to/target" \
	--config 'source.crates-io.replace-with="debian"' \
	--config "source.debian.directory=\"$crates\"" $what
