#!/bin/sh
# Holds our library against the Rust.
#   oracle/compare.sh [sections] [seed]      default 20000 1
# First the largest sizes, the recorded sections and the kernel's own table where
# there are any, then so many generated sections. Prints counts by outcome and the
# number of differences; a difference leaves its smallest section in
# build/oracle/difference-*.btf, told in the .txt beside it.
set -eu
cd "$(dirname "$0")/.."
oracle/build.sh
driver=build/oracle/target/release/driver
vectors=../shared/vectors
kernel=/sys/kernel/btf/vmlinux

"$driver" limits
if [ -d "$vectors" ]; then
	"$driver" recorded "$vectors"/*.btf
	"$driver" files "$vectors"/*.btf
fi
if [ -r "$kernel" ]; then "$driver" files "$kernel"; fi
exec "$driver" compare "${1:-20000}" "${2:-1}"
