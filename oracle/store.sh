#!/bin/sh
# Makes the stored answers of the Rust again, byte for byte, and says whether
# they are those that stand in oracle/answers.cases.
#   oracle/store.sh [write]      write: put them there
set -eu
cd "$(dirname "$0")/.."
stored=oracle/answers.cases
made=build/oracle/answers.cases
oracle/build.sh rust
build/oracle/target/release/driver answers 1 "$made"
if [ "${1:-}" = write ]; then cp "$made" "$stored"; fi
cmp "$made" "$stored" && echo "the same as $stored"
