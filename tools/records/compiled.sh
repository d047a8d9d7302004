#!/bin/sh
# Compiles kinds.c (clang 14, target bpf) and says whether the type section that it writes is `clang_bytes` of
# crates/spec_linux_btf/proofs/Compiled.antt. The mapped path has the length of the path at which that example was made: with it the
# name offsets are the same wherever this runs. Needs clang, llvm-objcopy and python3, and no network.
set -e
cd "$(dirname "$0")"
out=$(mktemp -d)
trap 'rm -r "$out"' EXIT
clang -target bpf -g -O2 -ffile-prefix-map="$PWD=/crates/records/proofs/Compiled.antt/clang_file" -c kinds.c -o "$out/kinds.o"
llvm-objcopy --dump-section .BTF="$out/kinds.btf" "$out/kinds.o"
python3 - "$out/kinds.btf" ../../crates/spec_linux_btf/proofs/Compiled.antt <<'PY'
import re, struct, sys
section, text = open(sys.argv[1], 'rb').read(), open(sys.argv[2]).read()
hdr_len, type_off, type_len, str_off, str_len = struct.unpack_from('<5I', section, 4)
types = list(section[hdr_len + type_off:][:type_len])
stored = [int(n) for n in re.findall(r'\d+', re.search(r'clang_bytes =\n(.*?)∷ \[\]', text, re.S).group(1))]
same = types == stored and f'layout_sound {str_len} clang_bytes' in text
print('the same' if same else 'different')
sys.exit(not same)
PY
