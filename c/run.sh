#!/bin/sh
# Builds the static library, links the example with it and compares what it writes with example.stdout.
# Run by hand: the gate (rt ci) proves the library and does not link it. Needs cc. Exits with 1 where anything differs.
set -eu
here=$(cd "$(dirname "$0")" && pwd -P)
work=$(mktemp -d)
trap 'rm -rf "$work"' EXIT
cd "$here/.."
kit=$(dirname "$(rt doc)")
(cd crates/c_library && rt lib) >"$work/said" 2>&1 || { cat "$work/said"; exit 1; }
cc -std=c11 -Wall -Wextra -Wpedantic -Werror -O2 "$here/example.c" crates/c_library/out/libc_library.a "$kit/c/liblibc_c.a" -o "$work/example"
"$work/example" >"$work/wrote"
diff "$here/example.stdout" "$work/wrote"
echo "ok: the example writes what it is to write"
