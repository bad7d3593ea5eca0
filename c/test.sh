#!/bin/sh
# Builds the static library and drives it from C (test.c): under the address and the undefined behaviour sanitizer, which see the
# test and the calls of malloc, free, memcpy and memset; and where valgrind is present plainly under it, which sees inside the library.
# Run by hand: the gate (rt ci) proves the library and does not link it. Needs cc. Exits with 1 where anything fails.
set -eu
here=$(cd "$(dirname "$0")" && pwd -P)
work=$(mktemp -d)
trap 'rm -rf "$work"' EXIT
cd "$here/.."
kit=$(dirname "$(rt doc)")
(cd crates/c_library && rt lib) >"$work/said" 2>&1 || { cat "$work/said"; exit 1; }

# build FLAGS...: compiles the test and links it with the library
build() {
    cc -std=c11 -Wall -Wextra -Werror -g "$@" -Wl,--wrap=malloc "$here/test.c" crates/c_library/out/libc_library.a "$kit/c/liblibc_c.a" -o "$work/test"
}

build -O1 -fsanitize=address,undefined -fno-sanitize-recover=all
"$work/test"
build -O2
"$work/test"
if command -v valgrind >/dev/null; then
    valgrind -q --error-exitcode=1 --leak-check=full --errors-for-leak-kinds=all "$work/test" 100
else
    echo "valgrind is not present: the library's own reads and writes are held by guard pages alone"
fi
if command -v c++ >/dev/null; then
    c++ -Wall -Wextra -Werror -fsyntax-only -x c++ "$here/evaluator.h"
fi
echo "ok: the library does from C what it is to do"
