#!/bin/sh
# Compares the program `evaluate` and the C library with the reference evaluator of tests/reference, on random cases.
#
#   tests/compare.sh [--cases COUNT] [--start NUMBER] [--program-only | --library-only | --reference-only]
#                    [--program PATH] [--archive PATH]
#
# COUNT cases (3000) from case NUMBER (1) on; a case depends on its number alone. It ends with status 1 at the first case that does
# not agree, and saves it in target/compare/failed. --reference-only needs no product: it checks the reference against the examples
# of docs/ and against the grid evaluator.
set -eu
cd "$(dirname "$0")/.."

build=target/compare
program=crates/evaluate/out/evaluate
archive=crates/c_library/out/libc_library.a
cases=3000
start=1
with_program=yes
with_library=yes

usage() {
    sed -n 's/^# \{0,1\}//; 2,9p' "$0" >&2
    exit 2
}

while [ $# -gt 0 ]; do
    case $1 in
    --program-only) with_library=no ;;
    --library-only) with_program=no ;;
    --reference-only) with_program=no with_library=no ;;
    --cases | --start | --program | --archive)
        [ $# -gt 1 ] || usage
        case $1 in
        --cases) cases=$2 ;;
        --start) start=$2 ;;
        --program) program=$2 ;;
        --archive) archive=$2 ;;
        esac
        shift
        ;;
    *) usage ;;
    esac
    shift
done

if [ $with_program = yes ] && [ ! -x "$program" ]; then
    echo "compare: there is no program $program: build it first (rt run in crates/evaluate), or say --library-only or --reference-only" >&2
    exit 2
fi
missing=no
if [ $with_library = yes ] && [ ! -f "$archive" ]; then
    if [ $with_program = no ]; then
        echo "compare: there is no archive $archive: build it first (rt lib in crates/c_library)" >&2
        exit 2
    fi
    missing=yes with_library=no
fi
say_missing() {
    if [ $missing = yes ]; then
        echo "*** THE C LIBRARY IS NOT COMPARED: there is no $archive (rt lib in crates/c_library) ***"
    fi
}

# Building.
compile="${CXX:-g++} -std=c++17 -O2 -Wall -Wextra -Werror"
mkdir -p $build
if [ ! -f $build/built ] || [ -n "$(find tests \( -name '*.cpp' -o -name '*.hpp' \) -newer $build/built)" ]; then
    for source in tests/reference/*.cpp tests/compare/*.cpp; do
        case $source in
        */library.cpp | */stand_in.cpp) ;;
        *) $compile -c "$source" -o "$build/$(basename "$source" .cpp).o" ;;
        esac
    done
    $compile $build/evaluator.o $build/self_check.o -o $build/self_check
    $compile $build/evaluator.o $build/main.o -o $build/reference
    touch $build/built
fi
if [ $with_library = yes ]; then
    $compile -Ic -c tests/compare/library.cpp -o $build/library.o
    libraries="$archive $(dirname "$(rt doc)")/c/liblibc_c.a -lpthread -ldl -lm"
else
    $compile -DWITHOUT_LIBRARY -c tests/compare/library.cpp -o $build/library.o
    libraries=
fi
objects=
for name in compare cases library pictures program shapes texts evaluator; do objects="$objects $build/$name.o"; done
# shellcheck disable=SC2086
$compile $objects $libraries -o $build/compare

# Comparing.
$build/self_check
say_missing
work=$(mktemp -d)
trap 'rm -rf "$work"' EXIT
set -- --cases "$cases" --start "$start" --save $build/failed --work "$work"
[ $with_program = no ] || set -- "$@" --program "$program"
[ $with_library = no ] || set -- "$@" --library
status=0
$build/compare "$@" || status=$?
say_missing
exit $status
