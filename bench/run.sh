#!/bin/sh
# Compares the times of the calls of a sheet with those of the C++ twin. Both programs make the same graph and the same records; they run
# in turn, several times, and the best time of each counts. Two tables are printed:
#
#   1. open, D1, O10, A6 and close, on a picture of 800 x 815 vertices with four neighbours each, and on a random mesh with as many
#      vertices and edges;
#   2. the time of D1 for each edge, on grids and random meshes of 10,000 to 1,000,000 vertices.
#
#   (cd crates/bench_sheet && rt run) && bench/run.sh [quick] [--markdown]
#
# "quick" takes few turns. "--markdown" prints rows of Markdown. The column "at most" is what the ratio should come to; nothing fails
# where it does not, since times move with the load of the machine. The exit status is 1 where the two programs come to different
# weights or records, and 2 where one of them could not be run.
set -eu

turns=9
share=1
markdown=no
for word in "$@"; do
    case $word in
    quick) turns=2 share=4 ;;
    --markdown) markdown=yes ;;
    *)
        echo "usage: bench/run.sh [quick] [--markdown]" >&2
        exit 2
        ;;
    esac
done

here=$(cd "$(dirname "$0")" && pwd)
rattle=$here/../crates/bench_sheet/out/bench_sheet
work=$(mktemp -d)
trap 'rm -rf "$work"' EXIT

if [ ! -x "$rattle" ]; then
    echo "run.sh: there is no crates/bench_sheet/out/bench_sheet: run 'rt run' in crates/bench_sheet first" >&2
    exit 2
fi
g++ -O3 -std=c++17 -o "$work/twin" "$here/twin.cpp" || exit 2
"$work/twin" check >"$work/check" || { cat "$work/check" >&2; exit 2; }

status=0

# row CELL..: one row of a table, the first two cells to the left.
row() {
    if [ "$markdown" = yes ]; then
        printf '|'
        printf ' %s |' "$@"
        printf '\n'
    else
        printf '%-34s %-6s' "$1" "$2"
        shift 2
        printf ' %11s' "$@"
        printf '\n'
    fi
}

# rule COUNT: the line below the head of a Markdown table with so many columns.
rule() {
    [ "$markdown" = yes ] || return 0
    printf '|'
    for _ in $(seq "$1"); do printf -- '---|'; done
    printf '\n'
}

# The best time in a file of results, and the checksum, or 'differ' where there are several.
best() { sed 's/^best \([0-9.]*\) ms.*/\1/' "$1" | sort -n | head -n 1; }
checksum() { sed 's/.*checksum //' "$1" | sort -u | awk 'END { print NR == 1 ? $0 : "differ" }'; }

# compare REPEAT ARGUMENT..: both programs in turn with these arguments and so many runs at each start; sets cpp and ours to the best
# times in ms, ratio to their ratio, and verdict to whether the results agree.
compare() {
    repeat=$(($1 / share + 1))
    shift
    : >"$work/cpp"
    : >"$work/rattle"
    for _ in $(seq "$turns"); do
        "$work/twin" "$@" "$repeat" >>"$work/cpp" || exit 2
        "$rattle" "$@" "$repeat" >>"$work/rattle" || exit 2
    done
    cpp=$(best "$work/cpp")
    ours=$(best "$work/rattle")
    ratio=$(awk -v a="$ours" -v b="$cpp" 'BEGIN { printf "%.2f", a / b }')
    written=$(checksum "$work/cpp")
    verdict=agree
    if [ "$written" = differ ] || [ "$(checksum "$work/rattle")" != "$written" ]; then
        verdict=DIFFER
        status=1
    fi
}

# calls NAME LIMIT MESH..: a row for each call on a mesh; LIMIT is what the ratio of a filter should come to.
calls() {
    name=$1
    limit=$2
    shift 2
    while read -r title repeat most task; do
        # shellcheck disable=SC2086 # a task may be two words
        compare "$repeat" "$@" $task
        [ "$most" = limit ] && most=$limit
        row "$name" "$title" "$cpp" "$ours" "$ratio" "$most" "$verdict"
    done <<END
open 20 - open
D1 20 limit D 1
O10 4 limit O 10
A6 1 limit A 6
close 20 - close
END
}

# per_edge MS M: the time for each of M edges, in ns.
per_edge() { awk -v t="$1" -v m="$2" 'BEGIN { printf "%.2f", t * 1e6 / m }'; }

# growth NAME N M REPEAT MESH..: a row with the time of D1 for each edge.
growth() {
    name=$1
    n=$2
    m=$3
    repeat=$4
    shift 4
    compare "$repeat" "$@" D 1
    row "$name" "$n" "$m" "$(per_edge "$cpp" "$m")" "$(per_edge "$ours" "$m")" "$ratio" "$verdict"
}

row "graph" "call" "C++ ms" "Rattle ms" "Rattle/C++" "at most" "results"
rule 7
calls "picture, 800 x 815" 0.80 grid 800 815
calls "random mesh, same n and m" 1.00 random 652000 1302385 1

printf '\n'
row "graph, D1" "n" "m" "C++ ns/edge" "our ns/edge" "Rattle/C++" "results"
rule 7
growth "grid, 100 x 100" 10000 19800 200 grid 100 100
growth "grid, 400 x 250" 100000 199350 60 grid 400 250
growth "grid, 600 x 500" 300000 598900 30 grid 600 500
growth "grid, 1000 x 1000" 1000000 1998000 12 grid 1000 1000
growth "random mesh, same n and m" 10000 19800 200 random 10000 19800 1
growth "random mesh, same n and m" 100000 199350 60 random 100000 199350 1
growth "random mesh, same n and m" 300000 598900 30 random 300000 598900 1
growth "random mesh, same n and m" 1000000 1998000 12 random 1000000 1998000 1
exit "$status"
