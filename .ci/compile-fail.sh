#!/bin/sh
# Checks that each text of compile-fail/ does not compile, for the reason that it names.
#
# One line of a text ends in '//~ CODE'. The text as it stands must be refused by error[CODE] at that line, and by nothing else;
# without that line it must be proved, so that nothing else in it is refused.
# Each text stands as a crate of its own in a temporary copy of the libraries, which rt check builds there: quickly where an earlier
# check on this machine kept its work, and else from nothing. It writes to a temporary folder alone.
set -u
root=$(cd "$(dirname "$0")/.." && pwd -P)
work=$(mktemp -d) || exit 2
trap 'rm -rf "$work"' EXIT
failed=0 tried=0

say() { printf '%s\n' "$*"; }
fail() { say "FAILED $*"; failed=$((failed + 1)); }

# The libraries that a text may use: sheet, and what it stands on.
libraries="$(sed -n 's/^sheet: //p' "$root/crates.txt") sheet"
for library in $libraries; do
    mkdir -p "$work/crates/$library"
    for part in src specs proofs; do
        [ ! -d "$root/crates/$library/$part" ] || cp -R "$root/crates/$library/$part" "$work/crates/$library/"
    done
    grep "^$library:" "$root/crates.txt" >>"$work/crates.txt"
done
printf 'text: %s\n' "$libraries" >>"$work/crates.txt"
mkdir -p "$work/crates/text/src"
text_file=$work/crates/text/src/lib.rt

# Checks the crate of the text.
compile() {
    (cd "$work/crates/text" && rt check) >"$work/said" 2>&1
}

for text in "$root"/compile-fail/*.txt; do
    tried=$((tried + 1))
    name=$(basename "$text" .txt)
    marked=$(grep -n '//~ ' "$text")
    line=${marked%%:*} code=${marked##*//~ }
    expected="src/lib\.rt:$line:[0-9]*: error\[$code\]"
    case $marked in
    '' | *'
'*) fail "$name: one line has to end in '//~ CODE'"; continue ;;
    esac
    sed "${line}d" "$text" >"$text_file"
    if ! compile || ! tail -n 1 "$work/said" | grep -q '^logic=proved '; then
        fail "$name: without line $line it is refused too"
        tail -n 20 "$work/said"
        continue
    fi
    cp "$text" "$text_file"
    if compile; then
        fail "$name: it compiles"
    elif ! grep -q "$expected" "$work/said" || grep 'error' "$work/said" | grep -v -q "$expected"; then
        fail "$name: it is not refused by error[$code] at line $line alone"
        tail -n 20 "$work/said"
    else
        say "does not compile, as it must not: $name, error[$code]"
    fi
done
[ "$tried" -gt 0 ] || fail "compile-fail/ has no text"
say "compile-fail: $tried tried, $failed failed"
[ "$failed" -eq 0 ]
